//! The separate second program: the desk once more, written from the paper alone.
//!
//! Plain structs and 64-bit numbers; the bytes of a board, a record or an answer buffer
//! are met only at the border (`layout`, `record`, `outcome`).

mod desk;
mod disk;
mod grant;
mod layout;
mod outcome;
pub mod record;
mod rules;
mod sound;
mod table;
pub mod watch;

#[cfg(test)]
mod tests;

pub use desk::Desk;
pub use disk::{Attribute, Claim, Disk};
pub use layout::encode;
pub use outcome::{Item, Outcome};
pub use rules::Refusal;
pub use sound::sound;
pub use table::{entry, Action, Entry, Method, TABLE};

/// "The board is 49,216 bytes".
pub const BOARD: usize = 49_216;
/// "64 parts of 768 bytes".
pub const PART: usize = 768;
/// "24 bytes, little-endian".
pub const RECORD: usize = 24;
/// "The answer buffer is 144 bytes".
pub const ANSWER: usize = 144;

/// "a 64-byte head".
pub const HEAD: usize = 64;
/// "a board of up to 64 disks".
pub const DISKS: usize = 64;
