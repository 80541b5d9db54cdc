//! Stopblocker for Rust: a desk that hands out claims on the figures of storage disks.
//!
//! A [`Board`] holds up to 64 disks, each with three attributes: used, promised and state. A [`Claim`] is on one method
//! of one disk and is held until its [`Release`]; a write shows in the figures at its release, a reading states how
//! much error it can bear. The desk grants, lets wait or refuses, and it is proved: this crate calls the `step` that the
//! repository's crate `kit` exports.
//!
//! ```
//! use stopblocker::{Board, Claim, Disk, Open, Release};
//!
//! let mut board = Board::new();
//! let disk = Disk::new(3).unwrap();
//! board.open(Open::new(disk, 100, 1_000, 500))?;
//!
//! // An agent reports 40,000 MiB used, measured at second 100, give or take 20; its release makes it show.
//! let report = board.claim(Claim::report_used(disk, 100, 40_000, 20).priority(5))?;
//! board.release(Release::new(disk, 101, report.ticket()))?;
//!
//! // A planner reads the load and can bear an error of 1,000.
//! let claim = Claim::read_load(disk, 102, 1_000).priority(5).fresh();
//! let reading = board.claim(claim)?.granted().expect("nobody writes, and the figures are fresh");
//! assert_eq!((reading.told, reading.amount), (40_000, 20));
//!
//! // A worker promises 980, all that the planner can still bear: granted. A second worker's 1 MiB has to wait.
//! board.claim(Claim::add_promised(disk, 103, 980, 0).priority(5))?;
//! let claim = Claim::add_promised(disk, 104, 1, 0).priority(5);
//! let second = board.claim(claim)?.waits().expect("the planner's figure stands");
//!
//! // The planner lets go, and the pass grants what waited for it.
//! let released = board.release(Release::new(disk, 105, reading.ticket))?;
//! assert_eq!(released.grants[0].ticket, second.ticket);
//! # Ok::<(), stopblocker::Refusal>(())
//! ```
//!
//! Requests are typed, so no call through [`Board`] is refused 9, 10, 11 or 16; [`step`] takes any bytes.
//! A call takes the board by `&mut`: one call at a time on one board. The crate uses no lock and no global state.

#![deny(unsafe_op_in_unsafe_fn, missing_docs, unsafe_code)]

mod answer;
mod board;
mod claim;
mod disk;
pub mod layout;
#[allow(unsafe_code)]
mod raw;
mod refusal;
mod request;
mod view;

pub use answer::{Answer, Claimed, Granted, Item, Opened, Released, Waits};
pub use board::{Board, WrongLength};
pub use claim::Claim;
pub use disk::{Disk, Method};
pub use raw::step;
pub use refusal::Refusal;
pub use request::{Open, Release, Request};
pub use view::{ClaimView, DiskView, Figure, State};

/// The example of docs/HOST.md is run as a test.
#[cfg(doctest)]
#[doc = include_str!("../../../docs/HOST.md")]
struct HostPage;
