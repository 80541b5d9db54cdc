//! The desk beside a hand-written engine and SQLite, on the same records.

mod chance;
pub mod clock;
pub mod equal;
pub mod hand;
pub mod making;
pub mod random;
pub mod situations;
mod sqlite;
pub mod store;
pub mod turns;
pub mod workload;
