//! The trial of the desk: the exported `step` and the second program get the same calls, and are compared byte for byte.
//!
//! `trial` makes rounds of `event`s (`traffic`, `claims`, `aims`, `outside`, `odd`, `damage`), `beside` gives each event to both
//! and compares, `shrink` shortens a failing list and `words` prints it. `fuzz` lends any bytes between guard pages.
//! `wrong` and `overrun` have wrong desks that the trial must detect. `program` sends records to the program, `lines` works
//! out the lines that it must print, `output` compares; `filters` has wrong outputs that the trial must detect.

mod aims;
pub mod beside;
pub mod chance;
mod claims;
pub mod counts;
mod damage;
pub mod edges;
pub mod event;
pub mod filters;
pub mod fuzz;
mod guard;
mod hurt;
pub mod lines;
mod odd;
mod output;
mod outside;
pub mod overrun;
pub mod program;
pub mod shrink;
mod simpler;
mod traffic;
pub mod trial;
pub mod words;
pub mod wrong;
