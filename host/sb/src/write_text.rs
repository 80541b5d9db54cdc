//! Turns a record into a line of text, from which the same record can be read back.

use crate::record::{Claim, Record};
use std::fmt::Write;

pub fn line_of(record: &Record) -> String {
    match *record {
        Record::Open { disk, now, used_limit, promised_limit } => {
            format!("open {disk} at {now} used-limit {used_limit} promised-limit {promised_limit}")
        }
        Record::Claim(claim) => claim_line(&claim),
        Record::Release { disk, now, ticket } => format!("release {disk} ticket {ticket} at {now}"),
    }
}

fn claim_line(claim: &Claim) -> String {
    let Claim { disk, now, method, priority, fresh, measured, value, error } = *claim;
    let mut line = match claim.known_method() {
        Some(known) if known.is_reading() => {
            let mut line = format!("claim {disk} {known:?} limit {error}");
            // The desk refuses a reading with these, but a record can have them.
            put(&mut line, "value", i64::from(value));
            put(&mut line, "measured", i64::from(measured));
            line
        }
        Some(known) => format!("claim {disk} {known:?} {value} own {error} measured {measured}"),
        None => format!("claim {disk} {method} value {value} own {error} measured {measured}"),
    };
    line += &format!(" at {now}");
    put(&mut line, "priority", i64::from(priority));
    if fresh {
        line += " fresh";
    }
    line
}

/// Adds a field, unless it is 0, its default.
fn put(line: &mut String, word: &str, number: i64) {
    if number != 0 {
        write!(line, " {word} {number}").expect("a string takes it");
    }
}
