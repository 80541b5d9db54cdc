//! The lines that the program must print, made by 01's rule from the second program's outcomes; and counts of them.

use crate::counts::print_named;
use second::{Outcome, RECORD};
use std::io::Write;

/// The codes that the program can print: its buffers have the right lengths (no 9), and only calls write its board (no 14).
const CODES: [usize; 15] = [0, 1, 2, 3, 10, 11, 12, 13, 15, 16, 17, 18, 19, 20, 21];

#[derive(Clone, Debug, Default)]
pub struct Counts {
    pub runs: u64,
    pub records: u64,
    codes: [u64; 22],
    pass_grants: u64,
    told_below_0: u64,
    short_pieces: u64,
    pub pieces: u64,
    /// How many of these end inside a record.
    pub cuts: u64,
}

/// Writes the line of a record, and a line with "+" for each grant of its pass; returns how many lines that are.
pub fn write_lines(lines: &mut Vec<u8>, number: u64, record: &[u8], outcome: &Outcome) -> usize {
    let mut line = |plus: &str, disk: u8, code: u32, ticket: u32, told: i32, amount: u32| {
        writeln!(lines, "{plus}{number} {disk} {code} {ticket} {told} {amount}").expect("a Vec takes all");
    };
    match outcome {
        // "a record refused 10 shows disk 0"
        Outcome::Refused(10) => line("", 0, 10, 0, 0, 0),
        Outcome::Refused(code) => line("", record[3], *code, 0, 0, 0),
        Outcome::Accepted(items) => {
            for (k, item) in items.iter().enumerate() {
                let plus = if k == 0 { "" } else { "+" };
                line(plus, record[3], item.code, item.ticket, item.told, item.amount);
            }
            return items.len();
        }
        Outcome::Nine => unreachable!("the program lends buffers of the right length"),
    }
    1
}

impl Counts {
    pub fn count(&mut self, record: &[u8], outcome: &Outcome) {
        self.records += 1;
        self.codes[outcome.code() as usize] += 1;
        self.short_pieces += u64::from(record.len() < RECORD);
        if let Outcome::Accepted(items) = outcome {
            self.pass_grants += items.len() as u64 - 1;
            self.told_below_0 += items.iter().filter(|item| item.told < 0).count() as u64;
        }
    }

    /// Prints all counts; returns the names of those that are zero.
    pub fn print(&self) -> Vec<String> {
        let mut all: Vec<(String, u64)> =
            CODES.iter().map(|&code| (format!("code {code}"), self.codes[code])).collect();
        for (name, count) in [
            ("lines with \"+\"", self.pass_grants),
            ("told below 0", self.told_below_0),
            ("short last pieces", self.short_pieces),
            ("pieces written", self.pieces),
            ("pieces that end inside a record", self.cuts),
            ("runs of the program", self.runs),
        ] {
            all.push((name.to_string(), count));
        }
        print_named(all)
    }
}
