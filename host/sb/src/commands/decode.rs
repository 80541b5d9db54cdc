//! `sb decode`: records to text.

use super::Command;
use crate::arguments::{Options, Takes};
use crate::ending::{print, Ending};
use crate::write_text::line_of;
use crate::{input, pieces};

pub const COMMAND: Command =
    Command { name: "decode", help: HELP, takes: Takes { values: &[], flags: &["--skip"], file: true }, run };

const HELP: &str = "\
sb decode [--skip] [FILE]

Reads records of 24 bytes and writes a line of text for each, as sb encode reads it: encoded again they are the same
bytes.

Every piece that is no record is reported with its number and why; then nothing is written, exit code 1. With --skip the
others are written, and a comment stands in the place of each that is none; the exit code is still 1.
";

fn run(options: &Options) -> Result<(), Ending> {
    let records = input::all(options.file.as_deref())?;
    if !records.is_empty() && !pieces::are_records(&records) {
        return Err(Ending::input("the input is text, and no records; sb encode makes records of it".to_string()));
    }
    let mut text = String::new();
    let mut faults = Vec::new();
    for (k, piece) in pieces::of_records(&records).iter().enumerate() {
        match &piece.record {
            Ok(record) => text += &format!("{}\n", line_of(record)),
            Err(why) => {
                text += &format!("# record {}: {why}\n", k + 1);
                faults.push(format!("record {}: {why}", k + 1));
            }
        }
    }
    if faults.is_empty() || options.flag("--skip") {
        print(text.as_bytes())?;
    }
    if faults.is_empty() {
        Ok(())
    } else {
        Err(Ending::Input(faults))
    }
}
