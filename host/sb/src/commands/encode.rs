//! `sb encode`: text to records.

use super::Command;
use crate::arguments::{Options, Takes};
use crate::ending::{print, Ending};
use crate::{input, pieces};

pub const COMMAND: Command =
    Command { name: "encode", help: HELP, takes: Takes { values: &[], flags: &[], file: true }, run };

const HELP: &str = "\
sb encode [FILE]

Reads lines of text and writes records of 24 bytes to standard output. One request a line:

    open 3 at 100 used-limit 1,000 promised-limit 500
    claim 3 ReportUsed 40,000 own 20 measured 100 at 100 priority 5
    claim 3 AddPromised -300 own 0 measured 101 at 101
    claim 3 SetPromised 700 at 101
    claim 3 SetState 2 measured 7 at 9
    claim 3 ReadUsed limit 50,000 at 101 priority 5 fresh
    claim 3 ReadLoad limit 1,000 at 101
    claim 3 ReadState at 101
    release 3 ticket 2 at 103          # what is behind # is a comment

Disk first, then a claim's method, then the rest in any order:
    at N              the second of the request; always needed
    own N             a write's own error in MiB; 0 unless said
    measured N        a write's second of measuring; the request's second unless said
    limit N           the error that a reading can bear; ReadState's is 0 unless said
    priority N        0 to 255, 255 the highest; 0 unless said
    fresh             a reading that asks for fresh figures
Numbers may be written 40000, 40_000 or 40,000. Capital letters do not matter.

Any well-formed record can be written, also one that the desk refuses: a disk or a method may be a number up to 255, a
reading may have value N and measured N, a write may be fresh.

Every bad line is reported with its number, the wrong word and what was expected; then nothing is written, exit code 1.
";

fn run(options: &Options) -> Result<(), Ending> {
    let text = input::all(options.file.as_deref())?;
    if pieces::are_records(&text) {
        let fault =
            "the input is no text: it begins with a record's mark or holds a zero byte; sb decode reads records";
        return Err(Ending::input(fault.to_string()));
    }
    let pieces = pieces::of_text(&text)?;
    print(&pieces.into_iter().flat_map(|piece| piece.bytes).collect::<Vec<u8>>())
}
