//! `sb explain`: the program's output lines in words.

use super::Command;
use crate::arguments::{Options, Takes};
use crate::ending::{complain, print, Ending};
use crate::hint::out_of_range;
use crate::input;
use crate::line::Line;
use crate::pieces::{self, Piece};
use crate::record::Record;
use crate::words::Teller;
use crate::write_text::line_of;
use stopblocker::Disk;

pub const COMMAND: Command =
    Command { name: "explain", help: HELP, takes: Takes { values: &["--records"], flags: &[], file: true }, run };

const HELP: &str = "\
sb explain [--records FILE] [FILE]

Reads the program's output, lines such as

    1 3 3 0 0 0
    +5 3 0 3 0 600

and says each in words as it comes; a refusal with its sentence and a hint what to do. With --records, the requests that
the lines answer, as text or as records, the words also say what each ticket is for.

A line that the program does not print, or that does not fit the records, is reported on standard error; the others are
said, and the exit code is 1. A refusal is an answer: it leaves the exit code 0.
";

fn run(options: &Options) -> Result<(), Ending> {
    let asked = match options.value("--records") {
        Some(name) => Some(pieces::of_either(&input::all(Some(name))?).map_err(|ending| ending.of_file(name))?),
        None => None,
    };
    let file = options.file.as_deref();
    let mut reader = input::reader(file)?;
    let mut teller = Teller::default();
    let mut bad = false;
    for number in 1.. {
        let mut bytes = Vec::new();
        if reader.read_until(b'\n', &mut bytes).map_err(|error| input::cannot_read(file, &error))? == 0 {
            break;
        }
        match said(&mut teller, &String::from_utf8_lossy(&bytes), number, asked.as_deref()) {
            Ok(words) => print(words.as_bytes())?,
            Err(fault) => {
                complain(&format!("sb explain: {fault}"));
                bad = true;
            }
        }
    }
    if bad {
        Err(Ending::Input(Vec::new()))
    } else {
        Ok(())
    }
}

fn said(teller: &mut Teller, text: &str, number: usize, asked: Option<&[Piece]>) -> Result<String, String> {
    let line = match Line::of(text).map_err(|fault| fault.on_line(number))? {
        Some(line) => line,
        None => return Ok(String::new()),
    };
    let record = match asked {
        Some(pieces) => Some(answered(&line, pieces).map_err(|why| format!("line {number}: {why}"))?),
        None => None,
    };
    Ok(teller.tell(&line, record))
}

/// The record that a line answers, or why it answers none of the given records.
fn answered<'a>(line: &Line, pieces: &'a [Piece]) -> Result<&'a Result<Record, String>, String> {
    let place = usize::try_from(line.record - 1).ok();
    let piece = place.and_then(|place| pieces.get(place));
    let record = &piece.ok_or(format!("record {}, but only {} were sent", line.record, pieces.len()))?.record;
    let said = match record {
        Err(why) if line.item.code != 10 => why.clone(),
        Ok(record) if !may_answer(line, record) => format!("\"{}\"", line_of(record)),
        _ => return Ok(record),
    };
    Err(format!("no answer to record {}, which is {said}", line.record))
}

/// Whether a line can be the answer to a well-formed record. If not, another record was sent.
fn may_answer(line: &Line, record: &Record) -> bool {
    let in_range = out_of_range(record).is_empty();
    match (record, line.item.code) {
        (_, 9) => true,
        (_, 10) => false,
        (_, 11) => line.disk == record.disk() && Disk::new(line.disk).is_none(),
        _ if line.disk != record.disk() || Disk::new(line.disk).is_none() => false,
        (Record::Release { .. }, 0) => line.of_pass,
        _ if line.of_pass => false,
        (Record::Open { .. }, 3) => in_range,
        (Record::Open { .. }, 12) => true,
        (Record::Open { .. }, 17) => !in_range,
        (Record::Claim(_), 13..=15) => true,
        (Record::Claim(claim), 16) => claim.known_method().is_none(),
        (Record::Claim(_), 17) => !in_range,
        (Record::Claim(claim), 0 | 1 | 18..=20) => in_range && claim.known_method().is_some(),
        (Record::Release { ticket, .. }, 2) => *ticket == line.item.ticket,
        (Record::Release { .. }, 13..=15 | 21) => true,
        _ => false,
    }
}
