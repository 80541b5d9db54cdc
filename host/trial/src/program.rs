//! The program beside the second program: it gets random records on its standard input, in pieces of any size, and each line
//! of its output is compared. Every run of the program begins with the empty board.

use crate::chance::Chance;
use crate::lines::{write_lines, Counts};
use crate::odd;
use crate::output::{compare_lines, Batch, Sent};
use crate::traffic::Traffic;
use second::{Desk, ANSWER, BOARD, RECORD};
use std::io::Write;
use std::path::Path;
use std::process::{Command, Stdio};
use std::sync::mpsc::{channel, Sender};
use std::thread;

/// In a trial of this many records every count must be above zero; its first run uses up the tickets of a disk.
pub const SEES_ALL: u64 = 3_000_000;
/// Records of every other run, at most.
const RUN: u64 = 16_384;
/// Records that a run goes on for when the tickets are used up.
const USED_UP: u64 = 4_096;

/// Starts ./stopblocker, with its output through a filter if one is given.
pub fn program(filter: Option<&str>) -> Command {
    let path = Path::new(env!("CARGO_MANIFEST_DIR")).join("../../stopblocker");
    match filter {
        None => Command::new(path),
        Some(filter) => {
            let mut bash = Command::new("bash");
            bash.arg("-c").arg(format!("\"$0\" | {filter}")).arg(path);
            bash
        }
    }
}

/// Runs the program until so many records are compared; an error says what differs.
pub fn compare(program: &dyn Fn() -> Command, records: u64, seed: u64) -> Result<Counts, String> {
    let mut chance = Chance::new(seed);
    let mut counts = Counts::default();
    while counts.records < records {
        counts.runs += 1;
        let left = records - counts.records;
        let wears = counts.runs == 1 && records >= SEES_ALL;
        let length = if wears { left } else { left.min(RUN) };
        let worn = wears.then(|| chance.below(64) as u8);
        let run = Run { number: 0, length, worn, traffic: Traffic::new(chance.word()), second: Desk::empty() };
        one_run(program(), run, &mut Chance::new(chance.word()), &mut counts)
            .map_err(|text| format!("seed {seed}, run {}, {text}", counts.runs))?;
    }
    Ok(counts)
}

/// The records of one run of the program, one after the other.
struct Run {
    /// The number of the last record, from 1.
    number: u64,
    length: u64,
    /// The disk whose tickets are used up.
    worn: Option<u8>,
    traffic: Traffic,
    second: Desk,
}

impl Run {
    /// The next record; None at the end. One run in two ends with a short piece.
    fn next(&mut self, chance: &mut Chance) -> Option<Vec<u8>> {
        if self.number >= self.length {
            return None;
        }
        let tickets_left =
            |disk: u8| self.second.disk(usize::from(disk)).map_or(true, |disk| disk.next_ticket <= odd::LAST_TICKET);
        if self.worn.map_or(false, |worn| !tickets_left(worn)) && self.length > self.number + USED_UP {
            self.length = self.number + USED_UP;
        }
        self.number += 1;
        let record = match self.worn {
            Some(worn) if !chance.one_in(16) => self.traffic.wearing(&self.second, worn),
            _ => self.traffic.record(&self.second),
        };
        let short = self.number == self.length && chance.one_in(2);
        let len = if short { chance.between(1, RECORD as i64 - 1) as usize } else { RECORD };
        Some(record[..len].to_vec())
    }

    /// The next record; the lines that it must give go to the batch.
    fn add_next(&mut self, chance: &mut Chance, batch: &mut Batch, counts: &mut Counts) -> Option<Vec<u8>> {
        let record = self.next(chance)?;
        let outcome = self.second.step(BOARD, &record, ANSWER);
        counts.count(&record, &outcome);
        let lines = write_lines(&mut batch.lines, self.number, &record, &outcome);
        batch.sent.push(Sent { record: record.clone(), lines });
        Some(record)
    }
}

/// One run: this thread makes and sends, another one reads and compares.
fn one_run(mut program: Command, run: Run, chance: &mut Chance, counts: &mut Counts) -> Result<(), String> {
    let started = program.stdin(Stdio::piped()).stdout(Stdio::piped()).spawn();
    let mut child = started.map_err(|error| format!("the program does not start: {error}"))?;
    let input = child.stdin.take().expect("it is piped");
    let output = child.stdout.take().expect("it is piped");
    let (sender, receiver) = channel();
    let reader = thread::spawn(move || compare_lines(&receiver, output));
    send(run, chance, counts, input, &sender);
    drop(sender);
    let compared = reader.join().unwrap_or_else(|_| Err("the comparison panicked".to_string()));
    let status = child.wait().map_err(|error| error.to_string())?;
    compared?;
    if status.success() {
        Ok(())
    } else {
        Err(format!("all lines are right, yet the program ends with {status}"))
    }
}

/// Sends all records in pieces; the lines that a piece must give are handed to the comparison before it. Ends early if the
/// program or the comparison has ended; then the comparison says what is wrong.
fn send(mut run: Run, chance: &mut Chance, counts: &mut Counts, mut input: impl Write, to: &Sender<Batch>) {
    let mut bytes = Vec::new();
    let mut past = 0;
    loop {
        let size = piece(chance);
        let mut batch = Batch::default();
        while bytes.len() < size {
            match run.add_next(chance, &mut batch, counts) {
                Some(record) => bytes.extend(record),
                None => break,
            }
        }
        let size = size.min(bytes.len());
        if size == 0 || to.send(batch).is_err() || input.write_all(&bytes[..size]).is_err() {
            return;
        }
        bytes.drain(..size);
        past += size;
        counts.pieces += 1;
        counts.cuts += u64::from(past % RECORD != 0);
    }
}

/// The size of a piece: about a record, or many; seldom more than a pipe holds.
fn piece(chance: &mut Chance) -> usize {
    let most = match chance.below(512) {
        0 => 200_000,
        1..=200 => 8_192,
        201..=300 => 256,
        301..=400 => 48,
        _ => return chance.one_of(&[1, 2, 23, 24, 24, 25, 47, 48]),
    };
    chance.between(1, most) as usize
}
