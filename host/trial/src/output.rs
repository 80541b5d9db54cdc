//! Compares the program's output, line by line, with the lines that it must print.

use crate::words;
use std::collections::VecDeque;
use std::io::{BufRead, BufReader, Read};
use std::sync::mpsc::Receiver;

/// Records of a disk that are printed with a difference.
const LAST: usize = 16;
/// The number under which short pieces without a disk byte are kept: one more than the disks that a record can name.
const NO_DISK: usize = 256;

/// A record that is on its way to the program, and how many lines it makes.
pub struct Sent {
    pub record: Vec<u8>,
    pub lines: usize,
}

/// Records that are on their way, and their lines.
#[derive(Default)]
pub struct Batch {
    pub sent: Vec<Sent>,
    pub lines: Vec<u8>,
}

/// Compares the output with the lines, to its end.
pub fn compare_lines(batches: &Receiver<Batch>, output: impl Read) -> Result<(), String> {
    let mut output = BufReader::new(output);
    let mut found = Vec::new();
    let mut last: Vec<VecDeque<(u64, Vec<u8>)>> = vec![VecDeque::new(); NO_DISK + 1];
    let mut number = 0;
    for batch in batches {
        let mut lines = batch.lines.split_inclusive(|&byte| byte == b'\n');
        for Sent { record, lines: count } in batch.sent {
            number += 1;
            let of_disk = &mut last[record.get(3).map_or(NO_DISK, |disk| usize::from(*disk))];
            of_disk.truncate(LAST - 1);
            of_disk.push_front((number, record));
            for expected in lines.by_ref().take(count) {
                found.clear();
                output.read_until(b'\n', &mut found).map_err(|error| format!("record {number}: {error}"))?;
                if found != expected {
                    return Err(difference(number, expected, &found, of_disk));
                }
            }
        }
        assert!(lines.next().is_none(), "every line is of a record");
    }
    found.clear();
    output.read_until(b'\n', &mut found).map_err(|error| format!("after record {number}: {error}"))?;
    if found.is_empty() {
        Ok(())
    } else {
        Err(difference(number, b"", &found, &VecDeque::new()))
    }
}

fn difference(number: u64, expected: &[u8], found: &[u8], last: &VecDeque<(u64, Vec<u8>)>) -> String {
    let line = |bytes: &[u8]| match bytes {
        [] => "the end of the output".to_string(),
        _ => format!("{:?}", String::from_utf8_lossy(bytes)),
    };
    let mut text = format!("record {number} differs:\n  expected {}\n  found    {}\n", line(expected), line(found));
    if let Some((_, record)) = last.front() {
        let disk = record.get(3).map_or("no disk".to_string(), |disk| format!("disk {disk}"));
        text += &format!("the last records of {disk}:\n");
    }
    last.iter().rev().for_each(|(number, record)| text += &words::of_record(*number, record));
    text
}
