//! `sb run`: requests to the desk, its answers in words.

use super::Command;
use crate::arguments::{Options, Takes};
use crate::board_file::BoardFile;
use crate::ending::{print, Ending};
use crate::line::Line;
use crate::pieces::{self, Piece};
use crate::words::Teller;
use crate::{board_file, input};
use std::path::Path;
use stopblocker::layout::{ANSWER_BYTES, BOARD_BYTES};
use stopblocker::{step, Board, Item};

pub const COMMAND: Command =
    Command { name: "run", help: HELP, takes: Takes { values: &["--board"], flags: &[], file: true }, run };

const HELP: &str = "\
sb run [--board FILE] [FILE]

Reads requests as text (sb encode --help says how; records are taken too), hands them to the desk in turn, beginning
with an empty board, and says each answer in words.

With --board the board is read from FILE before and written back after, so that the next run goes on from there; where
there is no such file, the board is empty. FILE has 49,216 bytes; one of another length is left as it is. It is written
beside, as FILE.new, and renamed; while FILE.new is there, another run on the same board waits five seconds for it.

A bad line is reported as sb encode does; then nothing is run, exit code 1. A refusal is an answer: it leaves the exit
code 0.
";

fn run(options: &Options) -> Result<(), Ending> {
    let pieces = pieces::of_either(&input::all(options.file.as_deref())?)?;
    let words = match options.value("--board") {
        Some(name) => {
            let held = BoardFile::hold(Path::new(name))?;
            let mut board = held.read()?.unwrap_or_else(board_file::empty);
            let words = answers(&mut board, &pieces);
            // The board is written before anything is printed: an answer that people see has happened.
            held.write(&board)?;
            words
        }
        None => answers(&mut board_file::empty(), &pieces),
    };
    print(words.as_bytes())
}

fn answers(board: &mut [u8], pieces: &[Piece]) -> String {
    assert_eq!(board.len(), BOARD_BYTES, "so that no call is refused 9");
    let mut teller = Teller::of(&Board::from_bytes(board).expect("of this length"));
    let mut words = String::new();
    for (k, piece) in pieces.iter().enumerate() {
        let mut answer = [0; ANSWER_BYTES];
        step(board, &piece.bytes, &mut answer);
        let [own, pass @ ..] = Item::all(&answer);
        let disk = piece.record.as_ref().map_or(0, |record| record.disk());
        let line = |item, of_pass| Line { of_pass, record: k as u64 + 1, disk, item };
        words += &teller.tell(&line(own, false), Some(&piece.record));
        for item in pass.into_iter().take_while(|item| item.ticket != 0) {
            words += &teller.tell(&line(item, true), Some(&piece.record));
        }
    }
    words
}
