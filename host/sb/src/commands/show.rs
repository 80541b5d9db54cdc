//! `sb show`: the board drawn.

use super::Command;
use crate::arguments::{Options, Takes};
use crate::ending::{print, Ending};
use crate::record::Record;
use crate::style::Style;
use crate::{board_file, disk_page, number, overview};
use std::ffi::OsStr;
use std::path::Path;
use stopblocker::layout::ANSWER_BYTES;
use stopblocker::{step, Board, Disk, Refusal};

pub const COMMAND: Command = Command {
    name: "show",
    help: HELP,
    takes: Takes { values: &["--board", "--disk"], flags: &["--ascii"], file: false },
    run,
};

const HELP: &str = "\
sb show --board FILE [--disk N] [--ascii]

Draws the board of FILE, each open disk a line, with bars for used and promised (to the left of zero where a figure is
negative). With --disk, one disk in full, with every claim that is active or waits.

    used, promised    the figure, in MiB; a write shows in it at its release
    off by/limit      how much error the figure carries, and the most that it may, which the disk's open has set
    state             a code, 0 to 255
    clock             the second of the disk's last accepted call; a claim or release before it is refused 15
    active, waiting   how many claims are granted and not yet released, and how many wait; at most 8 of each
    next ticket       the one that the next claim takes
    stamp             the second of measuring of the last set that was released, or of the open; used and promised are
                      fresh for 300 seconds after it, the state for 3,600
    ticket            the claim's name: release it with this
    value             what a write sets or adds at its release
    error             own: a write's own error; limit: the error that a reading can bear
    told              what a reading was told at its grant, the sum of the figures that it reads
    amount            how much error that has by now; it never passes the reading's limit

A disk whose part isn't sound is shown as such.
The drawing is as wide as COLUMNS says, or the terminal is, or 100. Where bars have no room they are left out; what then
is still too wide stays so. --ascii draws without block characters.
";

fn run(options: &Options) -> Result<(), Ending> {
    let name = options.value("--board").ok_or(Ending::Usage("--board FILE is missing".to_string()))?;
    let disk = options.value("--disk").map(disk_of).transpose()?;
    let bytes = board_file::read(Path::new(name))?
        .ok_or(Ending::input(format!("there is no file {}", name.to_string_lossy())))?;
    let board = Board::from_bytes(&bytes).map_err(|wrong| Ending::input(wrong.to_string()))?;
    let style = Style::of_environment(options.flag("--ascii"));
    let sound = |disk: Disk| is_sound(&bytes, disk);
    print(
        match disk {
            Some(disk) => disk_page::draw(&board, disk, sound(disk), &style),
            None => overview::draw(&board, sound, &style),
        }
        .as_bytes(),
    )
}

fn disk_of(word: &OsStr) -> Result<Disk, Ending> {
    let text = word.to_string_lossy();
    number::read(&text)
        .and_then(|number| u8::try_from(number).ok())
        .and_then(Disk::new)
        .ok_or(Ending::Usage(format!("--disk \"{text}\": expected a disk, 0 to 63")))
}

/// Whether the desk finds the part of an open disk sound. The call releases ticket 0, which no claim of a sound part has, at
/// the last second, which no clock is above: it is refused 21 if the part is sound, and 14 if not. A refusal changes nothing.
fn is_sound(board: &[u8], disk: Disk) -> bool {
    let release = Record::Release { disk: disk.number(), now: u32::MAX, ticket: 0 };
    let code = step(&mut board.to_vec(), &release.bytes(), &mut [0; ANSWER_BYTES]);
    code != Refusal::Unsound.number()
}
