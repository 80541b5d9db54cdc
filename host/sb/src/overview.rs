//! The open disks of a board, a line each.

use crate::bar::Bars;
use crate::disk_page::NOT_SOUND;
use crate::number::grouped;
use crate::style::Style;
use crate::table::{numbers, words, Column, Table};
use stopblocker::{Board, Disk, DiskView, Figure};

const WITH_BARS: [Column; 11] = [
    numbers("disk"),
    words("used"),
    numbers("MiB"),
    numbers("off by/limit"),
    words("promised"),
    numbers("MiB"),
    numbers("off by/limit"),
    numbers("state"),
    numbers("clock"),
    numbers("active"),
    numbers("waiting"),
];
const WITHOUT_BARS: [Column; 9] = [
    numbers("disk"),
    numbers("used"),
    numbers("off by/limit"),
    numbers("promised"),
    numbers("off by/limit"),
    numbers("state"),
    numbers("clock"),
    numbers("active"),
    numbers("waiting"),
];
const GAP: usize = 1;
/// If there is no room for bars of this many characters, no bars are drawn.
const LEAST_BAR: usize = 8;

/// Draws the open disks; `is_sound` says which of them the desk finds sound.
pub fn draw(board: &Board, is_sound: impl Fn(Disk) -> bool, style: &Style) -> String {
    let open: Vec<(Disk, DiskView)> =
        Disk::all().filter_map(|disk| board.disk(disk).map(|view| (disk, view))).collect();
    let sound: Vec<(Disk, DiskView)> = open.iter().copied().filter(|(disk, _)| is_sound(*disk)).collect();
    let mut text = match open.len() {
        0 => return "no disk is open\n".to_string(),
        1 => "1 disk is open\n".to_string(),
        many => format!("{many} disks are open\n"),
    };
    let mut lines = sound_lines(&sound, style, &mut text).into_iter();
    for (disk, _) in &open {
        if sound.iter().any(|(other, _)| other == disk) {
            text += &lines.next().expect("a line for each sound disk");
        } else {
            text += &style.warning(&format!("{:>4} {NOT_SOUND}", disk.number()));
        }
        text.push('\n');
    }
    text
}

/// A line for each sound disk; the scale and the heading go to the text.
fn sound_lines(disks: &[(Disk, DiskView)], style: &Style, text: &mut String) -> Vec<String> {
    if disks.is_empty() {
        return Vec::new();
    }
    let used: Vec<i32> = disks.iter().map(|(_, view)| view.used().value).collect();
    let promised: Vec<i32> = disks.iter().map(|(_, view)| view.promised().value).collect();
    let bars = |width: usize| (Bars::of(&used, width, style), Bars::of(&promised, width, style));
    let shortest = with_bars(disks, &bars(LEAST_BAR)).width(GAP);
    let (scale, table) = match style.width.checked_sub(shortest) {
        Some(room) => {
            let bars = bars(LEAST_BAR + room / 2);
            (scale(&bars), with_bars(disks, &bars))
        }
        None => ("used and promised in MiB\n".to_string(), without_bars(disks)),
    };
    let mut lines = table.lines(GAP).into_iter();
    *text += &format!("{scale}\n{}\n", lines.next().expect("a heading"));
    lines.collect()
}

fn scale((used, promised): &(Bars, Bars)) -> String {
    let full: Vec<String> = [(used.full(), "used"), (promised.full(), "promised")]
        .into_iter()
        .filter(|(full, _)| *full != 0)
        .map(|(full, name)| format!("{} MiB {name}", grouped(full.into())))
        .collect();
    if full.is_empty() {
        String::new()
    } else {
        format!("a full bar is {}\n", full.join(", "))
    }
}

fn with_bars(disks: &[(Disk, DiskView)], (used, promised): &(Bars, Bars)) -> Table {
    let mut table = Table::new(&WITH_BARS);
    for (disk, view) in disks {
        let mut cells = cells(*disk, view);
        cells.insert(3, promised.draw(view.promised().value));
        cells.insert(1, used.draw(view.used().value));
        table.add(cells);
    }
    table
}

fn without_bars(disks: &[(Disk, DiskView)]) -> Table {
    let mut table = Table::new(&WITHOUT_BARS);
    disks.iter().for_each(|(disk, view)| table.add(cells(*disk, view)));
    table
}

/// The cells without bars.
fn cells(disk: Disk, view: &DiskView) -> Vec<String> {
    let (used, promised) = (view.used(), view.promised());
    vec![
        disk.to_string(),
        grouped(used.value.into()),
        error(&used),
        grouped(promised.value.into()),
        error(&promised),
        view.state().code.to_string(),
        view.clock().to_string(),
        view.active().count().to_string(),
        view.waiting().count().to_string(),
    ]
}

fn error(figure: &Figure) -> String {
    format!("{}/{}", grouped(figure.amount.into()), grouped(figure.limit.into()))
}
