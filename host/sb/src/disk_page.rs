//! One disk in full: its attributes, and every claim that is active or waits.

use crate::number::grouped;
use crate::style::Style;
use crate::table::{numbers, words, Column, Table};
use stopblocker::layout::{part, part_at, word_at, CLAIMS};
use stopblocker::{Board, ClaimView, Disk, Figure, Method};

/// What is said of a disk whose part isn't sound.
pub const NOT_SOUND: &str = "NOT SOUND: its bytes were changed from outside, claims and releases are refused 14";

const ATTRIBUTES: [Column; 5] =
    [words("attribute"), numbers("value"), numbers("may be off by"), numbers("limit"), numbers("stamp")];

const CLAIM: [Column; 9] = [
    numbers("ticket"),
    words("method"),
    numbers("priority"),
    numbers("value"),
    words("error"),
    numbers("measured"),
    words("fresh"),
    numbers("told"),
    numbers("amount"),
];

/// Draws a disk; `sound` is what the desk finds of it.
pub fn draw(board: &Board, disk: Disk, sound: bool, style: &Style) -> String {
    let view = match board.disk(disk) {
        Some(view) => view,
        None => return format!("disk {disk} is closed\n"),
    };
    let mut text = format!("disk {disk}: clock {}, next ticket {}\n", view.clock(), grouped(view.next_ticket().into()));
    if !sound {
        text += &format!("{}\n", style.warning(&format!("{NOT_SOUND}; they say:")));
    }

    let mut attributes = Table::new(&ATTRIBUTES);
    attributes.add(figure("used, MiB", &view.used()));
    attributes.add(figure("promised, MiB", &view.promised()));
    let state = view.state();
    let code = grouped(state.code.into());
    attributes.add(vec!["state".to_string(), code, "0".to_string(), "0".to_string(), state.stamp.to_string()]);
    put(&mut text, &attributes, style);

    let at = part_at(usize::from(disk.number()));
    let count = |place| word_at(board.as_bytes(), at + place);
    claims(&mut text, style, "active", count(part::ACTIVE_COUNT), view.active().collect());
    claims(&mut text, style, "waiting", count(part::WAITING_COUNT), view.waiting().collect());
    text
}

fn figure(name: &str, figure: &Figure) -> Vec<String> {
    let Figure { value, stamp, amount, limit } = *figure;
    vec![name.to_string(), grouped(value.into()), grouped(amount.into()), grouped(limit.into()), stamp.to_string()]
}

fn claims(text: &mut String, style: &Style, which: &str, count: u32, claims: Vec<ClaimView>) {
    *text += &format!("\n{} {which}", grouped(count.into()));
    if count as usize > CLAIMS {
        *text += &format!(", and a part has room for {CLAIMS}");
    }
    text.push('\n');
    if !claims.is_empty() {
        let mut table = Table::new(&CLAIM);
        claims.iter().for_each(|claim| table.add(cells(claim, which == "active")));
        put(text, &table, style);
    }
}

/// Only an active reading has told and amount, only a write has a second of measuring and a value. If another claim has one
/// of them that is not zero, it is shown too.
fn cells(claim: &ClaimView, active: bool) -> Vec<String> {
    let is_reading = claim.method.map_or(false, Method::is_reading);
    let shown = |applies: bool, number: i64, text: String| if applies || number != 0 { text } else { "-".to_string() };
    let (value, told, amount) = (i64::from(claim.value), i64::from(claim.told), i64::from(claim.amount));
    vec![
        claim.ticket.to_string(),
        claim.method.map_or("none, above 6".to_string(), |method| format!("{method:?}")),
        claim.priority.to_string(),
        shown(!is_reading, value, grouped(value)),
        format!("{} {}", if is_reading { "limit" } else { "own" }, grouped(claim.error.into())),
        shown(!is_reading, claim.measured.into(), claim.measured.to_string()),
        if claim.fresh { "fresh" } else { "-" }.to_string(),
        shown(is_reading && active, told, grouped(told)),
        shown(is_reading && active, amount, grouped(amount)),
    ]
}

/// Columns have one space between them if two do not fit.
fn put(text: &mut String, table: &Table, style: &Style) {
    const INDENT: usize = 2;
    let gap = if INDENT + table.width(2) <= style.width { 2 } else { 1 };
    for line in table.lines(gap) {
        *text += &format!("{:INDENT$}{line}\n", "");
    }
}
