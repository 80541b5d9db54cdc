//! Events in hex and in words.

use crate::damage::DAMAGES;
use crate::event::{Call, Event, Why};
use second::record::{self, Kind};
use second::{sound, ANSWER, BOARD, PART};
use stopblocker::layout::{part, CLAIMS, SLOT_BYTES};

const METHODS: [&str; 7] =
    ["ReportUsed", "AddPromised", "SetPromised", "SetState", "ReadUsed", "ReadLoad", "ReadState"];

/// A record by its number, as two lines.
pub fn of_record(number: u64, record: &[u8]) -> String {
    format!("{number:>9}  {}\n           {}\n", call_words(&Call::new(record)), hex(record))
}

pub fn print(events: &[Event]) {
    for (k, event) in events.iter().enumerate() {
        println!("{:>4}  {}", k + 1, words(event));
        match event {
            Event::Call(call) => println!("      {}", hex(call.record())),
            Event::Put { part, .. } => print_part(part),
            Event::Garbage { .. } => {}
        }
    }
}

fn hex(bytes: &[u8]) -> String {
    let digits: Vec<String> = bytes.iter().map(|byte| format!("{byte:02x}")).collect();
    digits.join(" ")
}

fn words(event: &Event) -> String {
    match event {
        Event::Call(call) => call_words(call),
        Event::Put { disk, why, part } => {
            let what = match why {
                Why::Damaged(kind) => format!("damaged: {}", DAMAGES[*kind].0),
                Why::Restored => "as it was before a damage".to_string(),
                Why::Shorter => "made shorter".to_string(),
                Why::Odd => "an odd part".to_string(),
                Why::LastTickets => "with few tickets left".to_string(),
                Why::Closed => "closed".to_string(),
            };
            let state = match (why, sound(&part[..])) {
                (Why::Closed, _) => String::new(),
                (_, Ok(_)) => ", sound".to_string(),
                (_, Err(clause)) => format!(", not sound ({clause})"),
            };
            format!("disk {disk} put from outside, {what}{state}; its words that are not zero:")
        }
        Event::Garbage { seed, open } => {
            let closed = if *open { "" } else { ", all disks closed" };
            format!("bytes by chance on the whole board, from seed {seed}{closed}")
        }
    }
}

fn call_words(call: &Call) -> String {
    let mut text = match record::read(call.record()) {
        None => format!("a record of {} bytes that is no request", call.record().len()),
        Some(request) => {
            let (disk, now) = (request.disk, request.now);
            match request.kind {
                Kind::Open { limit_of_used, limit_of_promised } => {
                    format!("open disk {disk} at {now}, limits {limit_of_used} and {limit_of_promised}")
                }
                Kind::Claim { method, priority, fresh, measured, value, error_or_limit } => {
                    let name = METHODS.get(method as usize).map_or(format!("method {method}"), |name| name.to_string());
                    let fields = match method {
                        0..=3 => format!("{value}, own error {error_or_limit}, measured {measured}"),
                        _ => format!("limit {error_or_limit}"),
                    };
                    let odd = method > 3 && (value != 0 || measured != 0);
                    let odd = if odd { format!(", value {value}, measured {measured}") } else { String::new() };
                    let fresh = if fresh { ", fresh" } else { "" };
                    format!("claim {name} {fields}{odd}{fresh}, priority {priority}, disk {disk} at {now}")
                }
                Kind::Release { ticket } => format!("release {ticket}, disk {disk} at {now}"),
            }
        }
    };
    if call.board_len as usize != BOARD {
        text += &format!(", a board of {} bytes", call.board_len);
    }
    if usize::from(call.answer_len) != ANSWER {
        text += &format!(", an answer buffer of {} bytes", call.answer_len);
    }
    text
}

/// The words of a part that are not zero, a line for the head and one for each slot.
fn print_part(bytes: &[u8; PART]) {
    let head = std::iter::once(("head".to_string(), 0..part::ACTIVE));
    let slots = [("active", part::ACTIVE), ("waiting", part::WAITING)].into_iter().flat_map(|(which, start)| {
        let slot = move |k| start + SLOT_BYTES * k..start + SLOT_BYTES * (k + 1);
        (0..CLAIMS).map(move |k| (format!("{which} slot {k}"), slot(k)))
    });
    for (name, places) in head.chain(slots) {
        let start = places.start;
        let words: Vec<String> = places
            .step_by(4)
            .filter(|&at| bytes[at..at + 4] != [0; 4])
            .map(|at| format!("{}: {}", at - start, hex(&bytes[at..at + 4])))
            .collect();
        if !words.is_empty() {
            println!("      {name}, {}", words.join(", "));
        }
    }
}
