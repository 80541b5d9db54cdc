//! Shortens a failing list of events: it leaves out whatever it can, as long as the list still fails.

use crate::beside::{Beside, Step};
use crate::event::{Event, Why};
use crate::simpler::{at_once, simplify, CHANGES};
use crate::trial::{unpanicked, Failure};
use second::encode;

/// Pairs of events are left out only in lists of at most this length.
const LONGEST_FOR_PAIRS: usize = 24;
/// In a list longer than this, the events before the last are replaced by the part as it stands then.
const LONG: usize = 12;

/// Runs a list from the empty board, and returns it up to the event that fails. The whole board is compared at the end, and
/// in a short list after every call.
fn failing<S: Step>(desk: &dyn Fn() -> S, events: &[Event]) -> Option<Failure> {
    let whole_every = if events.len() > 2 * LONGEST_FOR_PAIRS { u64::MAX } else { 1 };
    let mut beside = Beside::new(desk(), whole_every);
    for (k, event) in events.iter().enumerate() {
        if let Err(wrong) = unpanicked(|| beside.apply(event)) {
            return Some(Failure { events: events[..=k].to_vec(), wrong });
        }
    }
    beside.compare_whole(None).err().map(|wrong| Failure { events: events.to_vec(), wrong })
}

/// The shortest failing list that was found. `desk` makes a new desk for every try.
pub fn shrink<S: Step>(desk: &dyn Fn() -> S, failure: Failure) -> Failure {
    // A round compares the whole board only now and then; run again with more comparisons, the list may end sooner.
    let mut best = match failing(desk, &failure.events) {
        Some(best) => best,
        None => return Failure { wrong: format!("{} (not again from the empty board)", failure.wrong), ..failure },
    };
    let hook = std::panic::take_hook();
    std::panic::set_hook(Box::new(|_| {}));
    if let Some(disk) = best.events.last().and_then(Event::disk) {
        let same = |event: &&Event| event.disk() == Some(disk);
        let alone = best.events.iter().filter(same).cloned().collect();
        keep(desk, &mut best, alone);
    }
    let mut piece = best.events.len() / 2;
    while piece > 1 {
        drop_pieces(desk, &mut best, piece);
        piece /= 2;
    }
    shorten(desk, &mut best);
    if best.events.len() > LONG {
        from_saved_part(desk, &mut best);
    }
    std::panic::set_hook(hook);
    best
}

/// Leaves out and simplifies single events until nothing more can be left out.
fn shorten<S: Step>(desk: &dyn Fn() -> S, best: &mut Failure) {
    let mut shorter = true;
    while shorter {
        let before = best.events.len();
        drop_pieces(desk, best, 1);
        drop_pairs(desk, best);
        simplify_all(desk, best);
        shorter = best.events.len() < before;
    }
}

/// Replaces the events before the last one by the part of its disk as it stands then.
fn from_saved_part<S: Step>(desk: &dyn Fn() -> S, best: &mut Failure) {
    let (last, way) = best.events.split_last().expect("a failing list has an event");
    let mut beside = Beside::new(desk(), 1);
    way.iter().for_each(|event| beside.apply(event).expect("only the last event fails"));
    if let Some((disk, part)) = last.disk().and_then(|disk| Some((disk, beside.second.disk(disk).map(encode)?))) {
        let events = vec![Event::put(disk, Why::Shorter, part), last.clone()];
        if keep(desk, best, events) {
            shorten(desk, best);
        }
    }
}

/// Keeps the list if it fails too.
fn keep<S: Step>(desk: &dyn Fn() -> S, best: &mut Failure, events: Vec<Event>) -> bool {
    match failing(desk, &events) {
        Some(failure) if failure.events.len() <= best.events.len() => {
            *best = failure;
            true
        }
        _ => false,
    }
}

/// Leaves out every group of so many events that is not needed, beginning at the end.
fn drop_pieces<S: Step>(desk: &dyn Fn() -> S, best: &mut Failure, piece: usize) {
    let mut end = best.events.len();
    while end > 0 {
        let start = end.saturating_sub(piece);
        let mut events = best.events.clone();
        let dropped: Vec<Event> = events.drain(start..end).collect();
        let kept = keep(desk, best, events.clone());
        if !kept && piece == 1 {
            // If a claim is left out, the later tickets of its disk are lower by one.
            lower_tickets(&mut events[start..], dropped[0].disk());
            keep(desk, best, events);
        }
        end = start.min(best.events.len());
    }
}

/// Leaves out two events that only need each other: a claim and its release, a barring claim and a barred one.
fn drop_pairs<S: Step>(desk: &dyn Fn() -> S, best: &mut Failure) {
    let mut first = 0;
    while first < best.events.len() && best.events.len() <= LONGEST_FOR_PAIRS {
        let before = best.events.len();
        for second in (first + 1..best.events.len()).rev() {
            let mut events = best.events.clone();
            events.remove(second);
            let disk = events.remove(first).disk();
            let mut lowered = events.clone();
            lower_tickets(&mut lowered[first..], disk);
            if keep(desk, best, events) || keep(desk, best, lowered) {
                break;
            }
        }
        if best.events.len() == before {
            first += 1;
        }
    }
}

/// Keeps every change that makes an event simpler.
fn simplify_all<S: Step>(desk: &dyn Fn() -> S, best: &mut Failure) {
    let mut events = best.events.clone();
    let _ = at_once(&mut events) && keep(desk, best, events);
    let mut k = 0;
    while k < best.events.len() {
        for change in 0..CHANGES {
            let mut events = best.events.clone();
            let _ = k < events.len() && simplify(&mut events[k], change) && keep(desk, best, events);
        }
        k += 1;
    }
}

fn lower_tickets(events: &mut [Event], disk: Option<usize>) {
    for event in events.iter_mut().filter(|event| event.disk() == disk) {
        let record = match event {
            Event::Call(call) => call.of_kind(3),
            _ => None,
        };
        if let Some(record) = record {
            let ticket = u32::from_le_bytes(record[12..16].try_into().expect("four bytes"));
            record[12..16].copy_from_slice(&ticket.saturating_sub(1).to_le_bytes());
        }
    }
}
