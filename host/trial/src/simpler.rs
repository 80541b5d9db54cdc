//! Changes that make an event simpler. Each says whether it changed anything.

use crate::event::{Event, Why};
use second::PART;
use stopblocker::layout::{part, record, CLAIM, CLAIMS, SLOT_BYTES};

/// How many changes there are to try on an event.
pub const CHANGES: usize = RECORD_CHANGES.len() + 2 * CLAIMS + PART / 4;

/// Offsets in a record, and simpler bytes for them: the usual priority, no flag, and 0 for every word but now.
const RECORD_CHANGES: [(usize, &[u8]); 5] = [
    (record::PRIORITY, &[5]),
    (record::FRESH, &[0]),
    (record::MEASURED, &[0, 0, 0, 0]),
    (record::VALUE, &[0, 0, 0, 0]),
    (record::OWN_ERROR, &[0, 0, 0, 0]),
];

/// Makes the change with this number.
pub fn simplify(event: &mut Event, change: usize) -> bool {
    match event {
        Event::Call(call) if change < RECORD_CHANGES.len() => {
            let (at, bytes) = RECORD_CHANGES[change];
            call.change(at, bytes)
        }
        Event::Put { part, why, .. } if change >= RECORD_CHANGES.len() => {
            *why = if *why == Why::Closed { Why::Closed } else { Why::Shorter };
            match change - RECORD_CHANGES.len() {
                slot if slot < 2 * CLAIMS => leave_out_claim(part, 2 * CLAIMS - 1 - slot),
                word => clear_word(part, word - 2 * CLAIMS),
            }
        }
        _ => false,
    }
}

/// Every call at second 0, and every write measured then.
pub fn at_once(events: &mut [Event]) -> bool {
    let mut changed = false;
    for event in events {
        if let Event::Call(call) = event {
            changed |= call.change(record::NOW, &[0; 4]);
            let writes = call.of_kind(CLAIM).map_or(false, |bytes| bytes[record::METHOD] < 4);
            changed |= writes && call.change(record::MEASURED, &[0; 4]);
        }
    }
    changed
}

/// Makes a word zero; false if it was.
fn clear_word(part: &mut [u8; PART], word: usize) -> bool {
    let word = &mut part[4 * word..4 * (word + 1)];
    let had = *word != [0; 4];
    word.fill(0);
    had
}

/// Leaves out the claim of a slot, counted over the active and then the waiting ones; the claims behind it move up.
fn leave_out_claim(bytes: &mut [u8; PART], slot: usize) -> bool {
    let active = slot < CLAIMS;
    let count_at = if active { part::ACTIVE_COUNT } else { part::WAITING_COUNT };
    let start = if active { part::ACTIVE } else { part::WAITING };
    let (count, slot) = (usize::from(bytes[count_at]), slot % CLAIMS);
    if count > CLAIMS || slot >= count {
        return false;
    }
    let (at, end) = (start + SLOT_BYTES * slot, start + SLOT_BYTES * CLAIMS);
    bytes.copy_within(at + SLOT_BYTES..end, at);
    bytes[end - SLOT_BYTES..end].fill(0);
    bytes[count_at] -= 1;
    true
}
