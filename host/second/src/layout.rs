//! The bytes of a part: figures out of them, a disk into them, and the name of each place.

use crate::disk::{Attribute, Claim, Disk, MOST_CLAIMS};
use crate::table::Method;
use crate::{HEAD, PART};

const SLOT: usize = 44;
const ACTIVE: usize = 64;
const WAITING: usize = 416;

/// A slot's figures as they stand, nothing tested.
#[derive(Clone, Debug)]
pub struct Slot {
    pub ticket: i64,
    pub method: i64,
    pub priority: i64,
    pub flag: i64,
    pub measured: i64,
    pub value: i64,
    pub error_or_limit: i64,
    pub told: i64,
    pub amount: i64,
}

/// A part's figures as they stand, nothing tested but that the part decodes.
#[derive(Clone, Debug)]
pub struct Figures {
    pub clock: i64,
    pub next_ticket: i64,
    pub attributes: [Attribute; 3],
    pub active: Vec<Slot>,
    pub waiting: Vec<Slot>,
}

fn four(part: &[u8], at: usize) -> [u8; 4] {
    part[at..at + 4].try_into().expect("four bytes")
}

fn word(part: &[u8], at: usize) -> i64 {
    i64::from(u32::from_le_bytes(four(part, at)))
}

fn signed(part: &[u8], at: usize) -> i64 {
    i64::from(i32::from_le_bytes(four(part, at)))
}

/// "Slot, offsets in the slot"; None if it doesn't decode.
fn slot(part: &[u8], at: usize, active: bool) -> Option<Slot> {
    let slot = Slot {
        ticket: word(part, at),
        method: word(part, at + 4),
        priority: word(part, at + 8),
        flag: word(part, at + 12),
        measured: word(part, at + 16),
        value: signed(part, at + 20),
        error_or_limit: word(part, at + 24),
        told: signed(part, at + 28),
        amount: word(part, at + 32),
    };
    // "36, 40: zero"
    let end_zero = word(part, at + 36) == 0 && word(part, at + 40) == 0;
    // told and amount: "an active reading's; else 0"
    let reading = Method::of_number(slot.method).map_or(false, Method::is_reading);
    let own_zero = (active && reading) || (slot.told == 0 && slot.amount == 0);
    (end_zero && own_zero).then_some(slot)
}

/// "Active claims ..., waiting ones ..., both from slot 0 on without a gap."
fn slots(part: &[u8], start: usize, count: i64, active: bool) -> Option<Vec<Slot>> {
    // "a count above 8 does not decode"
    let count = usize::try_from(count).ok().filter(|&n| n <= MOST_CLAIMS)?;
    // "all of every slot past its count" is zero
    let (past, end) = (start + SLOT * count, start + SLOT * MOST_CLAIMS);
    if part[past..end].iter().any(|&byte| byte != 0) {
        return None;
    }
    let mut claims = Vec::with_capacity(MOST_CLAIMS);
    for k in 0..count {
        claims.push(slot(part, start + SLOT * k, active)?);
    }
    Some(claims)
}

/// "*The part decodes* when every byte that carries no figure is zero".
pub fn decode(part: &[u8]) -> Option<Figures> {
    if part.len() != PART || word(part, 56) != 0 || word(part, 60) != 0 {
        return None;
    }
    let metric = |at: usize| Attribute {
        value: signed(part, at),
        stamp: word(part, at + 4),
        amount: word(part, at + 8),
        limit: word(part, at + 12),
    };
    // "state: ... its amount and limit are always 0 and have no place"
    let state = Attribute {
        value: signed(part, 48),
        stamp: word(part, 52),
        amount: 0,
        limit: 0,
    };
    Some(Figures {
        clock: word(part, 0),
        next_ticket: word(part, 4),
        attributes: [metric(16), metric(32), state],
        active: slots(part, ACTIVE, word(part, 8), true)?,
        waiting: slots(part, WAITING, word(part, 12), false)?,
    })
}

/// The four bytes of a figure; words and signed words alike are the number modulo 2^32.
fn put(part: &mut [u8; PART], at: usize, figure: i64) {
    part[at..at + 4].copy_from_slice(&(figure as u32).to_le_bytes());
}

fn put_claim(part: &mut [u8; PART], at: usize, claim: &Claim) {
    let figures = [
        claim.ticket,
        claim.method.number() as i64,
        claim.priority,
        i64::from(claim.fresh),
        claim.measured,
        claim.value,
        claim.error_or_limit,
        claim.told,
        claim.amount,
    ];
    for (k, figure) in figures.into_iter().enumerate() {
        put(part, at + 4 * k, figure);
    }
}

/// The 768 bytes of a disk.
pub fn encode(disk: &Disk) -> [u8; PART] {
    let mut part = [0; PART];
    put(&mut part, 0, disk.clock);
    put(&mut part, 4, disk.next_ticket);
    put(&mut part, 8, disk.active.len() as i64);
    put(&mut part, 12, disk.waiting.len() as i64);
    for (k, attribute) in disk.attributes.iter().enumerate() {
        let at = 16 + 16 * k;
        put(&mut part, at, attribute.value);
        put(&mut part, at + 4, attribute.stamp);
        if k < 2 {
            put(&mut part, at + 8, attribute.amount);
            put(&mut part, at + 12, attribute.limit);
        }
    }
    for (k, claim) in disk.active.iter().enumerate() {
        put_claim(&mut part, ACTIVE + SLOT * k, claim);
    }
    for (k, claim) in disk.waiting.iter().enumerate() {
        put_claim(&mut part, WAITING + SLOT * k, claim);
    }
    part
}

/// The name of the figure at a word of a part.
fn place(at: usize) -> String {
    const HEAD_NAMES: [&str; 16] = [
        "clock",
        "next ticket",
        "count of active claims",
        "count of waiting claims",
        "used value",
        "used stamp",
        "used amount",
        "used limit",
        "promised value",
        "promised stamp",
        "promised amount",
        "promised limit",
        "state value",
        "state stamp",
        "zero word",
        "zero word",
    ];
    const SLOT_NAMES: [&str; 11] = [
        "ticket",
        "method",
        "priority",
        "fresh flag",
        "second of measuring",
        "value",
        "own error or stated limit",
        "told",
        "amount",
        "zero word",
        "zero word",
    ];
    let (list, start) = match at {
        _ if at < HEAD => return HEAD_NAMES[at / 4].to_string(),
        _ if at < WAITING => ("active", ACTIVE),
        _ => ("waiting", WAITING),
    };
    let (k, inside) = ((at - start) / SLOT, (at - start) % SLOT);
    format!("{list} slot {k} {}", SLOT_NAMES[inside / 4])
}

/// The first figure in which two parts differ: place, expected, found.
pub fn first_difference(expected: &[u8], found: &[u8]) -> Option<String> {
    (0..PART).step_by(4).find_map(|at| {
        if expected[at..at + 4] == found[at..at + 4] {
            return None;
        }
        let name = place(at);
        let of = |part| {
            if name.ends_with("value") || name.ends_with("told") {
                signed(part, at)
            } else {
                word(part, at)
            }
        };
        Some(format!(
            "{name} (byte {at} of the part): expected {}, found {}",
            of(expected),
            of(found)
        ))
    })
}
