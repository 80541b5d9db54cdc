//! Odd but sound disks: random disks that meet 01's "Sound" and nothing more. No calls could have left most of them.

use crate::chance::Chance;
use second::{entry, Action, Attribute, Claim, Disk, Entry, Method};
use stopblocker::layout::{MOST_TICKET, MOST_VALUE};

pub const BILLION: i64 = MOST_VALUE as i64;
pub const LAST_SECOND: i64 = u32::MAX as i64;
pub const LAST_TICKET: i64 = MOST_TICKET as i64;
/// How many claims may be active, and how many may wait.
const COUNTS: &[i64] = &[0, 1, 3, 7, 8, 8];

/// A number from 0 to most, often 0 or most.
pub fn up_to(chance: &mut Chance, most: i64) -> i64 {
    match chance.below(8) {
        0 | 1 => 0,
        2 => most,
        3 => (most - 1).max(0),
        4 => most.min(1),
        5 => most / 2,
        6 => chance.between(0, most.min(40)),
        _ => chance.between(0, most),
    }
}

/// A number within ±most, often 0 or ±most.
pub fn within(chance: &mut Chance, most: i64) -> i64 {
    let size = up_to(chance, most);
    if chance.one_in(2) {
        size
    } else {
        -size
    }
}

/// A second not after the last, often near it.
fn second_to(chance: &mut Chance, last: i64) -> i64 {
    let before = chance.one_of(&[0, 0, 1, 299, 300, 301, 3_599, 3_600, LAST_SECOND]);
    (last - before).max(0)
}

/// The limit of used or promised.
pub fn limit(chance: &mut Chance) -> i64 {
    chance.one_of(&[0, 1, 10, 30, 60, 1_000, 1_000, BILLION, 2 * BILLION - 1, 2 * BILLION])
}

/// A second, often the first or near the last.
pub fn clock(chance: &mut Chance) -> i64 {
    match chance.below(8) {
        0 => 0,
        1 => LAST_SECOND,
        2 => LAST_SECOND - chance.between(1, 4_000),
        3 => chance.between(0, LAST_SECOND),
        _ => chance.between(1, 10_000),
    }
}

/// A sound disk.
pub fn disk(chance: &mut Chance) -> Disk {
    let clock = clock(chance);
    let used = attribute(chance, clock);
    let promised = attribute(chance, clock);
    let state = Attribute { value: up_to(chance, 255), stamp: second_to(chance, clock), amount: 0, limit: 0 };
    let (active, waiting) = (chance.one_of(COUNTS), chance.one_of(COUNTS));
    let least = active + waiting + 1;
    let next_ticket = chance.one_of(&[least, least + 1, 1_000, LAST_TICKET - 1, LAST_TICKET, LAST_TICKET + 1]);
    let attributes = [used, promised, state];
    let mut disk = Disk { clock, next_ticket, attributes, active: Vec::new(), waiting: Vec::new() };
    for _ in 0..active {
        let claim = active_claim(chance, &disk);
        disk.active.push(claim);
    }
    for _ in 0..waiting {
        let method = any_method(chance);
        let claim = claim(chance, &disk, method);
        disk.waiting.push(claim);
    }
    disk.waiting.sort_by_key(|claim| (-claim.priority, claim.ticket));
    disk
}

/// Used or promised.
fn attribute(chance: &mut Chance, clock: i64) -> Attribute {
    let limit = limit(chance);
    Attribute { value: within(chance, BILLION), stamp: second_to(chance, clock), amount: up_to(chance, limit), limit }
}

fn any_method(chance: &mut Chance) -> Method {
    Method::of_number(chance.below(7) as i64).expect("0 to 6 are methods")
}

/// A ticket below next that no claim has yet.
fn ticket(chance: &mut Chance, disk: &Disk) -> i64 {
    loop {
        let ticket = chance.between(1, disk.next_ticket - 1);
        if disk.active_claim(ticket).is_none() && disk.waiting_claim(ticket).is_none() {
            return ticket;
        }
    }
}

/// A claim that passes 16 to 18, as it stands among the waiting ones.
fn claim(chance: &mut Chance, disk: &Disk, method: Method) -> Claim {
    let mut claim = Claim {
        ticket: ticket(chance, disk),
        method,
        priority: chance.one_of(&[0, 3, 5, 5, 5, 7, 254, 255]),
        fresh: false,
        measured: 0,
        value: 0,
        error_or_limit: 0,
        told: 0,
        amount: 0,
    };
    match method.action() {
        Action::Read => {
            claim.fresh = chance.one_in(2);
            claim.error_or_limit = up_to(chance, 2 * BILLION);
        }
        Action::Set(attribute) | Action::Add(attribute) => {
            claim.measured = second_to(chance, disk.clock);
            claim.value = if attribute == 2 { up_to(chance, 255) } else { within(chance, BILLION) };
            claim.error_or_limit = up_to(chance, disk.attributes[attribute].limit);
        }
    }
    claim
}

/// A claim that may stand among the active ones: no entry N, an add that fits the range, a reading with told and amount.
fn active_claim(chance: &mut Chance, disk: &Disk) -> Claim {
    let method = loop {
        let method = any_method(chance);
        if disk.active.iter().all(|other| entry(other.method, method) != Entry::N) {
            break method;
        }
    };
    let mut claim = claim(chance, disk, method);
    match method.action() {
        Action::Read => {
            claim.told = within(chance, 2 * BILLION);
            claim.amount = up_to(chance, claim.error_or_limit);
        }
        Action::Add(attribute) => {
            let room = BILLION - disk.attributes[attribute].value.abs() - disk.sum_of_active_adds();
            claim.value = within(chance, room);
        }
        Action::Set(_) => {}
    }
    claim
}
