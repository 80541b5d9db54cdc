//! Open, claim and release on a part, and the pass.

use super::decide::{decide, grant, Among};
use super::figures::limit;
use super::layout::{Answer, Figure, Part, Slot, Word, PLACES};
use super::pass::pass;
use super::sound::{Seen, MOST_ERROR, MOST_STATE, MOST_VALUE};
use super::Record;

const LAST_TICKET: u32 = 999_999;

/// An open of a closed disk.
#[inline(always)]
pub fn open(part: &mut Part, record: &Record, answer: &mut Answer) -> u32 {
    let now = Word::of(record[1] as u32);
    let (used, promised) = (record[2] as u32, (record[2] >> 32) as u32);
    if used > MOST_ERROR || promised > MOST_ERROR {
        return answer.refuse(17);
    }
    let zero = Word::of(0);
    let figure = |limit| Figure { value: zero, stamp: now, amount: zero, limit: Word::of(limit) };
    *part = Part {
        clock: now,
        next: Word::of(1),
        actives: zero,
        waitings: zero,
        used: figure(used),
        promised: figure(promised),
        state: zero,
        state_stamp: now,
        zero: [0; 8],
        active: [Slot::EMPTY; PLACES],
        waiting: [Slot::EMPTY; PLACES],
    };
    answer.own(3, 0, 0, 0)
}

/// The first of the refusals 15 to 19 that applies to a claim, or 0.
#[inline(always)]
fn refusal(part: &Part, claim: &Slot, now: u32) -> u32 {
    let (method, error) = (claim.method.get(), claim.error.get());
    if now < part.clock.get() {
        return 15;
    }
    if method > 6 {
        return 16;
    }
    let reading = method >= 4;
    let (least, above) = match method {
        0..=2 => (MOST_VALUE.wrapping_neg(), 2 * MOST_VALUE),
        3 => (0, MOST_STATE),
        _ => (0, 0),
    };
    if error > MOST_ERROR
        || claim.value.get().wrapping_sub(least) > above
        || claim.measured.get() > if reading { 0 } else { now }
        || claim.fresh.get() > reading as u32
    {
        return 17;
    }
    if !reading && error > limit(part, method) {
        return 18;
    }
    if claim.ticket.get() > LAST_TICKET {
        return 19;
    }
    0
}

/// A claim on a sound part.
#[inline(always)]
pub fn claim(part: &mut Part, seen: &Seen, record: &Record, answer: &mut Answer) -> u32 {
    let now = record[1] as u32;
    let ticket = part.next.get();
    let claim = Slot {
        ticket: Word::of(ticket),
        method: Word::of((record[0] >> 32) as u32 & 0xff),
        priority: Word::of((record[0] >> 40) as u32 & 0xff),
        fresh: Word::of((record[0] >> 48) as u32),
        measured: Word::of((record[1] >> 32) as u32),
        value: Word::of(record[2] as u32),
        error: Word::of((record[2] >> 32) as u32),
        ..Slot::EMPTY
    };
    let number = refusal(part, &claim, now);
    if number != 0 {
        return answer.refuse(number);
    }
    let mut among = Among { now, actives: seen.actives, active: seen.active, ahead: seen.waiting, adds: seen.adds };
    if let Some(total) = decide(part, seen.waitings, &claim, &among) {
        let item = grant(part, claim, total, &mut among);
        part.actives = Word::of(among.actives as u32);
        answer.own(0, ticket, item.told.signed(), total);
    } else {
        if seen.waitings >= PLACES {
            return answer.refuse(20);
        }
        queue(part, seen.waitings, claim);
        answer.own(1, ticket, 0, 0);
    }
    part.clock = Word::of(now);
    part.next = Word::of(ticket + 1);
    answer.items[0].code.get()
}

/// Puts a claim in its place among the n waiting ones, in the pass's order.
#[inline(always)]
fn queue(part: &mut Part, n: usize, claim: Slot) {
    let mut at = n & (PLACES - 1);
    while at > 0 && part.waiting[at - 1].priority.get() < claim.priority.get() {
        part.waiting[at] = part.waiting[at - 1];
        at -= 1;
    }
    part.waiting[at] = claim;
    part.waitings = Word::of(n as u32 + 1);
}

/// A release on a sound part.
#[inline(always)]
pub fn release(part: &mut Part, seen: &Seen, record: &Record, answer: &mut Answer) -> u32 {
    let (now, ticket) = (record[1] as u32, (record[1] >> 32) as u32);
    if now < part.clock.get() {
        return answer.refuse(15);
    }
    let (mut n, mut m) = (seen.actives, seen.waitings);
    let mut adds = seen.adds;
    let has = |claim: &Slot| claim.ticket.get() == ticket;
    if let Some(at) = part.active[..n].iter().position(has) {
        adds -= land(part, at);
        take(&mut part.active, n, at);
        n -= 1;
        part.actives = Word::of(n as u32);
    } else if let Some(at) = part.waiting[..m].iter().position(has) {
        take(&mut part.waiting, m, at);
        m -= 1;
        part.waitings = Word::of(m as u32);
    } else {
        return answer.refuse(21);
    }
    part.clock = Word::of(now);
    answer.own(2, ticket, 0, 0);
    if m > 0 && n < PLACES {
        let active = part.active[..n].iter().fold(0, |all, claim| all | 1u8 << (claim.method.get() & 7));
        pass(part, m, &mut Among { now, actives: n, active, ahead: 0, adds }, answer);
    }
    2
}

/// Makes an active claim show in the figures. Returns |d| for an add, else 0.
#[inline(always)]
fn land(part: &mut Part, at: usize) -> u64 {
    let claim = part.active[at];
    match claim.method.get() {
        0 => {
            part.used.value = claim.value;
            part.used.stamp = claim.measured;
        }
        1 => {
            let sum = part.promised.value.get().wrapping_add(claim.value.get());
            part.promised.value = Word::of(sum);
            return claim.value.signed().unsigned_abs() as u64;
        }
        2 => {
            part.promised.value = claim.value;
            part.promised.stamp = claim.measured;
        }
        3 => {
            part.state = claim.value;
            part.state_stamp = claim.measured;
        }
        _ => {}
    }
    0
}

/// Removes claim `at` from the first n: those behind it move up, and the last slot is cleared.
#[inline(always)]
fn take(slots: &mut [Slot; PLACES], n: usize, at: usize) {
    let claims = &mut slots[..n];
    for k in at + 1..claims.len() {
        claims[k - 1] = claims[k];
    }
    if let Some(last) = claims.last_mut() {
        *last = Slot::EMPTY;
    }
}
