//! Ways to damage a part: each breaks one clause of 01's "Sound", the last one several.

use crate::hurt::*;
use crate::odd::BILLION;
use second::{Action, Claim, PART};
use stopblocker::layout::slot::*;
use stopblocker::layout::{figure, part, SLOT_BYTES};

pub type Damage = fn(&mut Hurt) -> bool;

const LAST: i64 = u32::MAX as i64;
const LEAST: i64 = i32::MIN as i64;
const LIMITS: [usize; 2] = [part::USED + figure::LIMIT, part::PROMISED + figure::LIMIT];
const STAMPS: [usize; 3] = [part::USED + figure::STAMP, part::PROMISED + figure::STAMP, part::STATE + figure::STAMP];
const OVER: [i64; 4] = [BILLION + 1, -BILLION - 1, LEAST, i32::MAX as i64];

pub const DAMAGES: &[(&str, Damage)] = &[
    ("a spare word of the head", |h| h.flip(&[part::ZERO, part::ZERO + 4])),
    ("a spare word of a claim", spare_of_claim),
    ("a byte past the count", past_the_count),
    ("active count above 8", |h| count_above_8(h, part::ACTIVE_COUNT, h.disk.active.len())),
    ("waiting count above 8", |h| count_above_8(h, part::WAITING_COUNT, h.disk.waiting.len())),
    ("a count off by one", off_by_one),
    ("a method above 6", |h| h.on(h.any(all), METHOD, &[7, 8, 255, 256, LAST])),
    ("told of a write", |h| h.on(h.active(is_write), TOLD, &[1, LAST, LEAST])),
    ("amount of a write", |h| h.on(h.active(is_write), AMOUNT, &[1, LAST])),
    ("told of a waiting claim", |h| h.on(h.waiting(all), TOLD, &[1, LAST, LEAST])),
    ("amount of a waiting claim", |h| h.on(h.waiting(all), AMOUNT, &[1, LAST])),
    ("a ticket twice", ticket_twice),
    ("ticket 0", |h| h.on(h.any(all), TICKET, &[0])),
    ("a ticket not below next", |h| h.on(h.any(all), TICKET, &[h.disk.next_ticket, h.disk.next_ticket + 1, LAST])),
    ("next ticket 0", |h| h.set(part::NEXT_TICKET, 0)),
    ("next ticket above 1,000,000", |h| h.one(&[part::NEXT_TICKET], &[1_000_001, 1_000_002, LAST])),
    ("waiting claims out of order", out_of_order),
    ("used or promised out of range", |h| h.one(&[part::USED, part::PROMISED], &OVER)),
    ("state out of range", |h| h.one(&[part::STATE], &[256, -1, LAST, LEAST])),
    ("-2^31 as a value or as told", least),
    ("an amount over its limit", amount_over_limit),
    ("a limit above 2,000,000,000", |h| h.one(&LIMITS, &[2 * BILLION + 1, LAST])),
    ("a stamp after the clock", |h| h.disk.clock < LAST && h.one(&STAMPS, &[h.disk.clock + 1, LAST])),
    ("a measuring second after the clock", measured_late),
    ("the clock before a stamp or measuring second", clock_back),
    ("a reading's second of measuring", |h| h.on(h.any(Claim::is_reading), MEASURED, &[1, h.disk.clock.max(1)])),
    ("a reading's value", |h| h.on(h.any(Claim::is_reading), VALUE, &[1, -1, LEAST])),
    ("a write's value out of range", value_out),
    ("the fresh flag of a write", |h| h.on(h.any(is_write), FRESH, &[1])),
    ("a flag above 1", |h| h.on(h.any(all), FRESH, &[2, 256, LAST])),
    ("a priority above 255", |h| h.on(h.any(all), PRIORITY, &[256, LAST])),
    ("an own error or stated limit above 2,000,000,000", |h| h.on(h.any(all), OWN_ERROR, &[2 * BILLION + 1, LAST])),
    ("an own error over the attribute's limit", own_error_over_limit),
    ("a reading's amount over its limit", reading_over_limit),
    ("told beyond 2,000,000,000", told_beyond),
    ("entry N among the active", never),
    ("adds over 1,000,000,000", adds_over),
    ("all zeros", |h| h.fill(0)),
    ("all ones", |h| h.fill(0xff)),
    ("bytes by chance", bytes_by_chance),
    ("a few bytes by chance", few_by_chance),
    ("several of these", several),
];

fn all(_: &Claim) -> bool {
    true
}

fn is_write(claim: &Claim) -> bool {
    !claim.is_reading()
}

fn spare_of_claim(h: &mut Hurt) -> bool {
    h.pick(&h.any(all)).map_or(false, |(slot, _)| h.flip(&[slot + ZERO, slot + ZERO + 4]))
}

fn past_the_count(h: &mut Hurt) -> bool {
    let after_active = (active(h.disk.active.len()), waiting(0));
    let after_waiting = (waiting(h.disk.waiting.len()), PART);
    let (first, last) = h.chance.one_of(&[after_active, after_waiting]);
    if first == last {
        return false;
    }
    let any = h.between(first, last);
    let at = h.chance.one_of(&[first, last - 1, any]);
    h.part[at] = h.chance.one_of(&[1, 128, 255]);
    true
}

fn count_above_8(h: &mut Hurt, at: usize, count: usize) -> bool {
    h.one(&[at], &[9, 10, 255, 256 + count as i64, (1 << 31) + count as i64, LAST])
}

/// A count that is one too low, or one too high: then a slot of zeros counts as a claim, whose ticket 0 isn't sound.
fn off_by_one(h: &mut Hurt) -> bool {
    let counts = [(part::ACTIVE_COUNT, h.disk.active.len() as i64), (part::WAITING_COUNT, h.disk.waiting.len() as i64)];
    let (at, count) = h.chance.one_of(&counts);
    let other = h.chance.one_of(&[count - 1, count + 1]);
    (0..=8).contains(&other) && h.set(at, other)
}

fn ticket_twice(h: &mut Hurt) -> bool {
    let claims = h.any(all);
    h.two(claims.len()).map_or(false, |(one, other)| h.set(claims[one].0 + TICKET, claims[other].1.ticket))
}

/// Two waiting claims change places.
fn out_of_order(h: &mut Hurt) -> bool {
    let pair = h.two(h.disk.waiting.len());
    if let Some((one, other)) = pair {
        (0..SLOT_BYTES).for_each(|byte| h.part.swap(waiting(one) + byte, waiting(other) + byte));
    }
    pair.is_some()
}

fn least(h: &mut Hurt) -> bool {
    let mut places = vec![part::USED, part::PROMISED, part::STATE];
    places.extend(h.any(all).iter().flat_map(|(slot, _)| [slot + VALUE, slot + TOLD]));
    h.one(&places, &[LEAST])
}

fn amount_over_limit(h: &mut Hurt) -> bool {
    let k = h.between(0, 2);
    let limit = h.disk.attributes[k].limit;
    let figure_at = [part::USED, part::PROMISED][k];
    h.one(&[figure_at + figure::AMOUNT], &[limit + 1, limit + 1, 2 * BILLION + 1, LAST])
}

fn measured_late(h: &mut Hurt) -> bool {
    h.disk.clock < LAST && h.on(h.any(is_write), MEASURED, &[h.disk.clock + 1, LAST])
}

fn clock_back(h: &mut Hurt) -> bool {
    let stamps = h.disk.attributes.iter().map(|a| a.stamp);
    let measured = h.disk.active.iter().chain(&h.disk.waiting).map(|claim| claim.measured);
    let latest = stamps.chain(measured).max().unwrap_or(0);
    latest > 0 && h.set(part::CLOCK, latest - 1)
}

fn value_out(h: &mut Hurt) -> bool {
    h.pick(&h.any(is_write)).map_or(false, |(slot, claim)| match claim.method.action() {
        Action::Set(2) => h.one(&[slot + VALUE], &[256, -1, LEAST]),
        _ => h.one(&[slot + VALUE], &OVER),
    })
}

fn own_error_over_limit(h: &mut Hurt) -> bool {
    h.pick(&h.any(is_write)).map_or(false, |(slot, claim)| match claim.method.action() {
        Action::Set(k) | Action::Add(k) => h.set(slot + OWN_ERROR, h.disk.attributes[k].limit + 1),
        Action::Read => false,
    })
}

fn reading_over_limit(h: &mut Hurt) -> bool {
    let reading = h.pick(&h.active(Claim::is_reading));
    reading.map_or(false, |(slot, claim)| h.one(&[slot + AMOUNT], &[claim.stated_limit() + 1, LAST]))
}

fn told_beyond(h: &mut Hurt) -> bool {
    h.on(h.active(Claim::is_reading), TOLD, &[2 * BILLION + 1, -2 * BILLION - 1, LEAST])
}

/// Two active claims become a pair with entry N, all their other figures 0.
fn never(h: &mut Hurt) -> bool {
    let pair = h.two(h.disk.active.len());
    if let Some((one, other)) = pair {
        let methods = h.chance.one_of(&[(3, 3), (3, 6), (6, 3), (1, 2), (2, 1)]);
        for (slot, method) in [(active(one), methods.0), (active(other), methods.1)] {
            h.part[slot + METHOD..slot + SLOT_BYTES].fill(0);
            h.set(slot + METHOD, method);
        }
    }
    pair.is_some()
}

/// Makes the sum of |promised| and of all active |d| 1,000,000,001.
fn adds_over(h: &mut Hurt) -> bool {
    h.pick(&h.active(Claim::is_add)).map_or(false, |(slot, add)| {
        let others = h.disk.attributes[1].value.abs() + h.disk.sum_of_active_adds() - add.value.abs();
        let over = BILLION - others + 1;
        over <= BILLION && h.one(&[slot + VALUE], &[over, -over])
    })
}

fn bytes_by_chance(h: &mut Hurt) -> bool {
    h.chance.fill(h.part);
    true
}

fn few_by_chance(h: &mut Hurt) -> bool {
    for _ in 0..h.chance.between(1, 3) {
        let at = h.between(0, PART);
        h.part[at] = h.chance.word() as u8;
    }
    true
}

/// Two or three damages, one over the other.
fn several(h: &mut Hurt) -> bool {
    for _ in 0..h.chance.between(2, 3) {
        let kind = h.between(0, DAMAGES.len() - 1);
        DAMAGES[kind].1(h);
    }
    true
}
