//! The decision on a claim: preconditions, barring, lock step, place; and its grant.

use super::figures::{carried, gap, preconditions, told, written, ADD_PROMISED, READ_USED, REPORT_USED, SET_PROMISED};
use super::layout::{Item, Part, Slot, Word, PLACES};

/// By requested method, the methods whose entry with it is N: AddPromised and SetPromised, SetState and itself and
/// ReadState.
const NEVER: [u8; 8] = [0, 1 << 2, 1 << 1, 1 << 3 | 1 << 6, 0, 0, 1 << 3, 0];

/// By requested method, the methods whose entry with it is D or G: they change its total, or it changes their amounts.
const COUNTS: [u8; 8] = [1 << 0 | 1 << 4 | 1 << 5, 1 << 5, 1 << 2 | 1 << 5, 0, 1 << 0, 1 << 0 | 1 << 1 | 1 << 2, 0, 0];

/// The methods that are readings.
const READINGS: u8 = 1 << 4 | 1 << 5 | 1 << 6;

/// What a decision needs besides the figures.
#[derive(Clone, Copy)]
pub struct Among {
    pub now: u32,
    pub actives: usize,
    /// The methods of the active claims, and of the waiting ones ahead.
    pub active: u8,
    pub ahead: u8,
    /// The sum of |d| over the active adds.
    pub adds: u64,
}

/// Whether one of the waiting claims ahead bars. They stand in the pass's order, so the walk ends at the first of lower priority.
#[inline(always)]
fn barred(part: &Part, ahead: usize, claim: &Slot, among: &Among) -> bool {
    let method = (claim.method.get() & 7) as usize;
    let not_always = COUNTS[method] | NEVER[method];
    if among.ahead & not_always == 0 {
        return false;
    }
    for waiting in &part.waiting[..ahead] {
        if waiting.priority.get() < claim.priority.get() {
            return false;
        }
        let always = not_always >> (waiting.method.get() & 7) & 1 == 0;
        if !always && preconditions(part, waiting, among.now, among.adds) {
            return true;
        }
    }
    false
}

/// The total of the claim if it is granted; the first `ahead` waiting claims are ahead of it.
#[inline(always)]
pub fn decide(part: &Part, ahead: usize, claim: &Slot, among: &Among) -> Option<u32> {
    let method = claim.method.get();
    let by = (method & 7) as usize;
    if among.actives >= PLACES
        || among.active & NEVER[by] != 0
        || !preconditions(part, claim, among.now, among.adds)
        || barred(part, ahead, claim, among)
    {
        return None;
    }
    let error = claim.error.get() as u64;
    let counts = COUNTS[by];
    let reading = method >= READ_USED;
    let (start, limit) = if reading {
        (carried(part, method), error)
    } else {
        let (amount, limit) = written(part, method);
        (error + if method == ADD_PROMISED { amount as u64 } else { 0 }, limit as u64)
    };
    let added = if among.active & counts == 0 {
        0
    } else if reading {
        gaps(part, among.actives, counts)
    } else {
        distances(part, among.actives, claim, counts, error + gap(part, claim))?
    };
    let total = start + added;
    if total <= limit {
        Some(total as u32)
    } else {
        None
    }
}

/// The sum of the gaps of the active writes whose methods are in `counts`.
#[inline(always)]
fn gaps(part: &Part, actives: usize, counts: u8) -> u64 {
    let counted = |active: &&Slot| counts >> (active.method.get() & 7) & 1 == 1;
    part.active[..actives].iter().filter(counted).map(|active| gap(part, active)).sum()
}

/// The sum of the distances to the active sets in `counts`; none if a reading in `counts` would grow over its limit.
#[inline(always)]
fn distances(part: &Part, actives: usize, claim: &Slot, counts: u8, raise: u64) -> Option<u64> {
    let value = claim.value.signed();
    let (mut total, mut over) = (0, false);
    for active in &part.active[..actives] {
        let bit = counts & 1u8 << (active.method.get() & 7);
        if bit & READINGS != 0 {
            over |= active.amount.get() as u64 + raise > active.error.get() as u64;
        } else if bit != 0 {
            total += value.abs_diff(active.value.signed()) as u64;
        }
    }
    if over {
        None
    } else {
        Some(total)
    }
}

/// Grants the claim: raises the readings, notes its total, puts it last among the active claims. Returns its item.
#[inline(always)]
pub fn grant(part: &mut Part, mut claim: Slot, total: u32, among: &mut Among) -> Item {
    let method = claim.method.get();
    let n = among.actives;
    let mut sum = 0;
    if method >= READ_USED {
        sum = told(part, method);
        claim.told = Word::of(sum as u32);
        claim.amount = Word::of(total);
    } else {
        raise_readers(part, &claim, among);
        match method {
            REPORT_USED => part.used.amount = Word::of(total),
            ADD_PROMISED | SET_PROMISED => part.promised.amount = Word::of(total),
            _ => {}
        }
        if method == ADD_PROMISED {
            among.adds += claim.value.signed().unsigned_abs() as u64;
        }
    }
    part.active[n & (PLACES - 1)] = claim;
    among.active |= 1u8 << (method & 7);
    among.actives = n + 1;
    Item::of(0, claim.ticket.get(), sum, total)
}

/// Raises every active reading of what the write writes by the write's own error and gap.
#[inline(always)]
fn raise_readers(part: &mut Part, claim: &Slot, among: &Among) {
    let readers = COUNTS[(claim.method.get() & 7) as usize] & READINGS;
    if among.active & readers == 0 {
        return;
    }
    let raise = claim.error.get().wrapping_add(gap(part, claim) as u32);
    for active in &mut part.active[..among.actives] {
        if readers >> (active.method.get() & 7) & 1 == 1 {
            active.amount = Word::of(active.amount.get().wrapping_add(raise));
        }
    }
}
