//! The soundness test: one walk over the claims, which collects what is wrong; one test at the end.

use super::gather::{Above, Wrong};
use super::layout::{eight_at, Part, Slot, PLACES, SLOT_BYTES};

pub const MOST_VALUE: u32 = 1_000_000_000;
pub const MOST_ERROR: u32 = 2_000_000_000;
pub const MOST_STATE: u32 = 255;
const MOST_NEXT: u32 = 1_000_000;
const ADD_PROMISED: u32 = 1;
pub const FIRST_READING: u32 = 4;

/// What the test found out that the decision needs.
#[derive(Default)]
pub struct Seen {
    pub actives: usize,
    pub waitings: usize,
    /// The methods of the active claims, and of the waiting ones, one bit for each.
    pub active: u8,
    pub waiting: u8,
    /// The sum of |d| over the active adds.
    pub adds: u64,
}

/// What the part holds, if it is sound.
#[inline(always)]
pub fn sound(part: &Part) -> Option<Seen> {
    let (n, m) = (part.actives.get() as usize, part.waitings.get() as usize);
    if n > PLACES || m > PLACES {
        return None;
    }
    let seen = if n + m == 0 { Some(Seen::default()) } else { claims(part, n, m) };
    if figures_wrong(part) | rest_wrong(&part.active, n) | rest_wrong(&part.waiting, m) {
        return None;
    }
    seen
}

#[inline(always)]
fn figures_wrong(part: &Part) -> bool {
    let clock = part.clock.get();
    let mut wrong = part.next.get().wrapping_sub(1) >= MOST_NEXT;
    for figure in [&part.used, &part.promised] {
        wrong |= figure.value.get().wrapping_add(MOST_VALUE) > 2 * MOST_VALUE;
        wrong |= figure.limit.get() > MOST_ERROR;
        wrong |= figure.amount.get() > figure.limit.get();
        wrong |= figure.stamp.get() > clock;
    }
    wrong |= part.state.get() > MOST_STATE;
    wrong |= part.state_stamp.get() > clock;
    wrong | (part.zero != [0; 8])
}

/// Whether any byte of the slots behind the first n is not zero. Each length has its own code without a loop.
#[inline(always)]
fn rest_wrong(slots: &[Slot; PLACES], n: usize) -> bool {
    match n {
        0 => any_set::<8>(slots),
        1 => any_set::<7>(slots),
        2 => any_set::<6>(slots),
        3 => any_set::<5>(slots),
        4 => any_set::<4>(slots),
        5 => any_set::<3>(slots),
        6 => any_set::<2>(slots),
        7 => any_set::<1>(slots),
        _ => false,
    }
}

/// Whether any byte of the last N slots is not zero: 32 bytes at a time; the last 32 may overlap those before them.
#[inline(always)]
fn any_set<const N: usize>(slots: &[Slot; PLACES]) -> bool {
    let bytes = &Part::bytes_of(slots)[(PLACES - N) * SLOT_BYTES..];
    let mut all = [0; 4];
    for part in 0..(N * SLOT_BYTES + 31) / 32 {
        let at = (32 * part).min(N * SLOT_BYTES - 32);
        for (k, all) in all.iter_mut().enumerate() {
            *all |= eight_at(bytes, at + 8 * k);
        }
    }
    all[0] | all[1] | all[2] | all[3] != 0
}

/// Tests the claims of a part, whatever its figures are.
#[inline(always)]
fn claims(part: &Part, n: usize, m: usize) -> Option<Seen> {
    let above = Above::of(part);
    let mut wrong = Wrong::default();
    let (mut active, mut twice) = (0, 0);
    for claim in &part.active[..n] {
        wrong.gather(claim, &above);
        let method = claim.method.get();
        let most = if method >= FIRST_READING { claim.error.get() } else { 0 };
        wrong.rest |= claim.amount.get().saturating_sub(most);
        let bit = 1u32 << (method & 7);
        twice |= active & bit;
        active |= bit;
    }
    let (mut waiting, mut last, mut order) = (0, 0, true);
    for claim in &part.waiting[..m] {
        wrong.gather(claim, &above);
        wrong.rest |= claim.told.get() | claim.amount.get();
        waiting |= 1u32 << (claim.method.get() & 7);
        let place = (!claim.priority.get() as u64) << 32 | claim.ticket.get() as u64;
        order &= last < place;
        last = place;
    }
    let adds = if active >> ADD_PROMISED & 1 == 1 { sum_of_adds(&part.active[..n]) } else { 0 };
    let sum = part.promised.value.signed().unsigned_abs() as u64 + adds;
    // if next is 1 there is no ticket that a claim could have; `Above` does not see that, the number of claims does
    let few = n + m < part.next.get() as usize;
    if wrong.is_any() | !order | !few | never(active, twice) | (sum > MOST_VALUE as u64)
        || wrong.again != 0 && tickets_repeat(&part.active[..n], &part.waiting[..m])
    {
        return None;
    }
    Some(Seen { actives: n, waitings: m, active: active as u8, waiting: waiting as u8, adds })
}

/// Whether two active claims have entry N, from the active methods and those that two claims have: an AddPromised beside a
/// SetPromised, a SetState beside a SetState or a ReadState.
#[inline(always)]
fn never(active: u32, twice: u32) -> bool {
    let promised = active & active >> 1 & 1 << 1;
    let state = (active >> 3 | twice) & active & 1 << 3;
    promised | state != 0
}

/// The sum of |d| over the active adds.
#[inline(always)]
fn sum_of_adds(active: &[Slot]) -> u64 {
    let size = |claim: &Slot| claim.value.signed().unsigned_abs() as u64;
    active.iter().filter(|claim| claim.method.get() == ADD_PROMISED).map(size).sum()
}

/// Whether any two tickets are equal, pair by pair.
#[cold]
#[inline(never)]
fn tickets_repeat(active: &[Slot], waiting: &[Slot]) -> bool {
    let mut tickets = [0; 2 * PLACES];
    let n = active.len() + waiting.len();
    for (ticket, claim) in tickets.iter_mut().zip(active.iter().chain(waiting)) {
        *ticket = claim.ticket.get();
    }
    (1..n).any(|k| tickets[..k].contains(&tickets[k]))
}
