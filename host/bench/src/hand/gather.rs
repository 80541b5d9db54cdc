//! The bounds of a claim's words, and what is wrong with claims, collected without a branch.

use super::layout::{Part, Slot};
use super::sound::{FIRST_READING, MOST_ERROR, MOST_STATE, MOST_VALUE};

const MOST_PRIORITY: u32 = 255;
const MOST_METHOD: u32 = 6;

/// Four words of a slot: the first four, or the next four.
type Four = [u32; 4];

/// The least ticket, method, priority and flag.
const FIRST: Four = [1, 0, 0, 0];

/// The least measuring second, value, error and told: a row for each write, one for all readings.
const THEN: [Four; 5] = [
    [0, MOST_VALUE.wrapping_neg(), 0, 0],
    [0, MOST_VALUE.wrapping_neg(), 0, 0],
    [0, MOST_VALUE.wrapping_neg(), 0, 0],
    [0, 0, 0, 0],
    [0, 0, 0, MOST_ERROR.wrapping_neg()],
];

/// How far above its least each word may lie: a row for each write, one for all readings.
pub struct Above {
    first: [Four; 5],
    then: [Four; 5],
}

impl Above {
    #[inline(always)]
    pub fn of(part: &Part) -> Above {
        let tickets = part.next.get().wrapping_sub(2);
        let clock = part.clock.get();
        let write = [tickets, MOST_METHOD, MOST_PRIORITY, 0];
        let reading = [tickets, MOST_METHOD, MOST_PRIORITY, 1];
        let set = |limit| [clock, 2 * MOST_VALUE, limit, 0];
        let (used, promised) = (set(part.used.limit.get()), set(part.promised.limit.get()));
        Above {
            first: [write, write, write, write, reading],
            then: [used, promised, promised, [clock, MOST_STATE, 0, 0], [0, 0, MOST_ERROR, 2 * MOST_ERROR]],
        }
    }
}

/// What is wrong: all zeros if nothing is. And a mask of the tickets' last six bits, with a second one of those that came
/// twice: where none came twice, all tickets differ.
#[derive(Default)]
pub struct Wrong {
    first: Four,
    then: Four,
    pub rest: u32,
    zero: u64,
    met: u64,
    pub again: u64,
}

impl Wrong {
    /// Tests one claim: ranges, 16 to 18, told, the two zero words; and notes its ticket.
    #[inline(always)]
    pub fn gather(&mut self, claim: &Slot, above: &Above) {
        let by = claim.method.get().min(FIRST_READING) as usize;
        let first = [claim.ticket.get(), claim.method.get(), claim.priority.get(), claim.fresh.get()];
        let then = [claim.measured.get(), claim.value.get(), claim.error.get(), claim.told.get()];
        for k in 0..4 {
            self.first[k] |= first[k].wrapping_sub(FIRST[k]).saturating_sub(above.first[by][k]);
            self.then[k] |= then[k].wrapping_sub(THEN[by][k]).saturating_sub(above.then[by][k]);
        }
        self.zero |= u64::from_le_bytes(claim.zero);
        let bit = 1 << (claim.ticket.get() & 63);
        self.again |= self.met & bit;
        self.met |= bit;
    }

    #[inline(always)]
    pub fn is_any(&self) -> bool {
        let four = |x: &Four| x[0] | x[1] | x[2] | x[3];
        four(&self.first) | four(&self.then) | self.rest | (self.zero | self.zero >> 32) as u32 != 0
    }
}
