//! The pass of a release.

use super::decide::{decide, grant, Among};
use super::layout::{Answer, Part, Slot, Word, PLACES};

/// Tries each of the m waiting claims once, in order. The first `kept` slots hold those that were tried and still wait.
#[inline(always)]
pub fn pass(part: &mut Part, m: usize, among: &mut Among, answer: &mut Answer) {
    let (mut kept, mut granted) = (0, 0);
    for k in 0..m.min(PLACES) {
        let claim = part.waiting[k];
        if let Some(total) = decide(part, kept, &claim, among) {
            granted += 1;
            answer.items[granted] = grant(part, claim, total, among);
        } else {
            among.ahead |= 1u8 << (claim.method.get() & 7);
            if kept < k {
                part.waiting[kept] = claim;
            }
            kept += 1;
        }
    }
    if granted > 0 {
        for slot in &mut part.waiting[kept..m] {
            *slot = Slot::EMPTY;
        }
        part.actives = Word::of(among.actives as u32);
        part.waitings = Word::of(kept as u32);
    }
}
