//! A part that is being damaged, with the sound disk that it held; what every damage needs.

use crate::chance::Chance;
use second::{Claim, Disk, PART};
use stopblocker::layout::{part, SLOT_BYTES};

/// Where the slot of an active claim begins in a part.
pub const fn active(k: usize) -> usize {
    part::ACTIVE + SLOT_BYTES * k
}

/// Where the slot of a waiting claim begins in a part.
pub const fn waiting(k: usize) -> usize {
    part::WAITING + SLOT_BYTES * k
}

pub struct Hurt<'a> {
    pub chance: &'a mut Chance,
    pub disk: &'a Disk,
    pub part: &'a mut [u8; PART],
}

/// Every function that damages returns whether it did: false if this disk has nothing to damage in that way.
impl<'a> Hurt<'a> {
    /// Puts a word or a signed word: the number modulo 2^32.
    pub fn set(&mut self, at: usize, word: i64) -> bool {
        self.part[at..at + 4].copy_from_slice(&(word as u32).to_le_bytes());
        true
    }

    /// Puts one of the words at one of the offsets.
    pub fn one(&mut self, places: &[usize], words: &[i64]) -> bool {
        let (at, word) = (self.chance.one_of(places), self.chance.one_of(words));
        self.set(at, word)
    }

    /// Changes one bit of a word at one of the offsets.
    pub fn flip(&mut self, places: &[usize]) -> bool {
        let at = self.chance.one_of(places) + self.chance.below(4) as usize;
        self.part[at] ^= 1 << self.chance.below(8);
        true
    }

    pub fn fill(&mut self, byte: u8) -> bool {
        self.part.fill(byte);
        true
    }

    /// A number from the first up to, but not including, the last.
    pub fn between(&mut self, first: usize, last: usize) -> usize {
        first + self.chance.below((last - first) as u64) as usize
    }

    /// The active claims for which `meant` holds, each with the offset of its slot.
    pub fn active(&self, meant: fn(&Claim) -> bool) -> Vec<(usize, &'a Claim)> {
        let slots = self.disk.active.iter().enumerate().map(|(k, claim)| (active(k), claim));
        slots.filter(|(_, claim)| meant(claim)).collect()
    }

    pub fn waiting(&self, meant: fn(&Claim) -> bool) -> Vec<(usize, &'a Claim)> {
        let slots = self.disk.waiting.iter().enumerate().map(|(k, claim)| (waiting(k), claim));
        slots.filter(|(_, claim)| meant(claim)).collect()
    }

    pub fn any(&self, meant: fn(&Claim) -> bool) -> Vec<(usize, &'a Claim)> {
        let mut all = self.active(meant);
        all.extend(self.waiting(meant));
        all
    }

    /// Puts one of the words at an offset in the slot of one of the claims.
    pub fn on(&mut self, claims: Vec<(usize, &Claim)>, at: usize, words: &[i64]) -> bool {
        self.pick(&claims).map_or(false, |(slot, _)| self.one(&[slot + at], words))
    }

    pub fn pick<'b>(&mut self, claims: &[(usize, &'b Claim)]) -> Option<(usize, &'b Claim)> {
        (!claims.is_empty()).then(|| self.chance.one_of(claims))
    }

    /// Two different numbers below a count.
    pub fn two(&mut self, count: usize) -> Option<(usize, usize)> {
        (count > 1).then(|| {
            let one = self.between(0, count);
            (one, (one + self.between(1, count)) % count)
        })
    }
}
