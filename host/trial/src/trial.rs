//! The trial: rounds of events, each from the empty board, so that a failing round can be repeated and shortened.

use crate::beside::{Beside, Step};
use crate::chance::Chance;
use crate::event::Event;
use crate::traffic::Traffic;
use std::panic::{catch_unwind, AssertUnwindSafe};

/// Calls of a round, at most.
const ROUND: u64 = 16_384;
/// The whole board is compared each time that this many calls were made.
const WHOLE_EVERY: u64 = 256;

/// A list of events from the empty board whose last one fails, and what is wrong.
pub struct Failure {
    pub events: Vec<Event>,
    pub wrong: String,
}

/// A panic in the second program or in the trial itself is a failure as well.
pub fn unpanicked(run: impl FnOnce() -> Result<(), String>) -> Result<(), String> {
    catch_unwind(AssertUnwindSafe(run)).unwrap_or_else(|panic| {
        let text = panic.downcast_ref::<String>().map(String::as_str);
        Err(format!("panic: {}", text.or(panic.downcast_ref::<&str>().copied()).unwrap_or("no text")))
    })
}

pub struct Trial<S> {
    pub beside: Beside<S>,
    chance: Chance,
}

impl<S: Step> Trial<S> {
    pub fn new(desk: S, seed: u64) -> Trial<S> {
        Trial { beside: Beside::new(desk, WHOLE_EVERY), chance: Chance::new(seed) }
    }

    /// Makes rounds until so many calls are compared.
    pub fn run(&mut self, calls: u64) -> Result<(), Failure> {
        let mut events = Vec::with_capacity(ROUND as usize + 1);
        while self.beside.counts.calls < calls {
            events.clear();
            if let Err(wrong) = unpanicked(|| self.round(calls, &mut events)) {
                return Err(Failure { events, wrong });
            }
        }
        self.beside.clear();
        Ok(())
    }

    fn round(&mut self, calls: u64, events: &mut Vec<Event>) -> Result<(), String> {
        self.beside.clear();
        let mut traffic = Traffic::new(self.chance.word());
        // open disks that are not sound only answer 14: such rounds are short
        let (garbage, open) = self.chance.one_of(&[(false, false), (false, false), (true, false), (true, true)]);
        let length = if open { ROUND / 16 } else { ROUND };
        if garbage {
            events.push(Event::Garbage { seed: self.chance.word(), open });
            self.beside.apply(&events[0])?;
        }
        let last = calls.min(self.beside.counts.calls + length);
        while self.beside.counts.calls < last {
            events.push(traffic.next(&self.beside.second));
            self.beside.apply(&events[events.len() - 1])?;
        }
        Ok(())
    }
}
