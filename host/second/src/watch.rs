//! Demand 3 watched from outside, by bookkeeping of its own.
//!
//! First half: "From the grant of a reading to its release, the sum it was told and the disk's
//! present sum of the same figures never differ by more than the limit it stated less the error
//! those figures already carried at that grant."
//!
//! Second half: "And no reader pays for another's limit". It is watched in two ways: a reading
//! for which all that the demand lists holds must be granted in its own call; and a reading
//! decided once more with all other readings taken away comes to the same, places aside.

use crate::disk::{amount_in_range, Claim, Disk, LAST_TICKET, MOST_CLAIMS, VALIDITY};
use crate::grant::places_aside;
use crate::outcome::{Item, Outcome, GRANTED, OPENED, RELEASED};
use crate::record::{self, Kind};
use crate::table::{Action, Method};
use crate::{Desk, DISKS};

/// A granted reading, from its grant to its release.
#[derive(Clone, Debug)]
struct Reading {
    ticket: i64,
    method: Method,
    told: i64,
    limit: i64,
    /// "the error those figures already carried at that grant": the sum of the amounts read then.
    carried: i64,
}

/// What is known of one disk.
#[derive(Clone, Debug, Default)]
struct Seen {
    /// The attributes' amounts after the last call seen; None while none was seen.
    amounts: [Option<i64>; 3],
    readings: Vec<Reading>,
}

/// The counts grow with every check that was made and held.
#[derive(Clone, Debug)]
pub struct Watch {
    seen: Vec<Seen>,
    /// Readings whose grant was seen.
    pub readings: u64,
    /// First half: |told − present sum| ≤ limit − carried.
    pub checks: u64,
    /// Of these, met with equality; and of those, with something above 0 on both sides.
    pub equalities: u64,
    pub equalities_above_zero: u64,
    /// Second half: readings that the demand says are granted in their own call, and were.
    pub granted_at_once: u64,
    /// Second half: readings decided once more without the others.
    pub decided_again: u64,
}

impl Default for Watch {
    fn default() -> Watch {
        Watch::new()
    }
}

impl Watch {
    pub fn new() -> Watch {
        Watch {
            seen: vec![Seen::default(); DISKS],
            readings: 0,
            checks: 0,
            equalities: 0,
            equalities_above_zero: 0,
            granted_at_once: 0,
            decided_again: 0,
        }
    }

    /// The disk was damaged or re-read from outside: its readings are no longer watched.
    pub fn forget(&mut self, disk: usize) {
        self.seen[disk] = Seen::default();
    }

    /// One call, accepted or refused, with the desk after it. `disk` is the record's disk.
    pub fn check(
        &mut self,
        desk: &Desk,
        disk: usize,
        outcome: &Outcome,
        record: &[u8],
    ) -> Result<(), String> {
        let items: &[Item] = match outcome {
            // A buffer of another length: nothing was decided and nothing changed.
            Outcome::Nine => return Ok(()),
            Outcome::Refused(_) => &[],
            Outcome::Accepted(items) => items,
        };
        let after = match desk.disk(disk) {
            Some(after) => after,
            // Closed or not sound: only a refusal can come of it.
            None if items.is_empty() => return Ok(()),
            None => return Err(format!("disk {disk}: accepted, yet not open and sound")),
        };
        let told_of = |text: String| format!("disk {disk}: {text}");
        self.keep_books(after, disk, items).map_err(told_of)?;
        self.first_half(after, disk).map_err(told_of)?;
        self.own_call(after, outcome, record).map_err(told_of)?;
        self.again_without_readers(after).map_err(told_of)
    }

    /// Follows the items in their order: readings come and go, amounts change with grants alone.
    fn keep_books(&mut self, after: &Disk, disk: usize, items: &[Item]) -> Result<(), String> {
        let seen = &mut self.seen[disk];
        if let Some(own) = items.first() {
            match own.code {
                // "An opened disk has values 0, amounts 0"
                OPENED => {
                    *seen = Seen {
                        amounts: [Some(0); 3],
                        readings: Vec::new(),
                    }
                }
                RELEASED => seen.readings.retain(|r| r.ticket != i64::from(own.ticket)),
                _ => {}
            }
        }
        let mut granted: Vec<(&Item, &Claim)> = Vec::new();
        for item in items.iter().filter(|item| item.code == GRANTED) {
            let claim = after
                .active_claim(i64::from(item.ticket))
                .ok_or_else(|| format!("ticket {} was granted, yet is not active", item.ticket))?;
            granted.push((item, claim));
        }
        // Before the first call seen, an amount is known where the call granted no write of it.
        for (attribute, amount) in seen.amounts.iter_mut().enumerate() {
            let written = granted
                .iter()
                .any(|(_, c)| c.method.writes() >> attribute & 1 == 1);
            if amount.is_none() && !written {
                *amount = Some(after.attributes[attribute].amount);
            }
        }
        for (item, claim) in granted {
            match claim.method.action() {
                Action::Set(attribute) | Action::Add(attribute) => {
                    seen.amounts[attribute] = Some(i64::from(item.amount));
                }
                Action::Read => {
                    let carried: Option<i64> = after
                        .read_by(claim.method)
                        .map(|(attribute, _)| seen.amounts[attribute])
                        .sum();
                    if let Some(carried) = carried {
                        self.readings += 1;
                        seen.readings.push(Reading {
                            ticket: claim.ticket,
                            method: claim.method,
                            told: i64::from(item.told),
                            limit: claim.stated_limit(),
                            carried,
                        });
                    }
                }
            }
        }
        for (attribute, figures) in after.attributes.iter().enumerate() {
            if seen.amounts[attribute] != Some(figures.amount) {
                return Err(format!(
                    "attribute {attribute}: amount {} after the call, {:?} by the grants",
                    figures.amount, seen.amounts[attribute]
                ));
            }
        }
        Ok(())
    }

    /// "|told − present sum| ≤ limit − carried", for every reading watched on this disk.
    fn first_half(&mut self, after: &Disk, disk: usize) -> Result<(), String> {
        for reading in &self.seen[disk].readings {
            if after.active_claim(reading.ticket).is_none() {
                return Err(format!("reading {} ended unreleased", reading.ticket));
            }
            let present = after.sum_of_values(reading.method);
            let differ = (reading.told - present).abs();
            let may = reading.limit - reading.carried;
            if differ > may {
                return Err(format!(
                    "reading {}: told {}, present sum {present}, limit {}, carried {}",
                    reading.ticket, reading.told, reading.limit, reading.carried
                ));
            }
            self.checks += 1;
            self.equalities += u64::from(differ == may);
            self.equalities_above_zero += u64::from(differ == may && may > 0);
        }
        Ok(())
    }

    /// The second half for a reading in its own call. The disk before the call is the disk after
    /// it without the claim itself: a claim that is granted or waits changes nothing else of it
    /// that a reading looks at.
    fn own_call(&mut self, after: &Disk, outcome: &Outcome, record: &[u8]) -> Result<(), String> {
        let (now, asked) = match well_formed_reading(record) {
            Some(reading) => reading,
            None => return Ok(()),
        };
        let mut before = after.clone();
        match outcome {
            Outcome::Accepted(items) => {
                let own = i64::from(items[0].ticket);
                before.active.retain(|claim| claim.ticket != own);
                before.waiting.retain(|claim| claim.ticket != own);
                before.next_ticket -= 1;
            }
            // "no earlier than that disk's clock"
            _ if now < after.clock => return Ok(()),
            _ => {}
        }
        let granted = matches!(outcome, Outcome::Accepted(items) if items[0].code == GRANTED);
        if must_be_granted(&before, &asked, now) {
            if !granted {
                return Err(format!("a reading had to be granted, yet {outcome:?}"));
            }
            self.granted_at_once += 1;
        }
        // Without the other readings the answer is the same, but for a place or a ticket.
        let could = before.active.len() < MOST_CLAIMS && before.next_ticket <= LAST_TICKET;
        if granted || could {
            without_readers(&mut before);
            let alone = places_aside(&before, &asked, &before.waiting, now).is_some();
            if alone != granted {
                return Err(format!(
                    "a reading {outcome:?}, yet {alone} without readers"
                ));
            }
            self.decided_again += 1;
        }
        Ok(())
    }

    /// Every waiting reading, decided at the clock with the other readings there and away.
    fn again_without_readers(&mut self, after: &Disk) -> Result<(), String> {
        if !after.waiting.iter().any(Claim::is_reading) {
            return Ok(());
        }
        let mut alone = after.clone();
        without_readers(&mut alone);
        for (place, reading) in after.waiting.iter().enumerate() {
            if !reading.is_reading() {
                continue;
            }
            // Those ahead that are no readings stand first in `alone` as well.
            let writes = |claim: &&Claim| !claim.is_reading();
            let ahead = after.waiting[..place].iter().filter(writes).count();
            let with = places_aside(after, reading, &after.waiting[..place], after.clock);
            let away = places_aside(&alone, reading, &alone.waiting[..ahead], after.clock);
            if with.is_some() != away.is_some() {
                return Err(format!("reading {} waits for a reading", reading.ticket));
            }
            self.decided_again += 1;
        }
        Ok(())
    }
}

fn without_readers(disk: &mut Disk) {
    disk.active.retain(|claim| !claim.is_reading());
    disk.waiting.retain(|claim| !claim.is_reading());
}

/// "a well-formed reading": by its own bytes it earns no 10, 11, 16 or 17.
fn well_formed_reading(bytes: &[u8]) -> Option<(i64, Claim)> {
    let request = record::read(bytes)?;
    let (asked, in_range) = match request.kind {
        Kind::Claim {
            method,
            priority,
            fresh,
            measured,
            value,
            error_or_limit,
        } => {
            let asked = Claim {
                ticket: 0,
                method: Method::of_number(method).filter(|m| m.is_reading())?,
                priority,
                fresh,
                measured,
                value,
                error_or_limit,
                told: 0,
                amount: 0,
            };
            let in_range = amount_in_range(error_or_limit) && value == 0 && measured == 0;
            (asked, in_range)
        }
        _ => return None,
    };
    (request.disk < DISKS && in_range).then_some((request.now, asked))
}

/// "is granted in its own call if tickets remain, fewer than eight claims are active, none active
/// and none waiting at equal or higher priority writes what it reads, the carried error is within
/// its limit, and the figures are fresh if it asked for that."
fn must_be_granted(before: &Disk, asked: &Claim, now: i64) -> bool {
    let writes_it = |claim: &Claim| claim.method.writes() & asked.method.reads() != 0;
    let fresh = before
        .read_by(asked.method)
        .all(|(number, a)| a.stamp + VALIDITY[number] > now);
    before.next_ticket <= LAST_TICKET
        && before.active.len() < MOST_CLAIMS
        && !before.active.iter().any(writes_it)
        && !before
            .waiting
            .iter()
            .any(|w| w.priority >= asked.priority && writes_it(w))
        && before.sum_of_amounts(asked.method) <= asked.stated_limit()
        && (!asked.fresh || fresh)
}
