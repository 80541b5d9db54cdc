//! Granting: preconditions, lock step, barring, and the grant itself.

use crate::disk::{Claim, Disk, MOST_CLAIMS, MOST_VALUE, VALIDITY};
use crate::outcome::Item;
use crate::table::{entry, Action, Entry};

/// "*Preconditions* at second 'now'".
pub fn preconditions(disk: &Disk, claim: &Claim, now: i64) -> bool {
    match claim.method.action() {
        // No precondition speaks of a set.
        Action::Set(_) => true,
        Action::Add(attribute) => {
            let a = &disk.attributes[attribute];
            // "(b) an add: amount + own error ≤ limit"
            let b_holds = a.amount + claim.own_error() <= a.limit;
            // "(d) an add of d: |value| + the sum of |d'| over active adds + |d| ≤ 1,000,000,000"
            let d_holds =
                a.value.abs() + disk.sum_of_active_adds() + claim.value.abs() <= MOST_VALUE;
            b_holds && d_holds
        }
        Action::Read => {
            // "(a) a reading that asks for fresh figures: for each attribute read, stamp + validity > now"
            let a_holds = !claim.fresh
                || disk
                    .read_by(claim.method)
                    .all(|(number, a)| a.stamp + VALIDITY[number] > now);
            // "(c) a reading: the sum of the amounts read ≤ its stated limit"
            let c_holds = disk.sum_of_amounts(claim.method) <= claim.stated_limit();
            a_holds && c_holds
        }
    }
}

/// A write's gap, "which is |z − value| for a set and |d| for an add".
pub fn gap(disk: &Disk, write: &Claim) -> i64 {
    match write.method.action() {
        Action::Set(attribute) => (write.value - disk.attributes[attribute].value).abs(),
        Action::Add(_) => write.value.abs(),
        Action::Read => 0,
    }
}

/// A lock step that passed: the claim's total, and by how much each active reading
/// with entry G grows when the claim is granted.
#[derive(Clone, Debug, PartialEq, Eq)]
pub struct Passed {
    pub total: i64,
    pub growth: i64,
}

/// "*Lock step.*" Nothing is changed here: growth is only worked out, so that a claim
/// which waits after all leaves no amount behind.
pub fn lock_step(disk: &Disk, claim: &Claim) -> Option<Passed> {
    // "Starting amount: a set, its own error; an add, the attribute's amount + its own error;
    // a reading, the sum of the amounts read".
    let (mut total, limit) = match claim.method.action() {
        Action::Set(attribute) => (claim.own_error(), disk.attributes[attribute].limit),
        Action::Add(attribute) => {
            let a = &disk.attributes[attribute];
            (a.amount + claim.own_error(), a.limit)
        }
        Action::Read => (disk.sum_of_amounts(claim.method), claim.stated_limit()),
    };
    let growth = match claim.method.action() {
        Action::Read => 0,
        // "the write's own error + its gap"
        Action::Set(_) | Action::Add(_) => claim.own_error() + gap(disk, claim),
    };
    // "Then each active claim:"
    for active in &disk.active {
        match entry(active.method, claim.method) {
            Entry::A => {}
            // "N: no grant."
            Entry::N => return None,
            // "D (values z and z'): add |z − z'|; the total must stay ≤ the attribute's limit."
            Entry::D => {
                total += (claim.value - active.value).abs();
                if total > limit {
                    return None;
                }
            }
            // "G, reading requested: add the active write's gap ...; total ≤ the stated limit."
            Entry::G if claim.is_reading() => {
                total += gap(disk, active);
                if total > limit {
                    return None;
                }
            }
            // "G, write requested: each active reading's amount grows by the write's own error
            // + its gap, and must stay ≤ that reading's limit."
            Entry::G => {
                if active.amount + growth > active.stated_limit() {
                    return None;
                }
            }
        }
    }
    Some(Passed { total, growth })
}

/// "*Barring.* A waiting claim of equal or higher priority bars a claim if their entry isn't A
/// and the waiting one's preconditions hold now."
pub fn bars(disk: &Disk, waiting: &Claim, claim: &Claim, now: i64) -> bool {
    waiting.priority >= claim.priority
        && entry(waiting.method, claim.method) != Entry::A
        && preconditions(disk, waiting, now)
}

/// All that granting asks, places aside: "preconditions hold, nothing bars, the lock step passes".
pub fn places_aside(disk: &Disk, claim: &Claim, ahead: &[Claim], now: i64) -> Option<Passed> {
    if !preconditions(disk, claim, now) {
        return None;
    }
    if ahead.iter().any(|waiting| bars(disk, waiting, claim, now)) {
        return None;
    }
    lock_step(disk, claim)
}

/// "Granted: preconditions hold, nothing bars, the lock step passes, fewer than 8 are active."
pub fn decide(disk: &Disk, claim: &Claim, ahead: &[Claim], now: i64) -> Option<Passed> {
    places_aside(disk, claim, ahead, now).filter(|_| disk.active.len() < MOST_CLAIMS)
}

/// "A granted write's total becomes the attribute's amount at once, a granted reading's its own
/// amount, which its answer shows." Gives the grant's item.
pub fn grant(disk: &mut Disk, mut claim: Claim, passed: &Passed) -> Item {
    let item = match claim.method.action() {
        Action::Set(attribute) | Action::Add(attribute) => {
            for active in &mut disk.active {
                if entry(active.method, claim.method) == Entry::G {
                    active.amount += passed.growth;
                }
            }
            disk.attributes[attribute].amount = passed.total;
            // "A write's told is 0 and its amount is the attribute's amount after the grant."
            Item::granted(claim.ticket, 0, passed.total)
        }
        Action::Read => {
            // "A reading is told the sum of the values that it reads."
            claim.told = disk.sum_of_values(claim.method);
            claim.amount = passed.total;
            Item::granted(claim.ticket, claim.told, claim.amount)
        }
    };
    disk.active.push(claim);
    item
}
