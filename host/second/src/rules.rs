//! The three requests on one disk, and the refusals 15 to 21 in their order.

use crate::disk::{
    amount_in_range, value_in_range, Attribute, Claim, Disk, LAST_TICKET, MOST_CLAIMS,
};
use crate::grant::{decide, grant};
use crate::outcome::{Item, OPENED, RELEASED, WAITS};
use crate::table::{Action, Method};

/// "Refusal numbers, in the order they apply" (9 stands in `Outcome`).
#[derive(Clone, Copy, Debug, PartialEq, Eq)]
pub enum Refusal {
    /// "record not 24 bytes, wrong mark or kind, flag over 1, an unused byte or byte 7 not zero"
    Record = 10,
    /// "disk above 63"
    DiskAbove63 = 11,
    /// "open of an open disk"
    OpenOfOpen = 12,
    /// "claim or release on a closed disk"
    Closed = 13,
    /// "the disk's part isn't sound (not for open)"
    Unsound = 14,
    /// "now below the disk's clock (not for open)"
    BelowClock = 15,
    /// "method above 6 (claim)"
    MethodAbove6 = 16,
    /// "a field out of range: values, errors, limits; ..."
    OutOfRange = 17,
    /// "a write whose own error exceeds its attribute's limit"
    ErrorOverLimit = 18,
    /// "a claim with no ticket left"
    NoTicket = 19,
    /// "a claim that would wait while 8 wait"
    EightWait = 20,
    /// "release of a ticket neither active nor waiting"
    NoSuchTicket = 21,
}

/// What a claim's record says, before its method is known to be one.
#[derive(Clone, Debug)]
pub struct Asked {
    pub method: i64,
    pub priority: i64,
    pub fresh: bool,
    pub measured: i64,
    pub value: i64,
    pub error_or_limit: i64,
}

/// 17: "a field out of range: values, errors, limits; a reading with value or second of measuring
/// not 0; a write with the fresh flag, or measured after now".
pub fn out_of_range(claim: &Claim, now: i64) -> bool {
    let amount_out = !amount_in_range(claim.error_or_limit);
    match claim.method.action() {
        Action::Read => amount_out || claim.value != 0 || claim.measured != 0,
        Action::Set(attribute) | Action::Add(attribute) => {
            amount_out
                || !value_in_range(attribute, claim.value)
                || claim.fresh
                || claim.measured > now
        }
    }
}

/// 18: "a write whose own error exceeds its attribute's limit".
pub fn error_over_limit(claim: &Claim, attributes: &[Attribute; 3]) -> bool {
    match claim.method.action() {
        Action::Read => false,
        Action::Set(attribute) | Action::Add(attribute) => {
            claim.own_error() > attributes[attribute].limit
        }
    }
}

/// An open of a closed disk.
pub fn open(
    now: i64,
    limit_of_used: i64,
    limit_of_promised: i64,
) -> Result<(Disk, Vec<Item>), Refusal> {
    // 17: "a field out of range: ... limits"
    if !amount_in_range(limit_of_used) || !amount_in_range(limit_of_promised) {
        return Err(Refusal::OutOfRange);
    }
    let disk = Disk::opened(now, limit_of_used, limit_of_promised);
    Ok((disk, vec![Item::ticket_only(OPENED, 0)]))
}

/// A claim on an open, sound disk.
pub fn claim(disk: &mut Disk, now: i64, asked: Asked) -> Result<Vec<Item>, Refusal> {
    if now < disk.clock {
        return Err(Refusal::BelowClock);
    }
    let method = Method::of_number(asked.method).ok_or(Refusal::MethodAbove6)?;
    let claim = Claim {
        // "a granted or waiting claim takes the next one"
        ticket: disk.next_ticket,
        method,
        priority: asked.priority,
        fresh: asked.fresh,
        measured: asked.measured,
        value: asked.value,
        error_or_limit: asked.error_or_limit,
        told: 0,
        amount: 0,
    };
    if out_of_range(&claim, now) {
        return Err(Refusal::OutOfRange);
    }
    if error_over_limit(&claim, &disk.attributes) {
        return Err(Refusal::ErrorOverLimit);
    }
    // "Tickets run 1 to 999,999 for each disk"
    if claim.ticket > LAST_TICKET {
        return Err(Refusal::NoTicket);
    }
    let item = match decide(disk, &claim, &disk.waiting, now) {
        Some(passed) => grant(disk, claim, &passed),
        // "Otherwise the claim waits, and no amount changes."
        None if disk.waiting.len() >= MOST_CLAIMS => return Err(Refusal::EightWait),
        None => {
            let item = Item::ticket_only(WAITS, claim.ticket);
            queue(disk, claim);
            item
        }
    };
    disk.next_ticket += 1;
    // "Accepted calls set the clock to now."
    disk.clock = now;
    Ok(vec![item])
}

/// "higher priority first, then lower ticket": a new claim has the highest ticket, so it stands
/// behind all of equal or higher priority.
fn queue(disk: &mut Disk, claim: Claim) {
    let place = disk
        .waiting
        .iter()
        .position(|waiting| waiting.priority < claim.priority)
        .unwrap_or(disk.waiting.len());
    disk.waiting.insert(place, claim);
}

/// A release on an open, sound disk.
pub fn release(disk: &mut Disk, now: i64, ticket: i64) -> Result<Vec<Item>, Refusal> {
    if now < disk.clock {
        return Err(Refusal::BelowClock);
    }
    let named = |claim: &Claim| claim.ticket == ticket;
    if let Some(place) = disk.active.iter().position(named) {
        let claim = disk.active.remove(place);
        match claim.method.action() {
            // "An active set stores its value, its stamp becomes the second of measuring."
            Action::Set(attribute) => {
                disk.attributes[attribute].value = claim.value;
                disk.attributes[attribute].stamp = claim.measured;
            }
            // "An active add adds; the stamp stays."
            Action::Add(attribute) => disk.attributes[attribute].value += claim.value,
            // "A reading or a waiting claim is removed."
            Action::Read => {}
        }
    } else if let Some(place) = disk.waiting.iter().position(named) {
        disk.waiting.remove(place);
    } else {
        return Err(Refusal::NoSuchTicket);
    }
    let mut items = Vec::with_capacity(1 + disk.waiting.len());
    items.push(Item::ticket_only(RELEASED, ticket));
    pass(disk, now, &mut items);
    disk.clock = now;
    Ok(items)
}

/// "Then one pass over the waiting claims, higher priority first, then lower ticket: each is tried
/// by the same rules on the state so far, barred only by those ahead that still wait."
fn pass(disk: &mut Disk, now: i64, items: &mut Vec<Item>) {
    let mut tried = 0;
    while tried < disk.waiting.len() {
        // Those before this place were tried and still wait.
        let (ahead, rest) = disk.waiting.split_at(tried);
        match decide(disk, &rest[0], ahead, now) {
            Some(passed) => {
                let claim = disk.waiting.remove(tried);
                items.push(grant(disk, claim, &passed));
            }
            None => tried += 1,
        }
    }
}
