//! Whether a part is sound, clause by clause in the paper's order.

use crate::disk::{
    amount_in_range, value_in_range, Claim, Disk, LAST_TICKET, MOST_TOLD, MOST_VALUE,
};
use crate::layout::{decode, Figures, Slot};
use crate::rules::{error_over_limit, out_of_range};
use crate::table::{entry, Entry, Method, PROMISED};

pub const DECODES: &str = "the part decodes";
pub const RANGES: &str = "ranges hold";
pub const AMOUNTS: &str = "amounts ≤ limits";
pub const SECONDS: &str = "stamps and measuring seconds ≤ clock";
pub const NEXT: &str = "next ticket 1 to 1,000,000";
pub const TICKETS: &str = "tickets distinct, at least 1 and below next";
pub const CLAIMS: &str = "every claim passes 16 to 18";
pub const TOLD: &str =
    "an active reading's told lies within ±2,000,000,000 and its amount ≤ its limit";
pub const ADDS: &str = "|promised| + the sum of |d| of active adds ≤ 1,000,000,000";
pub const NEVER: &str = "no two active claims have entry N";
pub const ORDER: &str = "waiting claims stand in the pass's order";

/// Whether 768 bytes are a sound part, and the clause of 01 that fails first if not.
pub fn sound(part: &[u8]) -> Result<Disk, &'static str> {
    let holds = |clause: &'static str, it: bool| if it { Ok(()) } else { Err(clause) };
    // "at most 8 active and 8 waiting" is in here: a count above 8 does not decode.
    let figures = decode(part).ok_or(DECODES)?;
    holds(RANGES, ranges(&figures))?;
    holds(AMOUNTS, amounts(&figures))?;
    holds(SECONDS, seconds(&figures))?;
    holds(NEXT, (1..=LAST_TICKET + 1).contains(&figures.next_ticket))?;
    holds(TICKETS, tickets(&figures))?;
    let disk = Disk {
        clock: figures.clock,
        next_ticket: figures.next_ticket,
        active: claims(&figures.active).ok_or(CLAIMS)?,
        waiting: claims(&figures.waiting).ok_or(CLAIMS)?,
        attributes: figures.attributes,
    };
    holds(CLAIMS, claims_pass(&disk))?;
    holds(TOLD, told(&disk))?;
    holds(ADDS, adds(&disk))?;
    holds(NEVER, never(&disk))?;
    holds(ORDER, order(&disk))?;
    Ok(disk)
}

fn all_slots(figures: &Figures) -> impl Iterator<Item = &Slot> {
    figures.active.iter().chain(&figures.waiting)
}

/// "ranges hold": values, amounts and limits of the attributes, flag and priority of the claims.
/// (Values, own errors and stated limits of claims stand under 17.)
fn ranges(figures: &Figures) -> bool {
    figures.attributes.iter().enumerate().all(|(number, a)| {
        value_in_range(number, a.value) && amount_in_range(a.amount) && amount_in_range(a.limit)
    }) && all_slots(figures).all(|s| (0..=255).contains(&s.priority) && (0..=1).contains(&s.flag))
}

/// "amounts ≤ limits"
fn amounts(figures: &Figures) -> bool {
    figures.attributes.iter().all(|a| a.amount <= a.limit)
}

/// "stamps and measuring seconds ≤ clock"
fn seconds(figures: &Figures) -> bool {
    figures.attributes.iter().all(|a| a.stamp <= figures.clock)
        && all_slots(figures).all(|s| s.measured <= figures.clock)
}

/// "tickets distinct, at least 1 and below next"
fn tickets(figures: &Figures) -> bool {
    all_slots(figures).enumerate().all(|(k, s)| {
        (1..figures.next_ticket).contains(&s.ticket)
            && all_slots(figures).skip(k + 1).all(|t| t.ticket != s.ticket)
    })
}

/// 16: "method above 6" is no claim.
fn claims(slots: &[Slot]) -> Option<Vec<Claim>> {
    slots
        .iter()
        .map(|s| {
            Some(Claim {
                ticket: s.ticket,
                method: Method::of_number(s.method)?,
                priority: s.priority,
                fresh: s.flag == 1,
                measured: s.measured,
                value: s.value,
                error_or_limit: s.error_or_limit,
                told: s.told,
                amount: s.amount,
            })
        })
        .collect()
}

/// "every claim passes 16 to 18", with the clock in the place of now.
fn claims_pass(disk: &Disk) -> bool {
    disk.active
        .iter()
        .chain(&disk.waiting)
        .all(|c| !out_of_range(c, disk.clock) && !error_over_limit(c, &disk.attributes))
}

/// "an active reading's told lies within ±2,000,000,000 and its amount ≤ its limit"
fn told(disk: &Disk) -> bool {
    disk.active
        .iter()
        .filter(|c| c.is_reading())
        .all(|c| (-MOST_TOLD..=MOST_TOLD).contains(&c.told) && c.amount <= c.stated_limit())
}

/// "|promised| + the sum of |d| of active adds ≤ 1,000,000,000"
fn adds(disk: &Disk) -> bool {
    disk.attributes[PROMISED].value.abs() + disk.sum_of_active_adds() <= MOST_VALUE
}

/// "no two active claims have entry N"
fn never(disk: &Disk) -> bool {
    disk.active.iter().enumerate().all(|(k, one)| {
        disk.active[k + 1..]
            .iter()
            .all(|other| entry(one.method, other.method) != Entry::N)
    })
}

/// "higher priority first, then lower ticket"
fn order(disk: &Disk) -> bool {
    disk.waiting.windows(2).all(|pair| {
        pair[0].priority > pair[1].priority
            || (pair[0].priority == pair[1].priority && pair[0].ticket < pair[1].ticket)
    })
}
