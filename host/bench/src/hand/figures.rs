//! The rules of one claim on the figures of a disk.

use super::layout::{Part, Slot, Word};
use super::sound::MOST_VALUE;

pub const REPORT_USED: u32 = 0;
pub const ADD_PROMISED: u32 = 1;
pub const SET_PROMISED: u32 = 2;
pub const READ_USED: u32 = 4;
const READ_LOAD: u32 = 5;
const READ_STATE: u32 = 6;

/// A write's attribute: amount and limit.
#[inline(always)]
pub fn written(part: &Part, method: u32) -> (u32, u32) {
    match method {
        REPORT_USED => (part.used.amount.get(), part.used.limit.get()),
        ADD_PROMISED | SET_PROMISED => (part.promised.amount.get(), part.promised.limit.get()),
        _ => (0, 0),
    }
}

/// The own error that a write of the method may have: its attribute's limit.
#[inline(always)]
pub fn limit(part: &Part, method: u32) -> u32 {
    written(part, method).1
}

/// The sum of the amounts that a reading reads.
#[inline(always)]
pub fn carried(part: &Part, method: u32) -> u64 {
    let used = if method == READ_STATE { 0 } else { part.used.amount.get() };
    let promised = if method == READ_LOAD { part.promised.amount.get() } else { 0 };
    used as u64 + promised as u64
}

/// The sum of the values that a reading reads.
#[inline(always)]
pub fn told(part: &Part, method: u32) -> i32 {
    match method {
        READ_USED => part.used.value.signed(),
        READ_LOAD => part.used.value.signed().wrapping_add(part.promised.value.signed()),
        _ => part.state.signed(),
    }
}

/// Whether the figures that a reading reads are fresh.
#[inline(always)]
pub fn fresh(part: &Part, method: u32, now: u32) -> bool {
    let after = |stamp: Word, valid: u64| stamp.get() as u64 + valid > now as u64;
    match method {
        READ_USED => after(part.used.stamp, 300),
        READ_LOAD => after(part.used.stamp, 300) && after(part.promised.stamp, 300),
        _ => after(part.state_stamp, 3_600),
    }
}

/// Preconditions (a) to (d).
#[inline(always)]
pub fn preconditions(part: &Part, claim: &Slot, now: u32, adds: u64) -> bool {
    let method = claim.method.get();
    let error = claim.error.get() as u64;
    if method >= READ_USED {
        return carried(part, method) <= error && (claim.fresh.get() == 0 || fresh(part, method, now));
    }
    method != ADD_PROMISED
        || part.promised.amount.get() as u64 + error <= part.promised.limit.get() as u64
            && part.promised.value.signed().unsigned_abs() as u64 + adds + claim.value.signed().unsigned_abs() as u64
                <= MOST_VALUE as u64
}

/// The gap of a write.
#[inline(always)]
pub fn gap(part: &Part, write: &Slot) -> u64 {
    let value = write.value.signed();
    let from = match write.method.get() {
        REPORT_USED => part.used.value.signed(),
        ADD_PROMISED => 0,
        SET_PROMISED => part.promised.value.signed(),
        _ => part.state.signed(),
    };
    value.abs_diff(from) as u64
}
