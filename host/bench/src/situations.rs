//! Single calls, to see where the time of a call goes: each adds something to one above it.

use crate::making::{disk, Call, Making, Workload};
use stopblocker::layout::{figure, part, part_at, put_word, slot, CLAIMS, MOST_TICKET, SLOT_BYTES};
use stopblocker::{Claim, Release, Request};

/// One call on a board with disk 0 as these claims leave it.
fn situation(name: &'static str, before: &[Claim], request: impl Into<Request>, code: u32) -> Workload {
    one_call(name, after(before), request.into(), code)
}

/// A claim on a part that isn't sound: after these claims one word of it was changed from outside.
fn unsound(name: &'static str, before: &[Claim], at: usize, word: u32) -> Workload {
    let mut making = after(before);
    put_word(&mut making.board, part_at(0) + at, word);
    one_call(name, making, Claim::read_load(disk(0), NOW, 3_000).into(), 14)
}

fn after(claims: &[Claim]) -> Making {
    let mut making = Making::new(1, 0);
    for claim in claims {
        making.call((*claim).into());
    }
    making
}

fn one_call(name: &'static str, mut making: Making, request: Request, code: u32) -> Workload {
    let board = making.begin();
    assert_eq!(making.call(request), code, "{name}");
    Workload { name, board, calls: vec![Call::of(request.record())], in_rows: true }
}

/// A SetState if asked for, then so many ReadLoads, then so many ReadStates, which wait for the SetState.
fn before(set: bool, readings: usize, waiting: usize) -> Vec<Claim> {
    let mut claims = Vec::new();
    if set {
        claims.push(Claim::set_state(disk(0), NOW, 2));
    }
    claims.extend(vec![Claim::read_load(disk(0), NOW, 3_000); readings]);
    claims.extend(vec![Claim::read_state(disk(0), NOW); waiting]);
    claims
}

const NOW: u32 = 1_000;

/// The first ticket of a situation's claims: tickets 1 to 3 were released before.
const FIRST: u32 = 4;

/// The last slot of a part.
const LAST: usize = part::WAITING + SLOT_BYTES * (CLAIMS - 1);

pub fn all() -> Vec<Workload> {
    let d = disk(0);
    let load = Claim::read_load(d, NOW, 3_000);
    let report = Claim::report_used(d, NOW, 40_100, 10);
    let early = Claim::read_load(d, NOW - 1, 3_000);
    let unknown = Release::new(d, NOW, MOST_TICKET);
    let first = Release::new(d, NOW, FIRST);
    let second = Release::new(d, NOW, FIRST + 1);
    vec![
        situation("refused 13: frame alone", &[], Claim::read_used(disk(1), NOW, 0), 13),
        unsound("refused 14, none active: an amount over its limit", &[], part::USED + figure::AMOUNT, 1_001),
        unsound("refused 14, 8 active, 8 waiting: the last has an amount", &before(true, 7, 8), LAST + slot::AMOUNT, 1),
        Workload { in_rows: false, ..unsound("refused 14, none active: a count of 9", &[], part::ACTIVE_COUNT, 9) },
        situation("refused 15, none active: and soundness", &before(false, 0, 0), early, 15),
        situation("refused 15, 4 active", &before(false, 4, 0), early, 15),
        situation("refused 15, 8 active", &before(false, 8, 0), early, 15),
        situation("refused 15, 8 active, 4 waiting", &before(true, 7, 4), early, 15),
        situation("refused 15, 8 active, 8 waiting", &before(true, 7, 8), early, 15),
        situation("ReadLoad granted, none active", &before(false, 0, 0), load, 0),
        situation("ReadLoad granted, 4 active", &before(false, 4, 0), load, 0),
        situation("ReportUsed granted, none active", &before(false, 0, 0), report, 0),
        situation("ReportUsed granted, 4 active, raised", &before(false, 4, 0), report, 0),
        situation("ReadLoad waits, 8 active", &before(false, 8, 0), load, 1),
        situation("ReadLoad waits, 8 active, 4 waiting", &before(true, 7, 4), load, 1),
        situation("ReadLoad refused 20, 8 active, 8 waiting", &before(true, 7, 8), load, 20),
        situation("release refused 21, 4 active", &before(false, 4, 0), unknown, 21),
        situation("reading released, 4 active", &before(false, 4, 0), first, 2),
        situation("reading released, 8 active, 4 tried, none granted", &before(true, 7, 4), second, 2),
        situation("set released, 8 active, 4 tried, one granted", &before(true, 7, 4), first, 2),
        situation("set released, 4 active, 4 tried, all granted", &before(true, 3, 4), first, 2),
    ]
}
