//! The workloads. They are made by random choices that are the same in every run; the desk has given out the tickets that
//! are released.

use crate::making::{disk, Call, Making, Workload};
use stopblocker::layout::{
    figure, part, part_at, put_word, record, ANSWER_BYTES, CLAIMS, MOST_ERROR, MOST_TICKET, MOST_VALUE, RECORD_BYTES,
};
use stopblocker::{step, Claim, Open, Release, Request};

const CALLS: usize = 6_000;
const OPEN_DISKS: u8 = 40;
const BUSY_DISKS: u8 = 8;

/// All four.
pub fn all() -> Vec<Workload> {
    vec![readers(), busy(), refused(), mix()]
}

/// Planners all night: readings on 40 disks, at most three at once on each, granted and released.
fn readers() -> Workload {
    let mut making = Making::new(OPEN_DISKS, 1);
    let board = making.begin();
    while making.calls.len() < CALLS {
        let d = making.chance.below(OPEN_DISKS.into()) as u8;
        making.now += u32::from(making.chance.below(64) == 0);
        let held = making.held[usize::from(d)].len() as u64;
        if making.chance.below(4) < held {
            making.release_any(d);
        } else {
            let (of, now) = (disk(d), making.now);
            let claim = match making.chance.below(8) {
                0..=4 => Claim::read_load(of, now, 1_000),
                5..=6 => Claim::read_used(of, now, 1_000),
                _ => Claim::read_used(of, now, 1_000).fresh(),
            };
            assert_eq!(making.call(claim.priority(5).into()), 0, "a planner's reading is granted");
        }
    }
    Workload { name: "readers", board, calls: making.calls, in_rows: true }
}

/// Eight disks with seven or eight active claims and some that wait: a release, whose pass tries the waiting ones, then
/// claims until the disk is as full as before.
fn busy() -> Workload {
    let mut making = Making::new(BUSY_DISKS, 2);
    for d in 0..BUSY_DISKS {
        fill(&mut making, d);
    }
    let board = making.begin();
    while making.calls.len() < CALLS {
        let d = making.chance.below(BUSY_DISKS.into()) as u8;
        making.now += u32::from(making.chance.below(8) == 0);
        making.release_any(d);
        fill(&mut making, d);
    }
    Workload { name: "busy", board, calls: making.calls, in_rows: true }
}

fn fill(making: &mut Making, d: u8) {
    let all = CLAIMS as u32;
    while making.count(d, part::ACTIVE_COUNT) < all || making.count(d, part::WAITING_COUNT) < 3 {
        if making.count(d, part::WAITING_COUNT) == all {
            break;
        }
        let claim = making.any_claim(d);
        making.call(claim.into());
    }
}

/// The refusals 9 to 21, one after the other; for each call only one refusal applies.
fn refused() -> Workload {
    let mut making = Making::new(OPEN_DISKS, 3);
    let (idle, full, spent, broken, closed) = (disk(0), disk(1), disk(2), disk(3), disk(60));
    // disk 1: a SetState is active, eight ReadStates wait
    let now = making.now;
    making.call(Claim::set_state(full, now, 2).into());
    for _ in 0..8 {
        making.call(Claim::read_state(full, now).into());
    }
    put_word(&mut making.board, part_at(2) + part::NEXT_TICKET, MOST_TICKET + 1);
    put_word(&mut making.board, part_at(3) + part::USED + figure::AMOUNT, 1_001);
    let board = making.begin();
    let reading = Claim::read_used(idle, now, 100);
    let with = |request: Request, at: usize, byte: u8| {
        let mut bytes = request.record();
        bytes[at] = byte;
        Call::of(bytes)
    };
    let turn = [
        (9, Call { answer_bytes: ANSWER_BYTES - 1, ..Call::of(reading.record()) }),
        (10, with(reading.into(), record::ZERO, 1)),
        (10, Call { record_bytes: RECORD_BYTES - 1, ..Call::of(reading.record()) }),
        (11, with(reading.into(), record::DISK, 64)),
        (12, Call::of(Open::new(idle, now, 0, 0).record())),
        (13, Call::of(Claim::read_used(closed, now, 100).record())),
        (14, Call::of(Claim::read_used(broken, now, 100).record())),
        (15, Call::of(Claim::read_used(idle, now - 1, 100).record())),
        (16, with(reading.into(), record::METHOD, 7)),
        (17, Call::of(Claim::report_used(idle, now, MOST_VALUE as i32 + 1, 0).record())),
        (18, Call::of(Claim::report_used(idle, now, 0, 1_001).record())),
        (19, Call::of(Claim::read_used(spent, now, 100).record())),
        (20, Call::of(Claim::read_state(full, now).record())),
        (21, Call::of(Release::new(full, now, MOST_TICKET).record())),
    ];
    for (number, call) in &turn {
        let answer = &mut making.answer[..call.answer_bytes];
        assert_eq!(step(&mut making.board, &call.record[..call.record_bytes], answer), *number);
    }
    let calls = turn.iter().cycle().take(CALLS / turn.len() * turn.len()).map(|(_, call)| *call).collect();
    Workload { name: "refused", board, calls, in_rows: true }
}

/// A day: claims of all methods on 40 disks, up to five held at once on each, one call in twelve refused.
fn mix() -> Workload {
    let mut making = Making::new(OPEN_DISKS, 4);
    let board = making.begin();
    while making.calls.len() < CALLS {
        let d = making.chance.below(OPEN_DISKS.into()) as u8;
        making.now += u32::from(making.chance.below(16) == 0);
        if making.chance.below(12) == 0 {
            let request = match making.chance.below(4) {
                0 => Release::new(disk(d), making.now, MOST_TICKET).into(),
                1 => Claim::read_load(disk(d), 0, 1_000).into(),
                2 => Claim::report_used(disk(d), making.now, 0, 5_000).into(),
                _ => Claim::read_used(disk(d + 20), making.now, MOST_ERROR + 1).into(),
            };
            assert!(making.call(request) > 3, "refused");
        } else if making.chance.below(6) < making.held[usize::from(d)].len() as u64 {
            making.release_any(d);
        } else {
            let claim = making.any_claim(d);
            making.call(claim.into());
        }
    }
    Workload { name: "mix", board, calls: making.calls, in_rows: true }
}
