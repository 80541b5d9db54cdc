//! Soundness, clause by clause, on parts damaged by hand.

use super::*;
use crate::sound::*;
use crate::{Attribute, Claim, Method};

fn claim(ticket: i64, method: Method) -> Claim {
    Claim {
        ticket,
        method,
        priority: 5,
        fresh: false,
        measured: 0,
        value: 0,
        error_or_limit: 0,
        told: 0,
        amount: 0,
    }
}

/// Two active readings and an active report, a waiting set and a waiting add; clock 40.
fn rich() -> Disk {
    let attribute = |value, stamp, amount, limit| Attribute {
        value,
        stamp,
        amount,
        limit,
    };
    let active = vec![
        Claim {
            error_or_limit: 100,
            told: -7,
            amount: 90,
            ..claim(2, Method::ReadLoad)
        },
        Claim {
            value: 9,
            error_or_limit: 4,
            measured: 33,
            ..claim(5, Method::ReportUsed)
        },
        Claim {
            fresh: true,
            told: 300,
            ..claim(3, Method::ReadState)
        },
        Claim {
            value: -600,
            error_or_limit: 1,
            measured: 40,
            ..claim(8, Method::AddPromised)
        },
    ];
    let waiting = vec![
        Claim {
            value: 11,
            priority: 255,
            measured: 40,
            ..claim(7, Method::SetPromised)
        },
        Claim {
            value: 250,
            priority: 6,
            ..claim(1, Method::SetState)
        },
        Claim {
            error_or_limit: 1,
            priority: 6,
            ..claim(4, Method::ReadUsed)
        },
    ];
    Disk {
        clock: 40,
        next_ticket: 9,
        attributes: [
            attribute(-500, 40, 50, 50),
            attribute(999_999_400, 0, 7, 2_000_000_000),
            attribute(255, 39, 0, 0),
        ],
        active,
        waiting,
    }
}

fn word(at: usize, figure: i64) -> Vec<u8> {
    let mut part = encode(&rich()).to_vec();
    part[at..at + 4].copy_from_slice(&(figure as u32).to_le_bytes());
    part
}

/// The clause that fails, or "sound".
fn clause(part: &[u8]) -> &'static str {
    sound(part).err().unwrap_or("sound")
}

fn after(change: impl FnOnce(&mut Disk)) -> &'static str {
    let mut disk = rich();
    change(&mut disk);
    clause(&encode(&disk))
}

#[test]
fn a_rich_part_is_sound() {
    assert_eq!(sound(&encode(&rich())), Ok(rich()));
    assert_eq!(clause(&[0; 768]), NEXT);
    assert_eq!(clause(&[255; 768]), DECODES);
    assert_eq!(clause(&[0; 767]), DECODES);
}

#[test]
fn the_part_decodes() {
    // Counts above 8, padding, slots past their count.
    for at in [8, 12] {
        assert_eq!(clause(&word(at, 9)), DECODES);
        assert_eq!(clause(&word(at, -1)), DECODES);
    }
    let empty = encode(&Disk::opened(40, 50, 60));
    for at in (56..64)
        .chain(64 + 36..64 + 44)
        .chain(416 + 44 + 36..416 + 88)
    {
        let mut part = encode(&rich());
        part[at] = 1;
        assert_eq!(clause(&part), DECODES, "byte {at}");
    }
    for at in 64..768 {
        let mut part = empty;
        part[at] = 128;
        assert_eq!(clause(&part), DECODES, "byte {at}");
    }
    // A count one too low leaves a claim past it; told and amount of writes and waiting claims.
    assert_eq!(clause(&word(8, 3)), DECODES);
    for slot in [64 + 44, 64 + 3 * 44, 416, 416 + 2 * 44] {
        assert_eq!(clause(&word(slot + 28, 1)), DECODES);
        assert_eq!(clause(&word(slot + 32, 1)), DECODES);
    }
}

#[test]
fn ranges_hold() {
    for attribute in [0, 1] {
        for value in [1_000_000_001, -1_000_000_001, i64::from(i32::MIN)] {
            assert_eq!(after(|d| d.attributes[attribute].value = value), RANGES);
        }
        let most = 2_000_000_000;
        assert_eq!(after(|d| d.attributes[attribute].limit = most + 1), RANGES);
        assert_eq!(after(|d| d.attributes[attribute].amount = most + 1), RANGES);
        assert_eq!(after(|d| d.attributes[attribute].limit = most), "sound");
    }
    for value in [-1, 256] {
        assert_eq!(after(|d| d.attributes[2].value = value), RANGES);
    }
    assert_eq!(after(|d| d.attributes[0].value = -1_000_000_000), "sound");
    assert_eq!(after(|d| d.attributes[0].value = 1_000_000_000), "sound");
    assert_eq!(after(|d| d.active[0].priority = 256), RANGES);
    assert_eq!(after(|d| d.active[0].priority = 255), "sound");
    assert_eq!(after(|d| d.waiting[0].priority = 256), RANGES);
    assert_eq!(clause(&word(64 + 12, 2)), RANGES);
    assert_eq!(clause(&word(64 + 12, 1)), "sound");
}

#[test]
fn amounts_and_seconds() {
    assert_eq!(after(|d| d.attributes[0].amount = 51), AMOUNTS);
    assert_eq!(after(|d| d.attributes[1].limit = 7), "sound");
    assert_eq!(after(|d| d.attributes[1].limit = 6), AMOUNTS);
    for attribute in 0..3 {
        assert_eq!(after(|d| d.attributes[attribute].stamp = 40), "sound");
        assert_eq!(after(|d| d.attributes[attribute].stamp = 41), SECONDS);
    }
    assert_eq!(after(|d| d.active[1].measured = 41), SECONDS);
    assert_eq!(after(|d| d.waiting[0].measured = 41), SECONDS);
    assert_eq!(after(|d| d.active[1].measured = 40), "sound");
    assert_eq!(after(|d| d.clock = 4_294_967_295), "sound");
    assert_eq!(after(|d| d.clock = 39), SECONDS);
}

#[test]
fn tickets() {
    assert_eq!(after(|d| d.next_ticket = 0), NEXT);
    assert_eq!(after(|d| d.next_ticket = 1_000_001), NEXT);
    assert_eq!(after(|d| d.next_ticket = 1_000_000), "sound");
    assert_eq!(after(|d| d.next_ticket = 8), TICKETS);
    assert_eq!(after(|d| d.active[0].ticket = 0), TICKETS);
    assert_eq!(after(|d| d.waiting[1].ticket = 0), TICKETS);
    assert_eq!(after(|d| d.active[0].ticket = 9), TICKETS);
    assert_eq!(after(|d| d.active[0].ticket = 5), TICKETS);
    assert_eq!(after(|d| d.active[0].ticket = 7), TICKETS);
    assert_eq!(after(|d| d.waiting[2].ticket = 7), TICKETS);
}

#[test]
fn every_claim_passes_16_to_18() {
    // 16, in either list; told and amount are zero there.
    for slot in [64 + 44, 416] {
        assert_eq!(clause(&word(slot + 4, 7)), CLAIMS);
        assert_eq!(clause(&word(slot + 4, -1)), CLAIMS);
    }
    // 17: values
    assert_eq!(after(|d| d.active[1].value = 1_000_000_000), "sound");
    assert_eq!(after(|d| d.active[1].value = 1_000_000_001), CLAIMS);
    assert_eq!(after(|d| d.active[3].value = i64::from(i32::MIN)), CLAIMS);
    assert_eq!(after(|d| d.waiting[1].value = 256), CLAIMS);
    assert_eq!(after(|d| d.waiting[1].value = -1), CLAIMS);
    // 17: a reading with value or second of measuring, a write with the flag
    assert_eq!(after(|d| d.active[2].value = 1), CLAIMS);
    assert_eq!(after(|d| d.active[2].measured = 1), CLAIMS);
    assert_eq!(after(|d| d.waiting[2].value = 1), CLAIMS);
    assert_eq!(after(|d| d.active[1].fresh = true), CLAIMS);
    assert_eq!(after(|d| d.waiting[0].fresh = true), CLAIMS);
    // 17: errors and limits
    let most = 2_000_000_000;
    assert_eq!(after(|d| d.active[3].error_or_limit = most), "sound");
    assert_eq!(after(|d| d.active[3].error_or_limit = most + 1), CLAIMS);
    assert_eq!(after(|d| d.waiting[2].error_or_limit = most), "sound");
    assert_eq!(after(|d| d.waiting[2].error_or_limit = most + 1), CLAIMS);
    // 18
    assert_eq!(after(|d| d.active[1].error_or_limit = 50), "sound");
    assert_eq!(after(|d| d.active[1].error_or_limit = 51), CLAIMS);
    assert_eq!(after(|d| d.waiting[1].error_or_limit = 1), CLAIMS);
}

#[test]
fn told_and_amount_of_active_readings() {
    for told in [2_000_000_000, -2_000_000_000] {
        assert_eq!(after(|d| d.active[2].told = told), "sound");
        assert_eq!(after(|d| d.active[2].told = told + told.signum()), TOLD);
    }
    assert_eq!(after(|d| d.active[0].amount = 100), "sound");
    assert_eq!(after(|d| d.active[0].amount = 101), TOLD);
    assert_eq!(after(|d| d.active[2].amount = 1), TOLD);
    // An amount below the carried error is no clause.
    assert_eq!(after(|d| d.active[0].amount = 0), "sound");
}

#[test]
fn the_range_of_promised_with_active_adds() {
    assert_eq!(after(|d| d.attributes[1].value = 999_999_401), ADDS);
    assert_eq!(after(|d| d.attributes[1].value = -999_999_400), "sound");
    assert_eq!(after(|d| d.attributes[1].value = -999_999_401), ADDS);
    assert_eq!(after(|d| d.active[3].value = 601), ADDS);
    assert_eq!(after(|d| d.active[3].value = 600), "sound");
    // Waiting adds don't count.
    let waits = |d: &mut Disk| {
        let add = d.active.pop().unwrap();
        d.attributes[1].value = 1_000_000_000;
        d.waiting.push(Claim { priority: 0, ..add });
    };
    assert_eq!(after(waits), "sound");
}

#[test]
fn no_two_active_with_entry_n() {
    let with = |method| after(move |d| d.active.insert(1, claim(6, method)));
    assert_eq!(with(Method::SetPromised), NEVER);
    assert_eq!(with(Method::SetState), NEVER);
    assert_eq!(with(Method::ReportUsed), "sound");
    assert_eq!(with(Method::AddPromised), "sound");
    assert_eq!(with(Method::ReadState), "sound");
    let two_states = |d: &mut Disk| {
        d.active = vec![claim(6, Method::SetState), claim(5, Method::SetState)];
    };
    assert_eq!(after(two_states), NEVER);
    // Sets farther apart than the limit are sound.
    let far = |d: &mut Disk| {
        let set = Claim {
            value: 900_000_000,
            ..claim(6, Method::ReportUsed)
        };
        d.active.push(set);
    };
    assert_eq!(after(far), "sound");
}

#[test]
fn the_order_of_the_waiting() {
    assert_eq!(after(|d| d.waiting.swap(0, 1)), ORDER);
    assert_eq!(after(|d| d.waiting.swap(1, 2)), ORDER);
    assert_eq!(after(|d| d.waiting[1].priority = 5), ORDER);
    assert_eq!(after(|d| d.waiting[2].priority = 7), ORDER);
    // Active claims stand in any order, and an idle disk may hold a waiting claim.
    assert_eq!(after(|d| d.active.reverse()), "sound");
    assert_eq!(after(|d| d.active.clear()), "sound");
}
