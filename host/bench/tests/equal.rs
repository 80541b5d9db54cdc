//! The engines answer alike: what the bench runs before it times anything.

use bench::equal::{on_store, on_workload, Both};
use bench::making::Workload;
use bench::random::on_random_calls;
use bench::store::Store;
use bench::{situations, workload};
use stopblocker::layout::BOARD_BYTES;

fn all() -> Vec<Workload> {
    workload::all().into_iter().chain(situations::all()).collect()
}

#[test]
fn on_every_workload() {
    for workload in all() {
        on_workload(&workload).unwrap();
    }
}

#[test]
fn on_random_calls_with_every_code() {
    let codes = on_random_calls(100_000, 1).unwrap();
    for (code, count) in codes.iter().enumerate().filter(|(code, _)| !(4..9).contains(code)) {
        assert!(*count > 20, "code {code} came {count} times");
    }
}

#[test]
fn the_store_on_every_workload() {
    // where SQLite is not installed there is no store to compare
    if let Some(mut store) = Store::new() {
        for workload in all().iter().filter(|workload| workload.in_rows) {
            on_store(workload, &mut store).unwrap();
        }
    }
}

#[test]
fn all_but_one_go_through_the_store() {
    let left_out: Vec<&str> = all().iter().filter(|workload| !workload.in_rows).map(|workload| workload.name).collect();
    assert_eq!(left_out, ["refused 14, none active: a count of 9"]);
}

#[test]
fn a_byte_that_differs_is_seen() {
    let workload = &workload::all()[0];
    for byte in [100, BOARD_BYTES - 1] {
        let mut both = Both::new(&workload.board);
        both.boards[1][byte] ^= 1;
        assert!(both.call(&workload.calls[0], BOARD_BYTES).is_err());
    }
}

#[test]
fn the_workloads_are_what_they_are_called() {
    for workload in workload::all() {
        let codes = on_workload(&workload).unwrap();
        let (accepted, refused): (u64, u64) = (codes[..4].iter().sum(), codes[9..].iter().sum());
        match workload.name {
            "readers" => assert!(codes[0] + codes[2] == accepted && refused == 0),
            "busy" => assert!(codes[1] > accepted / 4 && codes[2] > accepted / 4 && refused == 0),
            "refused" => assert!(accepted == 0 && codes[9..].iter().all(|count| *count > 0)),
            _ => assert!(codes[..3].iter().all(|count| *count > 200) && refused > 200),
        }
    }
}
