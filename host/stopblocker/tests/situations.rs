//! 01's printed run and its situations K1 to K13, through the typed crate and through the low-level call.
//!
//! Own errors 0, priorities equal, used and promised limit 1,000 unless said.

mod common;
use common::*;

both!(
    printed_run,
    k1,
    k2,
    k3,
    k4,
    k5,
    k6,
    k7,
    k8,
    k9,
    k10,
    k11,
    k12,
    k13,
    each_set_counts,
    readers_taken_back,
    no_signed_sum,
    gap_from_present_value,
    stale_reading_bars_nobody,
    adds_count_in_full,
);

#[test]
fn k13_closed_disk_and_method_9() {
    let mut desk = Low::of(vec![0; BOARD]);
    assert_eq!(desk.claim(read(9, 0)), refused(13));
}

fn printed_run<D: Desk>() {
    let mut desk = D::of(vec![0; BOARD]);
    let said = [
        desk.open(100, 1_000, 500),
        desk.claim(write(REPORT_USED, 40_000, 20).at(100)),
        desk.claim(read(READ_USED, 50_000).at(101)),
        desk.claim(write(REPORT_USED, 40_600, 0).at(102)),
        desk.release(103, 2),
        desk.release(104, 9),
        desk.claim(read(READ_USED, 0).at(99)),
    ];
    let mut printed = String::new();
    for (record, items) in said.iter().enumerate() {
        for (k, (code, ticket, told, amount)) in items.iter().enumerate() {
            let plus = if k == 0 { "" } else { "+" };
            printed += &format!("{plus}{} {DISK} {code} {ticket} {told} {amount}\n", record + 1);
        }
    }
    let expected = "\
1 3 3 0 0 0
2 3 0 1 0 20
3 3 0 2 0 40020
4 3 1 3 0 0
5 3 2 2 0 0
+5 3 0 3 0 600
6 3 21 0 0 0
7 3 15 0 0 0
";
    assert_eq!(printed, expected);
}

/// Used limit 10, ReportUsed 100 active.
fn report_100_active<D: Desk>() -> D {
    let mut desk = D::opened(10, 1_000);
    assert_eq!(desk.claim(write(REPORT_USED, 100, 0)), granted(1, 0, 0));
    desk
}

fn k1<D: Desk>() {
    let mut desk: D = report_100_active();
    assert_eq!(desk.claim(write(REPORT_USED, 106, 3)), granted(2, 0, 9));
}

fn k2<D: Desk>() {
    let mut desk: D = report_100_active();
    assert_eq!(desk.claim(write(REPORT_USED, 107, 3)), granted(2, 0, 10));
}

fn k3<D: Desk>() {
    let mut desk: D = report_100_active();
    assert_eq!(desk.claim(write(REPORT_USED, 108, 3)), waits(2));
}

fn k4<D: Desk>() {
    assert_eq!(D::opened(10, 1_000).claim(write(REPORT_USED, 0, 10)), granted(1, 0, 10));
    assert_eq!(D::opened(10, 1_000).claim(write(REPORT_USED, 0, 11)), refused(18));
}

/// AddPromised 300 active.
fn add_300_active<D: Desk>() -> D {
    let mut desk = D::opened(1_000, 1_000);
    assert_eq!(desk.claim(write(ADD_PROMISED, 300, 0)), granted(1, 0, 0));
    desk
}

fn k5<D: Desk>() {
    let mut desk: D = add_300_active();
    assert_eq!(desk.claim(write(ADD_PROMISED, -300, 0)), granted(2, 0, 0));
}

fn k6<D: Desk>() {
    let mut desk: D = add_300_active();
    assert_eq!(desk.claim(write(SET_PROMISED, 0, 0)), waits(2));
}

/// ReadLoad active, limit 500, amount 0.
fn load_500_active<D: Desk>() -> D {
    let mut desk = D::opened(1_000, 1_000);
    assert_eq!(desk.claim(read(READ_LOAD, 500)), granted(1, 0, 0));
    desk
}

fn k7<D: Desk>() {
    let mut desk: D = load_500_active();
    assert_eq!(desk.claim(write(ADD_PROMISED, 500, 0)), granted(2, 0, 0));
    assert_eq!(desk.amount_of_active(0), 500);

    let mut desk: D = load_500_active();
    assert_eq!(desk.claim(write(ADD_PROMISED, 500, 1)), waits(2));
    assert_eq!(desk.amount_of_active(0), 0);
}

fn k8<D: Desk>() {
    let mut desk: D = load_500_active();
    assert_eq!(desk.claim(write(ADD_PROMISED, -500, 0)), granted(2, 0, 0));
    assert_eq!(desk.amount_of_active(0), 500);
}

/// Used stamped 100, by a report measured then; nothing active.
fn stamped_100<D: Desk>() -> D {
    let mut desk = D::opened(1_000, 1_000);
    assert_eq!(desk.claim(write(REPORT_USED, 70, 0).measured(100).at(120)), granted(1, 0, 0));
    assert_eq!(desk.release(130, 1), released(1, &[]));
    desk
}

fn k9<D: Desk>() {
    let mut desk: D = stamped_100();
    assert_eq!(desk.claim(read(READ_USED, 0).fresh().at(399)), granted(2, 70, 0));
    let mut desk: D = stamped_100();
    assert_eq!(desk.claim(read(READ_USED, 0).fresh().at(400)), waits(2));
}

fn k10<D: Desk>() {
    let full = || {
        let mut desk = D::opened(1_000, 1_000);
        assert_eq!(desk.claim(write(SET_PROMISED, 999_999_999, 0)), granted(1, 0, 0));
        assert_eq!(desk.release(0, 1), released(1, &[]));
        desk
    };
    assert_eq!(full().claim(write(ADD_PROMISED, 1, 0)), granted(2, 0, 0));
    assert_eq!(full().claim(write(ADD_PROMISED, 2, 0)), waits(2));
}

fn k11<D: Desk>() {
    let mut desk = D::opened(1_000, 1_000);
    assert_eq!(desk.claim(write(REPORT_USED, 6, 5)), granted(1, 0, 5));
    assert_eq!(desk.release(0, 1), released(1, &[]));
    assert_eq!(desk.claim(read(READ_USED, 4)), waits(2));
    assert_eq!(desk.claim(write(REPORT_USED, 7, 0).priority(4)), granted(3, 0, 0));
    assert_eq!(desk.release(0, 3), released(3, &[(2, 7, 0)]));
}

fn k12<D: Desk>() {
    let queued = || {
        let mut desk = D::opened(1_000, 1_000);
        assert_eq!(desk.claim(write(ADD_PROMISED, 1, 0)), granted(1, 0, 0));
        assert_eq!(desk.claim(write(SET_PROMISED, 2, 0).priority(7)), waits(2));
        desk
    };
    assert_eq!(queued().claim(write(ADD_PROMISED, 1, 0).priority(7)), waits(3));
    assert_eq!(queued().claim(write(ADD_PROMISED, 1, 0).priority(8)), granted(3, 0, 0));
}

fn k13<D: Desk>() {
    let mut desk = D::opened(1_000, 1_000);
    for ticket in 1..=8 {
        assert_eq!(desk.claim(read(READ_USED, 0)), granted(ticket, 0, 0));
    }
    for ticket in 9..=16 {
        assert_eq!(desk.claim(read(READ_USED, 0)), waits(ticket));
    }
    assert_eq!(desk.claim(read(READ_USED, 0)), refused(20));
}

// 01's errors that look right.

/// A new set is compared with each active set: 6 + 2, then 5 + 1 + 1.
fn each_set_counts<D: Desk>() {
    let mut desk: D = report_100_active();
    assert_eq!(desk.claim(write(REPORT_USED, 104, 0)), granted(2, 0, 4));
    assert_eq!(desk.claim(write(REPORT_USED, 106, 0)), granted(3, 0, 8));
    assert_eq!(desk.claim(write(REPORT_USED, 105, 0)), granted(4, 0, 7));
    assert_eq!(desk.claim(write(REPORT_USED, 110, 0)), waits(5));
}

/// A write that the second reader can't bear raises the first one's amount by nothing.
fn readers_taken_back<D: Desk>() {
    let mut desk = D::opened(1_000, 1_000);
    assert_eq!(desk.claim(read(READ_USED, 100)), granted(1, 0, 0));
    assert_eq!(desk.claim(read(READ_USED, 40)), granted(2, 0, 0));
    assert_eq!(desk.claim(write(REPORT_USED, 41, 0)), waits(3));
    assert_eq!((desk.amount_of_active(0), desk.amount_of_active(1)), (0, 0));
    assert_eq!(desk.release(0, 2), released(2, &[(3, 0, 0)]));
    assert_eq!(desk.amount_of_active(0), 41);
}

/// -500 and +500 don't cancel.
fn no_signed_sum<D: Desk>() {
    let mut desk = D::opened(1_000, 1_000);
    assert_eq!(desk.claim(read(READ_LOAD, 999)), granted(1, 0, 0));
    assert_eq!(desk.claim(write(ADD_PROMISED, 500, 0)), granted(2, 0, 0));
    assert_eq!(desk.claim(write(ADD_PROMISED, -500, 0)), waits(3));
    assert_eq!(desk.claim(read(READ_LOAD, 500).priority(6)), granted(4, 0, 500));
}

/// The second report's gap is 10, from the present 60; from the told 0 it would be 70, and the reader could not bear it.
fn gap_from_present_value<D: Desk>() {
    let mut desk = D::opened(1_000, 1_000);
    assert_eq!(desk.claim(read(READ_USED, 70)), granted(1, 0, 0));
    assert_eq!(desk.claim(write(REPORT_USED, 60, 0)), granted(2, 0, 0));
    assert_eq!(desk.release(0, 2), released(2, &[]));
    assert_eq!(desk.claim(write(REPORT_USED, 70, 0)), granted(3, 0, 0));
    assert_eq!(desk.amount_of_active(0), 70);
}

/// A reading that waits for fresh figures does not bar the report it waits for.
fn stale_reading_bars_nobody<D: Desk>() {
    let mut desk = D::opened(1_000, 1_000);
    assert_eq!(desk.claim(read(READ_USED, 0).fresh().priority(9).at(300)), waits(1));
    assert_eq!(desk.claim(write(REPORT_USED, 8, 0).at(300)), granted(2, 0, 0));
    assert_eq!(desk.release(301, 2), released(2, &[(1, 8, 0)]));
}

// (d): an add of d waits unless |value| + the sum of |d'| over active adds + |d| ≤ 1,000,000,000.

fn adds_count_in_full<D: Desk>() {
    let mut desk = D::opened(1_000, 1_000);
    assert_eq!(desk.claim(write(ADD_PROMISED, -999_999_998, 0)), granted(1, 0, 0));
    assert_eq!(desk.claim(write(ADD_PROMISED, 1, 0)), granted(2, 0, 0));
    assert_eq!(desk.claim(write(ADD_PROMISED, 2, 0)), waits(3));
    assert_eq!(desk.claim(write(ADD_PROMISED, -1, 0)), granted(4, 0, 0));
    assert_eq!(desk.claim(write(ADD_PROMISED, 1, 0)), waits(5));
    // the value is -1: 1 + 999,999,998 + 1 + 2, and + 1, are too much
    assert_eq!(desk.release(0, 4), released(4, &[]));
    // the value is 0: 999,999,998 + 2 is just enough, and 1 more too much
    assert_eq!(desk.release(0, 2), released(2, &[(3, 0, 0)]));
    // the value is -999,999,998: 2 is active, and 1 more too much
    assert_eq!(desk.release(0, 1), released(1, &[]));
    assert_eq!(desk.release(0, 3), released(3, &[(5, 0, 0)]));
}
