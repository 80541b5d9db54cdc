//! K1 to K13 and the printed run, with the paper's numbers.

use super::*;

/// K1 to K3's start: used limit 10, ReportUsed 100 active.
fn speed() -> Run {
    let mut run = Run::opened_at(0, 10, 1_000);
    // The value itself is 0 still: only the distance to the active set counts.
    assert_eq!(run.claim(report_used(100)), granted(1, 0, 0));
    run
}

#[test]
fn k1_k2_k3_the_speed_example() {
    assert_eq!(speed().claim(report_used(106).own(3)), granted(2, 0, 9));
    assert_eq!(speed().claim(report_used(107).own(3)), granted(2, 0, 10));
    assert_eq!(speed().claim(report_used(108).own(3)), waits(2));
}

#[test]
fn k4_own_error_against_the_limit() {
    let start = || Run::opened_at(0, 10, 1_000);
    assert_eq!(start().claim(report_used(5).own(10)), granted(1, 0, 10));
    assert_eq!(start().claim(report_used(5).own(11)), refused(18));
}

#[test]
fn k5_k6_add_beside_add_and_set() {
    let start = || {
        let mut run = Run::usual();
        assert_eq!(run.claim(add_promised(300)), granted(1, 0, 0));
        run
    };
    assert_eq!(start().claim(add_promised(-300)), granted(2, 0, 0));
    assert_eq!(start().claim(set_promised(300)), waits(2));
}

#[test]
fn k7_k8_a_reading_of_the_load() {
    let start = || {
        let mut run = Run::usual();
        assert_eq!(run.claim(read_load(500)), granted(1, 0, 0));
        run
    };
    let mut run = start();
    assert_eq!(run.claim(add_promised(500)), granted(2, 0, 0));
    assert_eq!(run.amount_of(1), 500);
    let mut run = start();
    assert_eq!(run.claim(add_promised(500).own(1)), waits(2));
    assert_eq!(run.amount_of(1), 0);
    let mut run = start();
    assert_eq!(run.claim(add_promised(-500)), granted(2, 0, 0));
    assert_eq!(run.amount_of(1), 500);
}

#[test]
fn k9_fresh_figures() {
    let start = || Run::opened_at(100, 1_000, 1_000);
    assert_eq!(
        start().claim(read_used(0).fresh().at(399)),
        granted(1, 0, 0)
    );
    assert_eq!(start().claim(read_used(0).fresh().at(400)), waits(1));
}

#[test]
fn k10_the_range_of_promised() {
    let start = || {
        let mut run = Run::usual();
        assert_eq!(run.claim(set_promised(999_999_999)), granted(1, 0, 0));
        assert_eq!(run.release(1, 0), released(1, &[]));
        assert_eq!(run.disk().attributes[1].value, 999_999_999);
        run
    };
    assert_eq!(start().claim(add_promised(1)), granted(2, 0, 0));
    assert_eq!(start().claim(add_promised(2)), waits(2));
}

#[test]
fn k11_a_reading_that_waits_for_better_figures() {
    let mut run = Run::usual();
    assert_eq!(run.claim(report_used(0).own(5)), granted(1, 0, 5));
    assert_eq!(run.release(1, 0), released(1, &[]));
    assert_eq!(run.claim(read_used(4)), waits(2));
    assert_eq!(run.claim(report_used(70).priority(4)), granted(3, 0, 0));
    assert_eq!(run.release(3, 0), released(3, &[(2, 70, 0)]));
}

#[test]
fn k12_barring_by_priority() {
    let start = || {
        let mut run = Run::usual();
        assert_eq!(run.claim(add_promised(5)), granted(1, 0, 0));
        assert_eq!(run.claim(set_promised(5).priority(7)), waits(2));
        run
    };
    assert_eq!(start().claim(add_promised(1).priority(7)), waits(3));
    assert_eq!(start().claim(add_promised(1).priority(8)), granted(3, 0, 0));
}

#[test]
fn k13_eight_active_and_eight_waiting() {
    let mut run = Run::usual();
    for ticket in 1..=8 {
        assert_eq!(run.claim(read_used(0)), granted(ticket, 0, 0));
    }
    for ticket in 9..=16 {
        assert_eq!(run.claim(read_used(0)), waits(ticket));
    }
    assert_eq!(run.claim(read_used(0)), refused(20));
    assert_eq!(Run::empty().claim(write(9, 0)), refused(13));
}

/// The program's lines: number, disk, code, ticket, told, amount.
fn lines(run: &mut Run, number: usize, record: &[u8]) -> String {
    let outcome = run.call(record);
    let disk = if outcome.code() == 10 { 0 } else { record[3] };
    match outcome {
        Outcome::Accepted(items) => items
            .iter()
            .enumerate()
            .map(|(k, i)| {
                let plus = if k == 0 { "" } else { "+" };
                let (code, ticket, told, amount) = (i.code, i.ticket, i.told, i.amount);
                format!("{plus}{number} {disk} {code} {ticket} {told} {amount}\n")
            })
            .collect(),
        other => format!("{number} {disk} {} 0 0 0\n", other.code()),
    }
}

#[test]
fn the_printed_run() {
    let records = [
        record::open(3, 100, 1_000, 500),
        record::claim(&report_used(40_000).own(20).at(100)),
        record::claim(&read_used(50_000).at(101)),
        record::claim(&report_used(40_600).at(102)),
        record::release(3, 103, 2),
        record::release(3, 104, 9),
        record::claim(&read_used(0).at(99)),
    ];
    let mut run = Run::empty();
    let printed: String = records
        .iter()
        .enumerate()
        .map(|(k, record)| lines(&mut run, k + 1, record))
        .collect();
    let expected = "1 3 3 0 0 0\n2 3 0 1 0 20\n3 3 0 2 0 40020\n4 3 1 3 0 0\n\
                    5 3 2 2 0 0\n+5 3 0 3 0 600\n6 3 21 0 0 0\n7 3 15 0 0 0\n";
    assert_eq!(printed, expected);
    // Priority 5 in an open's record would stand in an unused byte.
    let mut open = record::open(3, 100, 1_000, 500);
    open[5] = 5;
    assert_eq!(lines(&mut Run::empty(), 1, &open), "1 0 10 0 0 0\n");
}
