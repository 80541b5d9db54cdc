//! Granting, waiting, barring and the pass, rule by rule.

use super::*;
use crate::table::{entry, Entry, Method, TABLE};

fn methods() -> Vec<Method> {
    (0..7).filter_map(Method::of_number).collect()
}

#[test]
fn the_table_is_symmetric_and_readings_meet_only_writes_of_what_they_read() {
    for one in methods() {
        for other in methods() {
            let e = entry(one, other);
            assert_eq!(e, TABLE[other.number()][one.number()]);
            if one.is_reading() {
                let writes_it = one.reads() & other.writes() != 0;
                assert_eq!(e != Entry::A, writes_it, "{one:?} {other:?}");
            }
        }
    }
    assert!(Method::of_number(7).is_none());
}

#[test]
fn a_set_is_compared_with_each_active_set() {
    let mut run = Run::opened_at(0, 10, 1_000);
    assert_eq!(run.claim(report_used(100)), granted(1, 0, 0));
    assert_eq!(run.claim(report_used(104)), granted(2, 0, 4));
    assert_eq!(run.claim(report_used(106)), granted(3, 0, 8));
    assert_eq!(run.claim(report_used(105)), granted(4, 0, 7));
}

#[test]
fn a_set_starts_from_its_own_error_an_add_from_the_amount() {
    let mut run = Run::opened_at(0, 100, 100);
    assert_eq!(run.claim(report_used(0).own(20)), granted(1, 0, 20));
    assert_eq!(run.release(1, 0), released(1, &[]));
    assert_eq!(run.claim(report_used(5)), granted(2, 0, 0));
    assert_eq!(run.claim(add_promised(1).own(20)), granted(3, 0, 20));
    assert_eq!(run.release(3, 0), released(3, &[]));
    assert_eq!(run.claim(add_promised(1).own(5)), granted(4, 0, 25));
}

#[test]
fn an_add_over_the_limit_waits_or_is_refused() {
    let mut run = Run::opened_at(0, 0, 10);
    assert_eq!(run.claim(add_promised(1).own(6)), granted(1, 0, 6));
    assert_eq!(run.claim(add_promised(1).own(6)), waits(2));
    assert_eq!(run.claim(add_promised(1).own(4)), granted(3, 0, 10));
    assert_eq!(run.claim(add_promised(1).own(11)), refused(18));
}

#[test]
fn a_reading_adds_gaps_without_own_errors() {
    let mut run = Run::usual();
    run.claim(report_used(40).own(20));
    run.claim(add_promised(-7).own(3));
    run.claim(add_promised(7));
    // 20 + 3 carried, gaps 40 + 7 + 7
    assert_eq!(run.claim(read_load(76)), waits(4));
    assert_eq!(run.claim(read_load(77)), granted(5, 0, 77));
    assert_eq!(run.claim(read_used(60)), granted(6, 0, 60));
}

#[test]
fn a_write_grows_readings_from_the_present_value() {
    let mut run = Run::usual();
    assert_eq!(run.claim(read_used(100)), granted(1, 0, 0));
    assert_eq!(run.claim(report_used(60)), granted(2, 0, 0));
    assert_eq!(run.amount_of(1), 60);
    run.release(2, 0);
    assert_eq!(run.claim(report_used(70)), granted(3, 0, 0));
    assert_eq!(run.amount_of(1), 70);
    run.release(3, 0);
    // own error 16 and gap 15 more would be 101
    assert_eq!(run.claim(report_used(85).own(16)), waits(4));
    assert_eq!(run.amount_of(1), 70);
    assert_eq!(run.disk().attributes[0].amount, 0);
}

#[test]
fn readers_grow_all_or_none() {
    let mut run = Run::usual();
    assert_eq!(run.claim(read_used(100)), granted(1, 0, 0));
    assert_eq!(run.claim(read_load(50)), granted(2, 0, 0));
    assert_eq!(run.claim(report_used(51)), waits(3));
    assert_eq!((run.amount_of(1), run.amount_of(2)), (0, 0));
    assert_eq!(run.release(3, 0), released(3, &[]));
    assert_eq!(run.claim(report_used(50)), granted(4, 0, 0));
    assert_eq!((run.amount_of(1), run.amount_of(2)), (50, 50));
}

#[test]
fn gaps_do_not_cancel() {
    let mut run = Run::usual();
    assert_eq!(run.claim(read_load(999)), granted(1, 0, 0));
    assert_eq!(run.claim(add_promised(500)), granted(2, 0, 0));
    assert_eq!(run.claim(add_promised(-500)), waits(3));
}

#[test]
fn the_range_of_adds_counts_absolutely() {
    let mut run = Run::usual();
    run.claim(set_promised(-999_999_999));
    run.release(1, 0);
    assert_eq!(run.claim(add_promised(2)), waits(2));
    assert_eq!(run.claim(add_promised(1)), granted(3, 0, 0));
    // The active add of 1 counts, the waiting one of 2 does not.
    assert_eq!(run.claim(add_promised(-1)), waits(4));
    assert_eq!(run.claim(add_promised(0)), granted(5, 0, 0));
}

#[test]
fn stamps_are_the_second_of_measuring_and_adds_leave_them() {
    let mut run = Run::usual();
    run.claim(add_promised(5).at(200));
    run.release(1, 200);
    assert_eq!(run.disk().attributes[1].stamp, 0);
    assert_eq!(run.claim(read_load(9).fresh().at(300)), waits(2));
    let mut run = Run::opened_at(100, 1_000, 1_000);
    run.claim(report_used(1).at(100).measured(10));
    run.release(1, 100);
    assert_eq!(run.disk().attributes[0].stamp, 10);
    assert_eq!(run.claim(read_used(0).fresh().at(310)), waits(2));
    assert_eq!(run.claim(read_used(0).at(310)), granted(3, 1, 0));
}

#[test]
fn the_state_is_fresh_for_an_hour_and_no_sum_wraps() {
    let mut run = Run::usual();
    assert_eq!(run.claim(read_state(0).fresh().at(3_599)), granted(1, 0, 0));
    assert_eq!(run.claim(read_state(0).fresh().at(3_600)), waits(2));
    let mut run = Run::opened_at(4_294_967_000, 0, 0);
    let last = read_used(0).fresh().at(4_294_967_295);
    assert_eq!(run.claim(last), granted(1, 0, 0));
}

#[test]
fn the_widest_figures() {
    let mut run = Run::opened_at(0, 2_000_000_000, 2_000_000_000);
    run.claim(report_used(-1_000_000_000));
    run.claim(set_promised(-1_000_000_000));
    run.release(1, 0);
    run.release(2, 0);
    let told = -2_000_000_000;
    assert_eq!(run.claim(read_load(2_000_000_000)), granted(3, told, 0));
    assert_eq!(run.claim(report_used(1_000_000_000)), granted(4, 0, 0));
    assert_eq!(run.amount_of(3), 2_000_000_000);
    assert_eq!(run.claim(set_promised(-999_999_999)), waits(5));
}

#[test]
fn the_state_has_one_writer_or_readers() {
    let mut run = Run::usual();
    assert_eq!(run.claim(set_state(7)), granted(1, 0, 0));
    assert_eq!(run.claim(read_state(2_000_000_000)), waits(2));
    assert_eq!(run.claim(set_state(7).priority(9)), waits(3));
    // #3 is granted first and keeps the state: #2 waits on.
    assert_eq!(run.release(1, 0), released(1, &[(3, 0, 0)]));
    assert_eq!(run.release(3, 0), released(3, &[(2, 7, 0)]));
    assert_eq!(run.claim(read_state(0)), granted(4, 7, 0));
    assert_eq!(run.claim(set_state(8)), waits(5));
    assert_eq!(run.claim(read_state(0)), waits(6));
    assert_eq!(run.claim(read_state(0).priority(6)), granted(7, 7, 0));
}

#[test]
fn tickets_and_the_clock_of_each_disk() {
    let mut run = Run::opened_at(100, 1_000, 1_000);
    assert_eq!(run.call(&record::open(4, 50, 0, 0)), opened());
    let other = Fields {
        disk: 4,
        ..read_used(0)
    };
    assert_eq!(run.claim(other.at(60)), granted(1, 0, 0));
    assert_eq!(run.claim(read_used(0).at(100)), granted(1, 0, 0));
    assert_eq!(run.release(9, 200), refused(21));
    assert_eq!(run.claim(read_used(0).at(150)), granted(2, 0, 0));
    assert_eq!(run.claim(report_used(500).at(150)), waits(3));
    // A wait moves the clock, and so does the release of a waiting claim.
    assert_eq!(run.claim(report_used(500).at(300)), waits(4));
    assert_eq!(run.claim(read_used(0).at(299)), refused(15));
    assert_eq!(run.release(4, 310), released(4, &[]));
    assert_eq!(run.claim(read_state(0).at(309)), refused(15));
    assert_eq!(run.claim(read_state(0).at(310)), granted(5, 0, 0));
    assert_eq!(run.desk.open_count(), 2);
}
