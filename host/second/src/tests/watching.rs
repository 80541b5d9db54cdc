//! The watch: what it counts, and that it sees what it is there to see.

use super::*;
use crate::{Claim, Method};

#[test]
fn equality_is_met_and_carried_error_is_not_the_amount() {
    let mut run = Run::usual();
    run.claim(add_promised(500));
    assert_eq!(run.claim(read_load(500)), granted(2, 0, 500));
    let before = run.watch.equalities_above_zero;
    assert_eq!(run.release(1, 0), released(1, &[]));
    // told 0, present sum 500, limit 500, carried 0
    assert_eq!(run.watch.equalities_above_zero, before + 1);
    assert_eq!(run.watch.readings, 1);
    assert_eq!(run.watch.checks, 2);
    run.release(2, 0);
    assert_eq!(run.watch.checks, 2);
}

#[test]
fn carried_error_inside_a_pass_is_that_of_the_grant() {
    // #1's release grants #2 while used still carries 5; then #3 lowers the amount to 0.
    let mut run = Run::usual();
    run.claim(report_used(100).own(5));
    assert_eq!(run.claim(read_used(45).priority(9)), waits(2));
    assert_eq!(run.claim(report_used(140).priority(8)), waits(3));
    assert_eq!(run.release(1, 0), released(1, &[(2, 100, 5), (3, 0, 0)]));
    let before = run.watch.equalities_above_zero;
    assert_eq!(run.release(3, 0), released(3, &[]));
    // told 100, present 140, limit 45, carried 5
    assert_eq!(run.watch.equalities_above_zero, before + 1);
}

#[test]
fn carried_error_between_two_writes_of_one_pass() {
    let mut run = Run::usual();
    run.claim(set_promised(0));
    assert_eq!(run.claim(add_promised(10).own(5).priority(9)), waits(2));
    assert_eq!(run.claim(read_load(28).priority(8)), waits(3));
    assert_eq!(run.claim(add_promised(10).own(3).priority(7)), waits(4));
    let grants = [(2, 0, 5), (3, 0, 15), (4, 0, 8)];
    assert_eq!(run.release(1, 0), released(1, &grants));
    assert_eq!(run.amount_of(3), 28);
    run.release(2, 0);
    run.release(4, 0);
    // told 0, present sum 20, limit 28, carried 5 and not 8: no equality
    assert_eq!(run.disk().sum_of_values(Method::ReadLoad), 20);
    assert_eq!(run.watch.equalities_above_zero, 0);
}

#[test]
fn a_reading_off_its_limit_is_seen() {
    let mut run = Run::usual();
    assert_eq!(run.claim(read_used(10)), granted(1, 0, 0));
    let mut disk = run.disk().clone();
    disk.attributes[0].value = 10;
    let seen = |run: &mut Run, disk: &Disk| {
        let mut board = run.board();
        board[64 + 3 * 768..][..768].copy_from_slice(&encode(disk));
        run.desk.read_disk(&board, 3);
        let record = record::release(DISK, 0, 77);
        let outcome = run.desk.step(BOARD, &record, ANSWER);
        run.watch.check(&run.desk, 3, &outcome, &record)
    };
    assert_eq!(seen(&mut run, &disk), Ok(()));
    disk.attributes[0].value = -11;
    assert!(seen(&mut run, &disk)
        .unwrap_err()
        .contains("present sum -11"));
    disk.attributes[0].value = 0;
    disk.attributes[0].amount = 1;
    assert!(seen(&mut run, &disk).unwrap_err().contains("by the grants"));
    disk.attributes[0].amount = 0;
    disk.active.clear();
    assert!(seen(&mut run, &disk).unwrap_err().contains("unreleased"));
    run.watch.forget(3);
    assert_eq!(seen(&mut run, &disk), Ok(()));
}

#[test]
fn readings_that_had_to_be_granted() {
    let mut run = Run::usual();
    run.claim(read_used(0));
    run.claim(add_promised(5));
    assert_eq!(run.watch.granted_at_once, 1);
    run.claim(read_used(0));
    assert_eq!(run.watch.granted_at_once, 2);
    // An active add writes what ReadLoad reads: the demand is silent, though it is granted.
    assert_eq!(run.claim(read_load(5)), granted(4, 0, 5));
    assert_eq!(run.watch.granted_at_once, 2);
    assert_eq!(run.watch.decided_again, 3);
    // A waiting reading is decided again after each call.
    assert_eq!(run.claim(read_load(4)), waits(5));
    assert_eq!(run.watch.decided_again, 5);
    run.claim(add_promised(0));
    assert_eq!(run.watch.decided_again, 6);
}

#[test]
fn a_reading_kept_waiting_or_refused_without_need_is_seen() {
    let waiting = Claim {
        ticket: 1,
        method: Method::ReadUsed,
        priority: 5,
        fresh: false,
        measured: 0,
        value: 0,
        error_or_limit: 0,
        told: 0,
        amount: 0,
    };
    let mut run = Run::usual();
    let mut disk = run.disk().clone();
    disk.next_ticket = 2;
    disk.waiting.push(waiting);
    run.put(&disk);
    let record = record::claim(&read_used(0));
    let wrong = waits(1);
    let seen = run.watch.check(&run.desk, 3, &wrong, &record);
    assert!(seen.unwrap_err().contains("had to be granted"));

    let mut run = Run::usual();
    for number in [15, 16, 17, 19, 20] {
        let wrong = refused(number);
        let seen = run.watch.check(&run.desk, 3, &wrong, &record);
        assert!(seen.unwrap_err().contains("had to be granted"));
    }
    // Not well-formed, or below the clock: the demand is silent.
    let odd = record::claim(&Fields {
        value: 1,
        ..read_used(0)
    });
    assert_eq!(run.watch.check(&run.desk, 3, &refused(17), &odd), Ok(()));
    let mut run = Run::opened_at(5, 0, 0);
    assert_eq!(run.claim(read_used(0).at(4)), refused(15));
}

/// The demand's list is silent beside an active add; the decision without readers is not.
#[test]
fn a_reading_that_waits_for_a_reading_is_seen() {
    let start = || {
        let mut run = Run::usual();
        run.claim(add_promised(5));
        run.claim(read_load(50));
        run
    };
    let seen = |run: &mut Run, disk: &Disk, limit: u32, wrong: Outcome| {
        run.put(disk);
        let record = record::claim(&read_load(limit));
        run.watch.check(&run.desk, 3, &wrong, &record).unwrap_err()
    };
    // Kept waiting though nothing but a reading is beside it.
    let mut run = start();
    assert_eq!(run.claim(read_load(4)), waits(3));
    let mut disk = run.disk().clone();
    disk.waiting[0].error_or_limit = 5;
    assert!(seen(&mut run, &disk, 5, waits(3)).contains("true without readers"));
    // Granted though the add's gap is over its limit.
    let mut run = start();
    assert_eq!(run.claim(read_load(5)), granted(3, 0, 5));
    let mut disk = run.disk().clone();
    disk.active[2].error_or_limit = 4;
    disk.active[2].amount = 4;
    assert!(seen(&mut run, &disk, 4, granted(3, 0, 4)).contains("false without readers"));
}

#[test]
fn an_accepted_call_needs_an_open_disk() {
    let mut run = Run::usual();
    let record = record::claim(&read_used(0));
    let seen = run.watch.check(&run.desk, 4, &granted(1, 0, 0), &record);
    assert!(seen.unwrap_err().contains("not open"));
    let seen = run.watch.check(&run.desk, 3, &granted(9, 0, 0), &record);
    assert!(seen.unwrap_err().contains("not active"));
    assert_eq!(
        run.watch.check(&run.desk, 3, &Outcome::Nine, &record),
        Ok(())
    );
    assert_eq!(
        run.watch.check(&run.desk, 200, &refused(11), &record),
        Ok(())
    );
}
