//! Barring and the order of the pass.

use super::*;

#[test]
fn a_waiting_set_bars_by_the_letter() {
    let mut run = Run::opened_at(0, 10, 1_000);
    assert_eq!(run.claim(report_used(100)), granted(1, 0, 0));
    assert_eq!(run.claim(report_used(200)), waits(2));
    assert_eq!(run.claim(report_used(100)), waits(3));
    assert_eq!(run.claim(report_used(100).priority(6)), granted(4, 0, 0));
}

#[test]
fn adds_do_not_bar_adds() {
    let mut run = Run::opened_at(0, 0, 10);
    assert_eq!(run.claim(add_promised(1).own(10)), granted(1, 0, 10));
    assert_eq!(run.claim(add_promised(1).own(1).priority(9)), waits(2));
    assert_eq!(run.claim(add_promised(1)), granted(3, 0, 10));
}

#[test]
fn an_add_that_fails_its_preconditions_bars_no_set() {
    let mut run = Run::opened_at(0, 0, 10);
    assert_eq!(run.claim(add_promised(1).own(10)), granted(1, 0, 10));
    assert_eq!(run.release(1, 0), released(1, &[]));
    assert_eq!(run.claim(add_promised(1).own(1).priority(9)), waits(2));
    assert_eq!(run.claim(set_promised(4)), granted(3, 0, 0));
    // Now the waiting add's preconditions hold, so it bars the next set.
    assert_eq!(run.claim(set_promised(4)), waits(4));
    assert_eq!(run.release(3, 0), released(3, &[(2, 0, 1)]));
}

#[test]
fn preconditions_of_the_waiting_one_are_those_of_now() {
    let start = || {
        let mut run = Run::usual();
        assert_eq!(run.claim(report_used(500).priority(1)), granted(1, 0, 0));
        assert_eq!(run.claim(read_used(0).fresh().priority(9)), waits(2));
        assert_eq!(run.claim(report_used(600).priority(1)), waits(3));
        assert_eq!(run.claim(read_state(0)), granted(4, 0, 0));
        run
    };
    assert_eq!(start().release(4, 299), released(4, &[]));
    assert_eq!(start().release(4, 300), released(4, &[(3, 0, 100)]));
    // No pass on a claim.
    assert_eq!(start().claim(read_state(0).at(300)), granted(5, 0, 0));
}

#[test]
fn a_pass_follows_the_release_of_a_waiting_claim() {
    let mut run = Run::usual();
    run.claim(report_used(500));
    assert_eq!(run.claim(report_used(5_000)), waits(2));
    assert_eq!(run.claim(report_used(500)), waits(3));
    assert_eq!(run.release(2, 0), released(2, &[(3, 0, 0)]));
}

#[test]
fn barring_in_the_pass_is_on_the_state_so_far() {
    let mut run = Run::usual();
    assert_eq!(run.claim(report_used(0).own(5)), granted(1, 0, 5));
    assert_eq!(run.claim(read_used(4).priority(9)), waits(2));
    assert_eq!(run.claim(report_used(2_000).priority(8)), waits(3));
    assert_eq!(run.claim(report_used(2_000).priority(7)), waits(4));
    // #3's grant makes #2's preconditions hold: #2 bars #4.
    assert_eq!(run.release(1, 0), released(1, &[(3, 0, 0)]));
    assert_eq!(run.disk().waiting.len(), 2);
}

#[test]
fn one_pass_and_no_second_try() {
    let mut run = Run::usual();
    assert_eq!(run.claim(report_used(0).own(5)), granted(1, 0, 5));
    assert_eq!(run.release(1, 0), released(1, &[]));
    assert_eq!(run.claim(read_used(5)), granted(2, 0, 5));
    assert_eq!(run.claim(read_used(4).priority(10)), waits(3));
    assert_eq!(run.claim(report_used(500).priority(9)), waits(4));
    assert_eq!(run.claim(report_used(0).priority(8)), waits(5));
    // #5's grant brings the amount to 0: #3 could be granted now, but has had its turn.
    assert_eq!(run.release(4, 0), released(4, &[(5, 0, 0)]));
    assert_eq!(run.release(2, 0), released(2, &[(3, 0, 0)]));
}

#[test]
fn items_show_the_amount_at_the_grant() {
    let mut run = Run::usual();
    assert_eq!(run.claim(report_used(300)), granted(1, 0, 0));
    assert_eq!(run.claim(read_used(100).priority(9)), waits(2));
    assert_eq!(run.claim(report_used(350).priority(8)), waits(3));
    assert_eq!(run.release(1, 0), released(1, &[(2, 300, 0), (3, 0, 0)]));
    assert_eq!(run.amount_of(2), 50);
}

#[test]
fn higher_priority_first_then_lower_ticket() {
    let mut run = Run::usual();
    run.claim(set_state(1));
    for (ticket, priority) in [(2, 3), (3, 200), (4, 3), (5, 0), (6, 200), (7, 255)] {
        assert_eq!(run.claim(read_state(0).priority(priority)), waits(ticket));
    }
    let order: Vec<i64> = run.disk().waiting.iter().map(|c| c.ticket).collect();
    assert_eq!(order, [7, 3, 6, 2, 4, 5]);
    let grants = [7, 3, 6, 2, 4, 5].map(|ticket| (ticket, 1, 0));
    assert_eq!(run.release(1, 0), released(1, &grants));
}

#[test]
fn eight_grants_fill_the_answer() {
    let mut run = Run::usual();
    run.claim(set_state(9));
    for ticket in 2..=9 {
        assert_eq!(run.claim(read_state(0)), waits(ticket));
    }
    let grants: Vec<_> = (2..=9).map(|ticket| (ticket, 9, 0)).collect();
    let outcome = run.release(1, 0);
    assert_eq!(outcome, released(1, &grants));
    let answer = outcome.answer().unwrap();
    assert_eq!(
        answer[128..],
        [0, 0, 0, 0, 9, 0, 0, 0, 9, 0, 0, 0, 0, 0, 0, 0]
    );
}

#[test]
fn a_release_of_a_waiting_claim_with_eight_active_grants_nothing() {
    let mut run = Run::usual();
    for _ in 0..8 {
        run.claim(read_used(0));
    }
    assert_eq!(run.claim(read_used(0)), waits(9));
    assert_eq!(run.claim(read_used(0)), waits(10));
    assert_eq!(run.release(9, 0), released(9, &[]));
    assert_eq!(run.release(3, 0), released(3, &[(10, 0, 0)]));
    let order: Vec<i64> = run.disk().active.iter().map(|c| c.ticket).collect();
    assert_eq!(order, [1, 2, 4, 5, 6, 7, 8, 10]);
}

#[test]
fn one_that_lacks_only_a_place_bars() {
    let mut run = Run::usual();
    for _ in 0..8 {
        run.claim(read_state(0));
    }
    assert_eq!(run.claim(read_used(0).priority(9)), waits(9));
    assert_eq!(run.claim(report_used(5).priority(1)), waits(10));
    // The reading takes the place; then the report grows it over its limit, and has no place.
    assert_eq!(run.release(1, 0), released(1, &[(9, 0, 0)]));
    assert_eq!(run.release(2, 0), released(2, &[]));
    assert_eq!(run.release(9, 0), released(9, &[(10, 0, 0)]));
}

#[test]
fn a_grant_starts_no_pass_but_unlocks_barring() {
    let mut run = Run::usual();
    run.claim(report_used(0).own(5));
    run.release(1, 0);
    assert_eq!(run.claim(read_used(4)), waits(2));
    assert_eq!(run.claim(report_used(70).priority(4)), granted(3, 0, 0));
    assert_eq!(run.claim(report_used(50).priority(4)), waits(4));
}

#[test]
fn no_reading_pays_for_anothers_limit() {
    let mut run = Run::usual();
    assert_eq!(run.claim(read_used(0)), granted(1, 0, 0));
    assert_eq!(run.claim(report_used(5).priority(1)), waits(2));
    assert_eq!(run.claim(read_used(0).priority(2)), granted(3, 0, 0));
    assert_eq!(run.claim(read_used(0).priority(1)), waits(4));
}
