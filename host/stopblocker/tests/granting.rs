//! What K1 to K13 leave open of 01's rules: an opened disk, what each method does, the table entry by entry, starting amounts,
//! validities, the end of a claim and the pass. Every answer is worked out from 01.
//!
//! At second 0, own errors 0, priority 5, used and promised limit 1,000 unless said.

mod common;
use common::*;

both!(
    an_opened_disk,
    what_each_method_does,
    every_entry_in_the_lock_step,
    every_entry_in_barring,
    starting_amounts,
    valid_for_300_300_and_3600,
    a_set_brings_its_second_and_an_add_leaves_the_stamp,
    a_reading_or_a_waiting_claim_is_only_removed,
    no_pass_but_after_a_release,
    a_pass_after_the_release_of_a_waiting_claim,
    one_pass,
    barred_in_a_pass_by_those_ahead_that_still_wait,
    higher_priority_first_then_lower_ticket,
    items_show_the_amount_at_the_grant,
);

/// The part's words, clock and next ticket left out.
fn all_but_clock_and_next<D: Desk>(desk: &D) -> Vec<u32> {
    (2..PART / 4).map(|word| desk.word(4 * word)).collect()
}

/// "values 0, amounts 0, stamps and clock = now, next ticket 1, no claims", over any bytes; and nothing else is written.
fn an_opened_disk<D: Desk>() {
    let mut board = vec![0xa5; BOARD];
    board[..8].fill(0);
    let mut desk = D::of(board.clone());
    assert_eq!(desk.open(7, 600, 500), opened());
    let head: Vec<u32> = (0..16).map(|word| desk.word(4 * word)).collect();
    assert_eq!(head, [7, 1, 0, 0, 0, 7, 0, 600, 0, 7, 0, 500, 0, 7, 0, 0]);
    assert!(desk.bytes()[AT + 64..AT + PART].iter().all(|&byte| byte == 0));
    board[0] = 0b1000;
    board[AT..AT + PART].copy_from_slice(&desk.bytes()[AT..AT + PART]);
    assert_eq!(desk.bytes(), board);
}

/// "0 ReportUsed sets used; 1 AddPromised adds a signed amount to promised; 2 SetPromised; 3 SetState; 4 ReadUsed; 5 ReadLoad,
/// told used + promised; 6 ReadState." A write shows at its release.
fn what_each_method_does<D: Desk>() {
    let mut desk = D::opened(1_000, 1_000);
    let figures = |desk: &D| [USED, PROMISED, STATE].map(|at| desk.word(at) as i32);
    let mut before = [0, 0, 0];
    for (k, (method, value, after)) in [
        (REPORT_USED, 40, [40, 0, 0]),
        (REPORT_USED, 45, [45, 0, 0]),
        (SET_PROMISED, 20, [45, 20, 0]),
        (ADD_PROMISED, -60, [45, -40, 0]),
        (ADD_PROMISED, 5, [45, -35, 0]),
        (SET_PROMISED, -30, [45, -30, 0]),
        (SET_STATE, 7, [45, -30, 7]),
        (SET_STATE, 9, [45, -30, 9]),
    ]
    .into_iter()
    .enumerate()
    {
        let ticket = k as u32 + 1;
        assert_eq!(desk.claim(write(method, value, 0)), granted(ticket, 0, 0));
        assert_eq!(figures(&desk), before, "it does not show before its release");
        assert_eq!(desk.release(0, ticket), released(ticket, &[]));
        assert_eq!(figures(&desk), after);
        before = after;
    }
    assert_eq!(desk.claim(read(READ_USED, 0)), granted(9, 45, 0));
    assert_eq!(desk.claim(read(READ_LOAD, 0)), granted(10, 15, 0));
    assert_eq!(desk.claim(read(READ_STATE, 0)), granted(11, 9, 0));
}

/// 01's table. Row: active method; column: requested.
const TABLE: [&str; 7] = ["DAAAGGA", "AANAAGA", "ANDAAGA", "AAANAAN", "GAAAAAA", "GGGAAAA", "AAANAAA"];

/// Its entries, each with its two methods.
fn entries() -> impl Iterator<Item = (u8, u8, char)> {
    (0..)
        .zip(TABLE)
        .flat_map(|(active, row)| (0..).zip(row.chars()).map(move |(requested, entry)| (active, requested, entry)))
}

/// Used 10, promised 20, state 0, by tickets 1 and 2; nothing active.
fn used_10_promised_20<D: Desk>(limit: u32) -> D {
    let mut desk = D::opened(limit, limit);
    for (ticket, ask) in [(1, write(REPORT_USED, 10, 0)), (2, write(SET_PROMISED, 20, 0))] {
        assert_eq!(desk.claim(ask), granted(ticket, 0, 0));
        assert_eq!(desk.release(0, ticket), released(ticket, &[]));
    }
    desk
}

/// What a reading is told there; a write nothing.
fn told_there(method: u8) -> i32 {
    [0, 0, 0, 0, 10, 30, 0][usize::from(method)]
}

/// The lock step of each entry: a pair of claims that no limit leaves room for, and the same with room.
fn every_entry_in_the_lock_step<D: Desk>() {
    // a set or an add that moves its figure by so much, or a reading with that limit
    let ask = |method: u8, by: i32, limit: u32| match method {
        REPORT_USED => write(method, 10 + by, 0),
        SET_PROMISED => write(method, 20 + by, 0),
        ADD_PROMISED | SET_STATE => write(method, by, 0),
        _ => read(method, limit),
    };
    for (active, requested, entry) in entries() {
        let pair = |limit: u32| {
            let mut desk: D = used_10_promised_20(limit);
            assert_eq!(desk.claim(ask(active, 1, limit)), granted(3, told_there(active), 0));
            let said = desk.claim(ask(requested, 3, limit));
            (said, desk.amount_of_active(0))
        };
        let waiting = (waits(4), 0);
        let grant = |amount: u32, of_active: u32| (granted(4, told_there(requested), amount), of_active);
        let expected = match entry {
            'A' => (grant(0, 0), grant(0, 0)),
            'N' => (waiting.clone(), waiting),
            'D' => (waiting, grant(2, 0)),
            // a reading requested: the active write's gap; a write requested: the reading grows by its gap
            _ if requested >= READ_USED => (waiting, grant(1, 0)),
            _ => (waiting, grant(0, 3)),
        };
        assert_eq!((pair(0), pair(1_000)), expected, "{active} active, {requested} requested: {entry}");
    }
}

/// Barring by each entry: a claim waits, its preconditions hold, and one that could be granted beside what is active is barred
/// exactly where their entry isn't A; at a higher priority it is not. Left out: two states, or a SetState behind a state, which
/// what is active does not let in either way.
fn every_entry_in_barring<D: Desk>() {
    for (waiting, requested, entry) in entries() {
        let (active, asked) = match waiting {
            REPORT_USED => (read(READ_USED, 0), write(REPORT_USED, 15, 0)),
            ADD_PROMISED => (read(READ_LOAD, 0), write(ADD_PROMISED, 5, 0)),
            SET_PROMISED => (read(READ_LOAD, 0), write(SET_PROMISED, 25, 0)),
            SET_STATE => (read(READ_STATE, 0), write(SET_STATE, 5, 0)),
            READ_STATE => (write(SET_STATE, 5, 0), read(READ_STATE, 0)),
            _ => (write(REPORT_USED, 15, 0), read(waiting, 0)),
        };
        let harmless = match requested {
            REPORT_USED if active.method == REPORT_USED => active,
            REPORT_USED => write(REPORT_USED, 10, 0),
            SET_PROMISED => write(SET_PROMISED, 20, 0),
            ADD_PROMISED | SET_STATE => write(requested, 0, 0),
            _ => read(requested, 1_000),
        };
        if [(SET_STATE, SET_STATE), (READ_STATE, SET_STATE), (READ_STATE, READ_STATE)].contains(&(waiting, requested)) {
            continue;
        }
        let said = |ask: Ask| {
            let mut desk: D = used_10_promised_20(1_000);
            assert_eq!(desk.claim(active), granted(3, told_there(active.method), 0));
            assert_eq!(desk.claim(asked), waits(4));
            desk.claim(ask)
        };
        let (equal, higher) = (said(harmless), said(harmless.priority(6)));
        assert_eq!(equal == waits(5), entry != 'A', "{waiting} waits, {requested} requested: {entry}, {equal:?}");
        assert_eq!(higher[0].0, 0, "{waiting} waits, {requested} requested above it: {higher:?}");
    }
}

/// "a set, its own error; an add, the attribute's amount + its own error; a reading, the sum of the amounts read".
fn starting_amounts<D: Desk>() {
    let mut desk = D::opened(100, 100);
    assert_eq!(desk.claim(write(REPORT_USED, 0, 20)), granted(1, 0, 20));
    assert_eq!(desk.release(0, 1), released(1, &[]));
    assert_eq!(desk.claim(write(REPORT_USED, 0, 3)), granted(2, 0, 3));
    assert_eq!(desk.claim(write(ADD_PROMISED, 0, 20)), granted(3, 0, 20));
    assert_eq!(desk.release(0, 3), released(3, &[]));
    assert_eq!(desk.claim(write(ADD_PROMISED, 0, 5)), granted(4, 0, 25));
    assert_eq!(desk.claim(read(READ_USED, 50)), granted(5, 0, 3));
    assert_eq!(desk.claim(read(READ_LOAD, 27)), waits(6));
    assert_eq!(desk.claim(read(READ_LOAD, 28)), granted(7, 0, 28));
    assert_eq!(desk.claim(write(SET_STATE, 1, 0)), granted(8, 0, 0));
}

/// (a) of each attribute: stamp + validity > now, and no sum goes over the last second.
fn valid_for_300_300_and_3600<D: Desk>() {
    let fresh = |method: u8, now: u32| D::opened(1_000, 1_000).claim(read(method, 0).fresh().at(now));
    assert_eq!(fresh(READ_USED, 299), granted(1, 0, 0));
    assert_eq!(fresh(READ_USED, 300), waits(1));
    assert_eq!(fresh(READ_STATE, 3_599), granted(1, 0, 0));
    assert_eq!(fresh(READ_STATE, 3_600), waits(1));

    // used is measured at 250: of a load only promised can be stale
    let load = |now: u32| {
        let mut desk = D::opened(1_000, 1_000);
        assert_eq!(desk.claim(write(REPORT_USED, 8, 0).at(250)), granted(1, 0, 0));
        assert_eq!(desk.release(250, 1), released(1, &[]));
        desk.claim(read(READ_LOAD, 0).fresh().at(now))
    };
    assert_eq!(load(299), granted(2, 8, 0));
    assert_eq!(load(300), waits(2));

    let last = |before: u32| {
        let mut desk = D::of(vec![0; BOARD]);
        assert_eq!(desk.open(u32::MAX - before, 0, 0), opened());
        desk.claim(read(READ_LOAD, 0).fresh().at(u32::MAX))
    };
    assert_eq!(last(299), granted(1, 0, 0));
    assert_eq!(last(300), waits(1));
}

/// "An active set stores its value, its stamp becomes the second of measuring. An active add adds; the stamp stays."
fn a_set_brings_its_second_and_an_add_leaves_the_stamp<D: Desk>() {
    let mut desk = D::of(vec![0; BOARD]);
    assert_eq!(desk.open(100, 1_000, 1_000), opened());
    let stamps = |desk: &D| [USED, PROMISED, STATE].map(|at| desk.word(at + STAMP));
    for (k, (method, measured, after)) in [
        (ADD_PROMISED, 120, [100, 100, 100]),
        (REPORT_USED, 90, [90, 100, 100]),
        (SET_PROMISED, 110, [90, 110, 100]),
        (ADD_PROMISED, 130, [90, 110, 100]),
        (SET_STATE, 0, [90, 110, 0]),
        (REPORT_USED, 130, [130, 110, 0]),
    ]
    .into_iter()
    .enumerate()
    {
        let (ticket, now) = (k as u32 + 1, 130 + 10 * k as u32);
        assert_eq!(desk.claim(write(method, 5, 0).measured(measured).at(now)), granted(ticket, 0, 0));
        assert_eq!(desk.release(now + 5, ticket), released(ticket, &[]));
        assert_eq!(stamps(&desk), after, "{method} measured {measured}");
    }
}

/// Nothing of the part but clock and next ticket is another than before the claim.
fn a_reading_or_a_waiting_claim_is_only_removed<D: Desk>() {
    let mut desk = D::opened(1_000, 1_000);
    assert_eq!(desk.claim(write(ADD_PROMISED, 30, 2)), granted(1, 0, 2));
    assert_eq!(desk.claim(write(SET_STATE, 4, 0)), granted(2, 0, 0));
    let before = all_but_clock_and_next(&desk);
    for (k, (ask, said)) in [
        (read(READ_LOAD, 40), granted(3, 0, 32)),
        (read(READ_USED, 0), granted(4, 0, 0)),
        (write(SET_PROMISED, 700, 9), waits(5)),
        (read(READ_STATE, 0), waits(6)),
        (write(SET_STATE, 8, 0), waits(7)),
    ]
    .into_iter()
    .enumerate()
    {
        let (ticket, now) = (k as u32 + 3, 10 * k as u32);
        assert_eq!(desk.claim(ask.at(now)), said);
        assert_eq!(desk.release(now + 5, ticket), released(ticket, &[]));
        assert_eq!(all_but_clock_and_next(&desk), before);
        assert_eq!((desk.word(0), desk.word(4)), (now + 5, ticket + 1));
    }
}

/// Used amount 5, a reading with limit 4 waits; the report beside 6 is 1 away and brings the amount down: the reading could be
/// granted, and waits on. "A grant by itself starts no pass", nor does a wait.
fn no_pass_but_after_a_release<D: Desk>() {
    let mut desk = D::opened(1_000, 1_000);
    assert_eq!(desk.claim(write(REPORT_USED, 6, 5)), granted(1, 0, 5));
    assert_eq!(desk.release(0, 1), released(1, &[]));
    assert_eq!(desk.claim(read(READ_USED, 4)), waits(2));
    assert_eq!(desk.claim(write(REPORT_USED, 7, 0).priority(4)), granted(3, 0, 0));
    assert_eq!(desk.claim(write(REPORT_USED, 7, 0).priority(4)), waits(4));
    assert_eq!(desk.claim(read(READ_STATE, 0)), granted(5, 0, 0));
    assert_eq!(desk.release(0, 5), released(5, &[(2, 6, 1), (4, 0, 0)]));
}

fn a_pass_after_the_release_of_a_waiting_claim<D: Desk>() {
    let mut desk = D::opened(10, 1_000);
    assert_eq!(desk.claim(write(REPORT_USED, 100, 0)), granted(1, 0, 0));
    assert_eq!(desk.claim(write(REPORT_USED, 200, 0)), waits(2));
    assert_eq!(desk.claim(write(REPORT_USED, 100, 0)), waits(3));
    assert_eq!(desk.release(0, 2), released(2, &[(3, 0, 0)]));
}

/// Ticket 3, first in the order, waits for a better amount than 5. The release of 4 lets 5 in, which brings the amount to 0
/// and leaves the value: 3 could be granted now, but has had its turn.
fn one_pass<D: Desk>() {
    let mut desk = D::opened(1_000, 1_000);
    assert_eq!(desk.claim(write(REPORT_USED, 0, 5)), granted(1, 0, 5));
    assert_eq!(desk.release(0, 1), released(1, &[]));
    assert_eq!(desk.claim(read(READ_USED, 5)), granted(2, 0, 5));
    assert_eq!(desk.claim(read(READ_USED, 4).priority(10)), waits(3));
    assert_eq!(desk.claim(write(REPORT_USED, 500, 0).priority(9)), waits(4));
    assert_eq!(desk.claim(write(REPORT_USED, 0, 0).priority(8)), waits(5));
    assert_eq!(desk.release(0, 4), released(4, &[(5, 0, 0)]));
    assert_eq!(desk.release(0, 2), released(2, &[(3, 0, 0)]));
}

/// On the state so far: the grant of 3 makes 2's figures good, so 2, which still waits, bars 4. And not by those behind: 3
/// is granted though 4 waits.
fn barred_in_a_pass_by_those_ahead_that_still_wait<D: Desk>() {
    let mut desk = D::opened(1_000, 1_000);
    assert_eq!(desk.claim(write(REPORT_USED, 0, 5)), granted(1, 0, 5));
    assert_eq!(desk.claim(read(READ_USED, 4).priority(9)), waits(2));
    assert_eq!(desk.claim(write(REPORT_USED, 2_000, 0).priority(8)), waits(3));
    assert_eq!(desk.claim(write(REPORT_USED, 2_000, 0).priority(7)), waits(4));
    assert_eq!(desk.release(0, 1), released(1, &[(3, 0, 0)]));
    assert_eq!(desk.release(0, 2), released(2, &[(4, 0, 0)]));
}

fn higher_priority_first_then_lower_ticket<D: Desk>() {
    let mut desk = D::opened(1_000, 1_000);
    assert_eq!(desk.claim(write(SET_STATE, 6, 0)), granted(1, 0, 0));
    for (ticket, priority) in [(2, 3), (3, 200), (4, 3), (5, 0), (6, 200), (7, 255)] {
        assert_eq!(desk.claim(read(READ_STATE, 0).priority(priority)), waits(ticket));
    }
    let grants = [7, 3, 6, 2, 4, 5].map(|ticket| (ticket, 6, 0));
    assert_eq!(desk.release(0, 1), released(1, &grants));
}

/// 0 at its grant, though the next grant of the same pass brings the reading to 50.
fn items_show_the_amount_at_the_grant<D: Desk>() {
    let mut desk = D::opened(1_000, 1_000);
    assert_eq!(desk.claim(write(REPORT_USED, 300, 0)), granted(1, 0, 0));
    assert_eq!(desk.claim(read(READ_USED, 100).priority(9)), waits(2));
    assert_eq!(desk.claim(write(REPORT_USED, 350, 0).priority(8)), waits(3));
    assert_eq!(desk.release(0, 1), released(1, &[(2, 300, 0), (3, 0, 0)]));
    assert_eq!(desk.amount_of_active(0), 50);
}
