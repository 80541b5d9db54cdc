//! Refusal 14, clause by clause: words of a sound part are written over, and the part is sound or not as 01 says.

mod common;
use common::*;

both!(
    decodes,
    figures,
    clock,
    tickets,
    claims_16_to_18,
    told_and_amount,
    promised_sum,
    never,
    waiting_order,
    nothing_more,
    every_slot_taken,
);

const fn active(k: usize) -> usize {
    64 + 44 * k
}

const fn waiting(k: usize) -> usize {
    416 + 44 * k
}

// Places in a slot.
const TICKET: usize = 0;
const METHOD: usize = 4;
const PRIORITY: usize = 8;
const FLAG: usize = 12;
const MEASURED: usize = 16;
const VALUE: usize = 20;
const ERROR: usize = 24;
const SLOT_TOLD: usize = 28;
const SLOT_AMOUNT: usize = 32;

// The claims of `busy`.
const REPORT: usize = active(0);
const ADD: usize = active(1);
const READING: usize = active(2);
const SETS_STATE: usize = active(3);
const SETS_PROMISED: usize = waiting(0);
const READS_STATE: usize = waiting(1);
const READS_STATE_TOO: usize = waiting(2);

const BILLION: u32 = 1_000_000_000;

fn minus(n: u32) -> u32 {
    n.wrapping_neg()
}

/// A disk with limits 1,000 and 500, opened at 100; clock 110. Active: ReportUsed 40 own error 3 measured 90,
/// AddPromised 200 own error 1, ReadUsed limit 500, SetState 7. Waiting: SetPromised 10 of priority 7, two ReadState.
fn busy<D: Desk>() -> D {
    let mut desk = D::of(vec![0; BOARD]);
    assert_eq!(desk.open(100, 1_000, 500), opened());
    assert_eq!(desk.claim(write(REPORT_USED, 40, 3).measured(90).at(110)), granted(1, 0, 3));
    assert_eq!(desk.claim(write(ADD_PROMISED, 200, 1).at(110)), granted(2, 0, 1));
    assert_eq!(desk.claim(read(READ_USED, 500).at(110)), granted(3, 0, 43));
    assert_eq!(desk.claim(write(SET_STATE, 7, 0).at(110)), granted(4, 0, 0));
    assert_eq!(desk.claim(read(READ_STATE, 0).at(110)), waits(5));
    assert_eq!(desk.claim(write(SET_PROMISED, 10, 0).priority(7).at(110)), waits(6));
    assert_eq!(desk.claim(read(READ_STATE, 0).at(110)), waits(7));
    desk
}

/// Nobody has ticket 0: a release of it is refused 21 on a sound part and 14 on another.
fn is_sound<D: Desk>(words: &[(usize, u32)]) -> bool {
    let said = busy::<D>().damaged(words).release(u32::MAX, 0);
    assert!(said == refused(14) || said == refused(21), "{words:?}: {said:?}");
    said == refused(21)
}

fn sound<D: Desk>(words: &[(usize, u32)]) {
    assert!(is_sound::<D>(words), "{words:?}: sound");
}

fn unsound<D: Desk>(words: &[(usize, u32)]) {
    assert!(!is_sound::<D>(words), "{words:?}: not sound");
}

/// A word may be each of the first, and none of the second.
fn edges<D: Desk>(at: usize, may: &[u32], not: &[u32]) {
    may.iter().for_each(|&word| sound::<D>(&[(at, word)]));
    not.iter().for_each(|&word| unsound::<D>(&[(at, word)]));
}

/// The part decodes: every byte without a figure is zero, and counts are at most 8.
fn decodes<D: Desk>() {
    sound::<D>(&[]);
    let spare = [56, 60].into_iter();
    let behind = [REPORT, ADD, READING, SETS_STATE, SETS_PROMISED, READS_STATE, READS_STATE_TOO]
        .into_iter()
        .flat_map(|slot| [slot + 36, slot + 40]);
    let past = (active(4)..waiting(0)).chain(waiting(3)..PART).step_by(4);
    for at in spare.chain(behind).chain(past) {
        for byte in 0..4 {
            unsound::<D>(&[(at, 1 << (8 * byte))]);
            unsound::<D>(&[(at, 0x80 << (8 * byte))]);
        }
    }
    edges::<D>(ACTIVE_COUNT, &[4], &[3, 5, 8, 9, 260, u32::MAX]);
    edges::<D>(WAITING_COUNT, &[3], &[2, 4, 8, 9, 259, u32::MAX]);
}

/// Ranges of the figures, amounts ≤ limits, stamps ≤ clock.
fn figures<D: Desk>() {
    edges::<D>(USED, &[0, BILLION, minus(BILLION)], &[BILLION + 1, minus(BILLION + 1), 1 << 31]);
    edges::<D>(STATE, &[0, 255], &[256, minus(1), 1 << 31]);
    for (figure, limit) in [(USED, 1_000), (PROMISED, 500)] {
        edges::<D>(figure + AMOUNT, &[0, limit], &[limit + 1, u32::MAX]);
        edges::<D>(figure + LIMIT, &[2 * BILLION], &[2 * BILLION + 1, u32::MAX]);
    }
    for figure in [USED, PROMISED, STATE] {
        edges::<D>(figure + STAMP, &[0, 110], &[111, u32::MAX]);
    }
    sound::<D>(&[(USED + AMOUNT, 4), (USED + LIMIT, 4)]);
    unsound::<D>(&[(USED + AMOUNT, 5), (USED + LIMIT, 4)]);
}

/// Measuring seconds ≤ clock, of active and of waiting writes.
fn clock<D: Desk>() {
    edges::<D>(CLOCK, &[110, 111, u32::MAX], &[109, 0]);
    for slot in [REPORT, ADD, SETS_STATE, SETS_PROMISED] {
        edges::<D>(slot + MEASURED, &[0, 110], &[111, u32::MAX]);
    }
}

/// Next ticket 1 to 1,000,000; tickets distinct, at least 1 and below next.
fn tickets<D: Desk>() {
    edges::<D>(NEXT_TICKET, &[8, 1_000_000], &[0, 1, 7, 1_000_001, u32::MAX]);
    edges::<D>(REPORT + TICKET, &[1], &[0, 2, 3, 4, 5, 6, 7, 8, u32::MAX]);
    edges::<D>(SETS_STATE + TICKET, &[4], &[0, 1, 2, 3, 5, 6, 7, 8]);
    edges::<D>(SETS_PROMISED + TICKET, &[6], &[0, 1, 2, 3, 4, 5, 7, 8]);
    edges::<D>(READS_STATE_TOO + TICKET, &[7], &[0, 1, 2, 3, 4, 5, 6, 8]);
    sound::<D>(&[(NEXT_TICKET, 100), (REPORT + TICKET, 99), (SETS_PROMISED + TICKET, 98)]);
    unsound::<D>(&[(NEXT_TICKET, 99), (REPORT + TICKET, 99)]);
    // no claim at all: next ticket 1
    let mut idle = D::opened(0, 0);
    assert_eq!(idle.release(0, 0), refused(21));
    assert_eq!(idle.damaged(&[(NEXT_TICKET, 0)]).release(0, 0), refused(14));
    // all zeros, and its bit set
    let mut board = vec![0; BOARD];
    board[0] = 1 << DISK;
    assert_eq!(D::of(board).release(0, 0), refused(14));
}

/// Every claim passes 16 to 18, and its priority and flag are those of a record.
fn claims_16_to_18<D: Desk>() {
    for slot in [REPORT, ADD, READING, SETS_STATE, SETS_PROMISED, READS_STATE, READS_STATE_TOO] {
        unsound::<D>(&[(slot + METHOD, 7)]);
        unsound::<D>(&[(slot + METHOD, 255)]);
        unsound::<D>(&[(slot + METHOD, u32::MAX)]);
        unsound::<D>(&[(slot + PRIORITY, 256)]);
        unsound::<D>(&[(slot + PRIORITY, u32::MAX)]);
        unsound::<D>(&[(slot + FLAG, 2)]);
        unsound::<D>(&[(slot + FLAG, u32::MAX)]);
        unsound::<D>(&[(slot + ERROR, 2 * BILLION + 1)]);
    }
    for slot in [REPORT, ADD, READING, SETS_STATE] {
        edges::<D>(slot + PRIORITY, &[0, 255], &[]);
    }
    for slot in [REPORT, ADD, SETS_STATE, SETS_PROMISED] {
        unsound::<D>(&[(slot + FLAG, 1)]);
    }
    for slot in [READING, READS_STATE, READS_STATE_TOO] {
        sound::<D>(&[(slot + FLAG, 1)]);
        edges::<D>(slot + VALUE, &[0], &[1, minus(1), 1 << 31]);
        edges::<D>(slot + MEASURED, &[0], &[1, 110]);
        sound::<D>(&[(slot + ERROR, 2 * BILLION)]);
    }
    for slot in [REPORT, SETS_PROMISED] {
        edges::<D>(slot + VALUE, &[BILLION, minus(BILLION)], &[BILLION + 1, minus(BILLION + 1), 1 << 31]);
    }
    edges::<D>(SETS_STATE + VALUE, &[0, 255], &[256, minus(1)]);
    edges::<D>(REPORT + ERROR, &[0, 1_000], &[1_001]);
    edges::<D>(ADD + ERROR, &[0, 500], &[501]);
    edges::<D>(SETS_PROMISED + ERROR, &[0, 500], &[501]);
    edges::<D>(SETS_STATE + ERROR, &[0], &[1]);
    // 18 at the attribute's limit as it stands now
    sound::<D>(&[(USED + AMOUNT, 0), (USED + LIMIT, 3)]);
    unsound::<D>(&[(USED + AMOUNT, 0), (USED + LIMIT, 2)]);
}

/// An active reading's told lies within ±2,000,000,000 and its amount ≤ its limit; others have neither.
fn told_and_amount<D: Desk>() {
    let most = 2 * BILLION;
    edges::<D>(READING + SLOT_TOLD, &[0, 300, most, minus(most)], &[most + 1, minus(most + 1), 1 << 31]);
    edges::<D>(READING + SLOT_AMOUNT, &[0, 43, 500], &[501, u32::MAX]);
    sound::<D>(&[(READING + SLOT_AMOUNT, 43), (READING + ERROR, 43)]);
    unsound::<D>(&[(READING + SLOT_AMOUNT, 43), (READING + ERROR, 42)]);
    for slot in [REPORT, ADD, SETS_STATE, SETS_PROMISED, READS_STATE, READS_STATE_TOO] {
        edges::<D>(slot + SLOT_TOLD, &[0], &[1, minus(1)]);
        edges::<D>(slot + SLOT_AMOUNT, &[0], &[1]);
    }
}

/// |promised| + the sum of |d| of active adds ≤ 1,000,000,000.
fn promised_sum<D: Desk>() {
    let most = BILLION - 200;
    edges::<D>(PROMISED, &[most, minus(most)], &[most + 1, minus(most + 1), BILLION, minus(BILLION), 1 << 31]);
    edges::<D>(ADD + VALUE, &[BILLION, minus(BILLION)], &[BILLION + 1, minus(BILLION + 1), 1 << 31]);
    unsound::<D>(&[(PROMISED, 1), (ADD + VALUE, BILLION)]);
    unsound::<D>(&[(PROMISED, 1), (ADD + VALUE, minus(BILLION))]);
    // the report as a second add
    let second = (REPORT + METHOD, u32::from(ADD_PROMISED));
    sound::<D>(&[second, (REPORT + VALUE, most)]);
    sound::<D>(&[second, (REPORT + VALUE, minus(most))]);
    unsound::<D>(&[second, (REPORT + VALUE, most + 1)]);
    unsound::<D>(&[second, (REPORT + VALUE, minus(most + 1))]);
    // the waiting set counts nothing
    sound::<D>(&[(PROMISED, most), (SETS_PROMISED + VALUE, BILLION)]);
}

/// No two active claims have entry N.
fn never<D: Desk>() {
    let report = |method: u8| [(REPORT + METHOD, u32::from(method)), (REPORT + ERROR, 0)];
    sound::<D>(&report(REPORT_USED));
    sound::<D>(&report(ADD_PROMISED));
    unsound::<D>(&report(SET_PROMISED));
    unsound::<D>(&report(SET_STATE));
    unsound::<D>(&[(READING + METHOD, u32::from(READ_STATE))]);
    sound::<D>(&[(READING + METHOD, u32::from(READ_LOAD))]);
    unsound::<D>(&[(ADD + METHOD, u32::from(SET_STATE)), (ADD + ERROR, 0)]);
    // two sets of one attribute are D, and waiting ones are held to nothing
    sound::<D>(&[(ADD + METHOD, u32::from(REPORT_USED))]);
    sound::<D>(&[(READS_STATE + METHOD, u32::from(SET_STATE))]);
}

/// Waiting claims stand in the pass's order: higher priority first, then lower ticket.
fn waiting_order<D: Desk>() {
    edges::<D>(SETS_PROMISED + PRIORITY, &[6, 7, 255], &[5, 4, 0]);
    edges::<D>(READS_STATE + PRIORITY, &[5, 6], &[7, 8, 4, 0, 255]);
    edges::<D>(READS_STATE_TOO + PRIORITY, &[5, 4, 0], &[6, 7, 255]);
    unsound::<D>(&[(READS_STATE + TICKET, 7), (READS_STATE_TOO + TICKET, 5)]);
    sound::<D>(&[(READS_STATE + TICKET, 7), (READS_STATE_TOO + TICKET, 5), (READS_STATE + PRIORITY, 6)]);
}

/// No clause but 01's: sets too far apart, an old stamp under a fresh reading, a reading's amount below the carried error.
fn nothing_more<D: Desk>() {
    sound::<D>(&[(ADD + METHOD, u32::from(REPORT_USED)), (ADD + VALUE, BILLION), (REPORT + VALUE, minus(BILLION))]);
    sound::<D>(&[(CLOCK, u32::MAX), (READING + FLAG, 1)]);
    sound::<D>(&[(USED + AMOUNT, 1_000), (READING + SLOT_AMOUNT, 0)]);
    sound::<D>(&[
        (ADD + METHOD, u32::from(READ_STATE)),
        (ADD + VALUE, 0),
        (ADD + MEASURED, 0),
        (ADD + SLOT_TOLD, 300),
        (SETS_STATE + METHOD, u32::from(READ_LOAD)),
        (SETS_STATE + VALUE, 0),
        (SETS_STATE + MEASURED, 0),
    ]);
}

/// Eight active, eight waiting: sound, and what waits is not held to what is active.
fn every_slot_taken<D: Desk>() {
    let mut desk = D::opened(0, 0);
    assert_eq!(desk.claim(write(SET_STATE, 9, 0)), granted(1, 0, 0));
    for ticket in 2..=8 {
        assert_eq!(desk.claim(read(READ_USED, 0)), granted(ticket, 0, 0));
    }
    for ticket in 9..=16 {
        assert_eq!(desk.claim(read(READ_STATE, 0)), waits(ticket));
    }
    assert_eq!(desk.release(0, 0), refused(21));
    assert_eq!(desk.damaged(&[(ACTIVE_COUNT, 9)]).release(0, 0), refused(14));
    assert_eq!(desk.damaged(&[(WAITING_COUNT, 9)]).release(0, 0), refused(14));
    assert_eq!(desk.release(0, 8), released(8, &[]));
    // six are left: two places
    assert_eq!(desk.release(0, 1), released(1, &[(9, 9, 0), (10, 9, 0)]));
}
