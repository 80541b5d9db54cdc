//! Every refusal, 9 to 21, on each edge, and each against those behind it in 01's order. The low-level call is tried
//! with bytes that the typed crate cannot make; where both can ask, both are tried. Each call through [`Low`] is also
//! held to leave the board, and to put only its number in the answer.

mod common;
use common::*;
use stopblocker::step;

const MOST_VALUE: i32 = 1_000_000_000;
const MOST_ERROR: u32 = 2_000_000_000;

// Places in the part.
const NEXT_TICKET: usize = 4;
const WAITING_COUNT: usize = 12;

both!(
    refused_12,
    refused_13,
    refused_14,
    refused_15,
    refused_17_values,
    refused_17_errors,
    refused_17_readings,
    refused_17_writes,
    refused_17_open,
    refused_18,
    refused_19,
    refused_20,
    refused_21,
);

/// 9: board or answer buffer of another length; neither is touched.
#[test]
fn refused_9() {
    let good = open_record(DISK, 0, 1_000, 1_000);
    let bad = [0; 3];
    for record in [&good[..], &bad[..]] {
        for (board_len, answer_len) in [
            (0, ANSWER),
            (BOARD - 1, ANSWER),
            (BOARD + 1, ANSWER),
            (2 * BOARD, ANSWER),
            (BOARD, 0),
            (BOARD, ANSWER - 1),
            (BOARD, ANSWER + 1),
            (BOARD, 2 * ANSWER),
            (0, 0),
            (ANSWER, BOARD),
        ] {
            let mut board = vec![0xa5; board_len];
            let mut answer = vec![0x5a; answer_len];
            assert_eq!(step(&mut board, record, &mut answer), 9, "{board_len} {answer_len}");
            assert_eq!(board, vec![0xa5; board_len]);
            assert_eq!(answer, vec![0x5a; answer_len]);
        }
    }
}

/// 10: record not 24 bytes, wrong mark or kind, flag over 1, an unused byte or byte 7 not zero. On an open disk, and
/// with a disk above 63, a closed one and a now too early behind it.
#[test]
fn refused_10() {
    let mut desk = Low::opened(1_000, 1_000);
    assert_eq!(desk.claim(read(READ_STATE, 0).at(50)), granted(1, 0, 0));
    for (disk, now) in [(DISK, 50), (DISK, 49), (DISK + 1, 50), (64, 50), (255, 50)] {
        let open = open_record(disk, now, 1_000, 1_000);
        let claim = write(REPORT_USED, 7, 1).on(disk).at(now).record();
        let reading = read(READ_USED, 7).on(disk).at(now).fresh().record();
        let release = release_record(disk, now, 1);
        let all = [open, claim, reading, release];
        for record in all {
            assert_ne!(desk_like(&desk).call(&record), refused(10), "{record:?}");
            assert_eq!(desk.call(&record[..23]), refused(10));
            assert_eq!(desk.call(&[&record[..], &[0]].concat()), refused(10));
            assert_eq!(desk.call(&[]), refused(10));
            for (at, byte) in [(0, 0x53), (0, 0), (1, 0x43), (1, 0), (2, 0), (2, 4), (2, 255), (7, 1), (7, 255)] {
                assert_eq!(desk.call(&with(record, at, byte)), refused(10), "byte {at} = {byte}");
            }
            assert_eq!(desk.call(&with(with(record, 0, 0x42), 1, 0x52)), refused(10));
        }
        for byte in [2, 3, 128, 255] {
            assert_eq!(desk.call(&with(claim, 6, byte)), refused(10));
            assert_eq!(desk.call(&with(reading, 6, byte)), refused(10));
        }
        for byte in [1, 128, 255] {
            for at in (4..=6).chain(12..=15) {
                assert_eq!(desk.call(&with(open, at, byte)), refused(10), "open, byte {at}");
            }
            for at in (4..=6).chain(16..=23) {
                assert_eq!(desk.call(&with(release, at, byte)), refused(10), "release, byte {at}");
            }
        }
    }
}

fn with(mut record: [u8; 24], at: usize, byte: u8) -> [u8; 24] {
    record[at] = byte;
    record
}

fn desk_like(desk: &Low) -> Low {
    Low::of(desk.board.clone())
}

/// 11: disk above 63. Before 12 and 13, and before all that is in the record behind it.
#[test]
fn refused_11() {
    let mut desk = Low::of(vec![0xff; BOARD]);
    for disk in [64, 65, 128, 255] {
        assert_eq!(desk.call(&open_record(disk, 0, u32::MAX, 0)), refused(11));
        assert_eq!(desk.claim(read(READ_USED, 0).on(disk)), refused(11));
        assert_eq!(desk.claim(write(9, i32::MIN, u32::MAX).on(disk)), refused(11));
        assert_eq!(desk.call(&release_record(disk, 0, 1)), refused(11));
    }
    let mut desk = Low::of(vec![0; BOARD]);
    assert_eq!(desk.claim(read(READ_USED, 0).on(63)), refused(13));
    assert_eq!(desk.call(&open_record(63, 0, 1, 1)), opened());
    assert_eq!(desk.call(&open_record(0, 0, 1, 1)), opened());
}

/// 12: open of an open disk. Before 17; an unsound part and an early second are nothing to an open.
fn refused_12<D: Desk>() {
    let mut desk = D::opened(1_000, 1_000);
    assert_eq!(desk.claim(read(READ_USED, 0).at(50)), granted(1, 0, 0));
    assert_eq!(desk.open(50, 1_000, 1_000), refused(12));
    assert_eq!(desk.open(49, 1_000, 1_000), refused(12));
    assert_eq!(desk.open(50, MOST_ERROR + 1, 1_000), refused(12));
    assert_eq!(desk.damaged(&[(NEXT_TICKET, 0)]).open(50, 1_000, 1_000), refused(12));
}

/// 13: claim or release on a closed disk. Before 14 to 21: the part of a closed disk is not looked at.
fn refused_13<D: Desk>() {
    for byte in [0, 0xff] {
        let mut board = vec![byte; BOARD];
        board[..64].fill(0xff);
        board[0] = 0b1111_0111;
        let mut desk = D::of(board);
        assert_eq!(desk.claim(read(READ_USED, 0)), refused(13));
        assert_eq!(desk.claim(write(REPORT_USED, i32::MIN, u32::MAX)), refused(13));
        assert_eq!(desk.release(0, 1), refused(13));
        assert_eq!(desk.open(0, 1, 1), opened());
        assert_eq!(desk.claim(read(READ_USED, 0)), granted(1, 0, 0));
    }
}

#[test]
fn refused_13_before_16() {
    for method in [7, 9, 255] {
        assert_eq!(Low::of(vec![0; BOARD]).claim(read(method, 0)), refused(13));
    }
}

/// 14: the disk's part isn't sound. Before 15, 17, 19 and 21; only for the disk whose part it is. (Each clause has its
/// test in sound.rs.)
fn refused_14<D: Desk>() {
    let mut desk = D::opened(1_000, 1_000);
    assert_eq!(desk.claim(read(READ_USED, 0).at(50)), granted(1, 0, 0));
    let unsound = || desk.damaged(&[(NEXT_TICKET, 1_000_001)]);
    assert_eq!(unsound().claim(read(READ_USED, 0).at(50)), refused(14));
    assert_eq!(unsound().claim(read(READ_USED, 0).at(49)), refused(14));
    assert_eq!(unsound().claim(write(REPORT_USED, i32::MIN, 0).at(50)), refused(14));
    assert_eq!(unsound().release(50, 1), refused(14));
    assert_eq!(unsound().release(49, 1), refused(14));
    assert_eq!(unsound().release(50, 2), refused(14));
    assert_eq!(unsound().claim(read(READ_USED, 0).on(DISK + 1)), refused(13));
}

#[test]
fn refused_14_before_16() {
    let mut desk = Low::opened(1_000, 1_000).damaged(&[(NEXT_TICKET, 0)]);
    assert_eq!(desk.claim(read(9, 0)), refused(14));
}

/// 15: now below the disk's clock. Before 17, 18, 19, 20 and 21. Refused calls leave the clock, waits move it.
fn refused_15<D: Desk>() {
    let clocked = || {
        let mut desk = D::of(vec![0; BOARD]);
        assert_eq!(desk.open(100, 1_000, 1_000), opened());
        desk
    };
    assert_eq!(clocked().claim(read(READ_USED, 0).at(99)), refused(15));
    assert_eq!(clocked().claim(read(READ_USED, 0).at(0)), refused(15));
    assert_eq!(clocked().claim(read(READ_USED, 0).at(100)), granted(1, 0, 0));
    assert_eq!(clocked().claim(write(REPORT_USED, 0, 1_001).at(99)), refused(15));
    assert_eq!(clocked().claim(write(REPORT_USED, MOST_VALUE + 1, 0).at(99)), refused(15));
    assert_eq!(clocked().release(99, 1), refused(15));
    assert_eq!(clocked().release(100, 1), refused(21));
    let mut last = clocked().damaged(&[(NEXT_TICKET, 1_000_000)]);
    assert_eq!(last.claim(read(READ_USED, 0).at(99)), refused(15));

    let mut full: D = eight_wait();
    assert_eq!(full.claim(read(READ_USED, 0).at(100)), granted(10, 0, 0));
    assert_eq!(full.claim(read(READ_STATE, 0).at(99)), refused(15));

    let mut desk = clocked();
    assert_eq!(desk.release(200, 9), refused(21));
    assert_eq!(desk.claim(write(SET_STATE, 1, 0).at(150)), granted(1, 0, 0));
    assert_eq!(desk.claim(read(READ_STATE, 0).at(160)), waits(2));
    assert_eq!(desk.claim(read(READ_USED, 0).at(159)), refused(15));
    assert_eq!(desk.release(159, 2), refused(15));
    assert_eq!(desk.release(170, 2), released(2, &[]));
    assert_eq!(desk.claim(read(READ_USED, 0).at(169)), refused(15));
    assert_eq!(desk.claim(read(READ_USED, 0).at(u32::MAX)), granted(3, 0, 0));
    assert_eq!(desk.claim(read(READ_USED, 0).at(u32::MAX - 1)), refused(15));
}

#[test]
fn refused_15_before_16() {
    let mut desk = Low::of(vec![0; BOARD]);
    assert_eq!(desk.open(100, 1_000, 1_000), opened());
    assert_eq!(desk.claim(read(9, 0).at(99)), refused(15));
}

/// 16: method above 6. Before 17, 18 (no attribute to have a limit) and 19.
#[test]
fn refused_16() {
    for method in 7..=255 {
        let mut desk = Low::opened(0, 0);
        assert_eq!(desk.claim(read(method, 0)), refused(16));
        assert_eq!(desk.claim(write(method, i32::MIN, u32::MAX).measured(1)), refused(16));
        assert_eq!(desk.claim(read(method, 1).fresh()), refused(16));
        let mut last = desk.damaged(&[(NEXT_TICKET, 1_000_000)]);
        assert_eq!(last.claim(read(method, 0)), refused(16));
    }
    for method in 0..=6 {
        assert_eq!(Low::opened(0, 0).claim(read(method, 0)), granted(1, 0, 0));
    }
}

/// 17, values: used, promised and amounts to add within ±1,000,000,000; −2^31 too is only out of range.
fn refused_17_values<D: Desk>() {
    for method in [REPORT_USED, ADD_PROMISED, SET_PROMISED] {
        for value in [MOST_VALUE, -MOST_VALUE] {
            assert_eq!(D::opened(1, 1).claim(write(method, value, 0)), granted(1, 0, 0));
        }
        for value in [MOST_VALUE + 1, -MOST_VALUE - 1, i32::MAX, i32::MIN, i32::MIN + 1] {
            assert_eq!(D::opened(1, 1).claim(write(method, value, 0)), refused(17), "{method} {value}");
        }
    }
    for code in [0, 255] {
        assert_eq!(D::opened(1, 1).claim(write(SET_STATE, code, 0)), granted(1, 0, 0));
    }
}

#[test]
fn refused_17_state() {
    for code in [-1, 256, MOST_VALUE, i32::MIN] {
        assert_eq!(Low::opened(1, 1).claim(write(SET_STATE, code, 0)), refused(17));
    }
}

/// 17, own errors: 0 to 2,000,000,000; before 18 and 19.
fn refused_17_errors<D: Desk>() {
    for method in [REPORT_USED, ADD_PROMISED, SET_PROMISED] {
        let wide = || D::opened(MOST_ERROR, MOST_ERROR);
        assert_eq!(wide().claim(write(method, 0, MOST_ERROR)), granted(1, 0, MOST_ERROR));
        for error in [MOST_ERROR + 1, u32::MAX] {
            assert_eq!(wide().claim(write(method, 0, error)), refused(17));
            assert_eq!(D::opened(1, 1).claim(write(method, 0, error)), refused(17));
            let mut last = D::opened(1, 1).damaged(&[(NEXT_TICKET, 1_000_000)]);
            assert_eq!(last.claim(write(method, 0, error)), refused(17));
        }
        assert_eq!(D::opened(1, 1).claim(write(method, 0, MOST_ERROR)), refused(18));
    }
}

#[test]
fn refused_17_state_error() {
    assert_eq!(Low::opened(1, 1).claim(write(SET_STATE, 0, MOST_ERROR + 1)), refused(17));
    assert_eq!(Low::opened(1, 1).claim(write(SET_STATE, 256, 1)), refused(17));
    assert_eq!(Low::opened(1, 1).claim(write(SET_STATE, 0, MOST_ERROR)), refused(18));
}

/// 17, readings: the stated limit 0 to 2,000,000,000, no second of measuring.
fn refused_17_readings<D: Desk>() {
    for method in [READ_USED, READ_LOAD] {
        assert_eq!(D::opened(1, 1).claim(read(method, MOST_ERROR)), granted(1, 0, 0));
        for limit in [MOST_ERROR + 1, u32::MAX] {
            assert_eq!(D::opened(1, 1).claim(read(method, limit)), refused(17));
        }
    }
    for method in [READ_USED, READ_LOAD, READ_STATE] {
        assert_eq!(D::opened(1, 1).claim(read(method, 0).at(5)), granted(1, 0, 0));
        for second in [1, 5, u32::MAX] {
            assert_eq!(D::opened(1, 1).claim(read(method, 0).measured(second).at(5)), refused(17));
        }
        let mut last = D::opened(1, 1).damaged(&[(NEXT_TICKET, 1_000_000)]);
        assert_eq!(last.claim(read(method, 0).measured(1).at(5)), refused(17));
    }
}

#[test]
fn refused_17_reading_with_value() {
    for method in [READ_USED, READ_LOAD, READ_STATE] {
        for value in [1, -1, 256, i32::MIN] {
            assert_eq!(Low::opened(1, 1).claim(read(method, 0).value(value)), refused(17));
        }
    }
    assert_eq!(Low::opened(1, 1).claim(read(READ_STATE, MOST_ERROR)), granted(1, 0, 0));
    assert_eq!(Low::opened(1, 1).claim(read(READ_STATE, MOST_ERROR + 1)), refused(17));
}

/// 17, writes: none with the fresh flag, none measured after now.
fn refused_17_writes<D: Desk>() {
    for method in [REPORT_USED, ADD_PROMISED, SET_PROMISED, SET_STATE] {
        let ask = write(method, 1, 0).at(10);
        assert_eq!(D::opened(1, 1).claim(ask.measured(0)), granted(1, 0, 0));
        assert_eq!(D::opened(1, 1).claim(ask.measured(10)), granted(1, 0, 0));
        assert_eq!(D::opened(1, 1).claim(ask.measured(11)), refused(17));
        assert_eq!(D::opened(1, 1).claim(ask.measured(u32::MAX)), refused(17));
        assert_eq!(D::opened(1, 1).claim(ask.fresh()), refused(17));
    }
    assert_eq!(D::opened(1, 1).claim(write(REPORT_USED, 1, 2).fresh()), refused(17));
    assert_eq!(D::opened(1, 1).claim(write(REPORT_USED, 1, 2).measured(1)), refused(17));
}

/// 17, open: both limits 0 to 2,000,000,000. The disk stays closed.
fn refused_17_open<D: Desk>() {
    let mut desk = D::of(vec![0; BOARD]);
    for (used, promised) in [(MOST_ERROR + 1, 0), (0, MOST_ERROR + 1), (u32::MAX, 0), (0, u32::MAX), (1 << 31, 1 << 31)]
    {
        assert_eq!(desk.open(0, used, promised), refused(17));
        assert_eq!(desk.claim(read(READ_USED, 0)), refused(13));
    }
    assert_eq!(desk.open(0, MOST_ERROR, MOST_ERROR), opened());
}

/// 18: a write whose own error exceeds its attribute's limit. Before 19.
fn refused_18<D: Desk>() {
    for (method, limit) in [(REPORT_USED, 10), (ADD_PROMISED, 20), (SET_PROMISED, 20)] {
        assert_eq!(D::opened(10, 20).claim(write(method, 0, limit)), granted(1, 0, limit));
        assert_eq!(D::opened(10, 20).claim(write(method, 0, limit + 1)), refused(18));
        let mut last = D::opened(10, 20).damaged(&[(NEXT_TICKET, 1_000_000)]);
        assert_eq!(last.claim(write(method, 0, limit + 1)), refused(18));
    }
    // amount + own error over the limit is no refusal: it waits
    let mut desk = D::opened(10, 10);
    assert_eq!(desk.claim(write(ADD_PROMISED, 1, 6)), granted(1, 0, 6));
    assert_eq!(desk.claim(write(ADD_PROMISED, 1, 5)), waits(2));
}

#[test]
fn refused_18_state() {
    assert_eq!(Low::opened(9, 9).claim(write(SET_STATE, 1, 0)), granted(1, 0, 0));
    assert_eq!(Low::opened(9, 9).claim(write(SET_STATE, 1, 1)), refused(18));
    // before 20: eight wait, and a SetState would
    let mut desk: Low = eight_wait();
    assert_eq!(desk.claim(write(SET_STATE, 1, 0)), refused(20));
    assert_eq!(desk.claim(write(SET_STATE, 1, 1)), refused(18));
    assert_eq!(desk.claim(write(SET_STATE, 256, 0)), refused(17));
}

/// 19: a claim with no ticket left, also one that would be granted, and before 20. A release still goes.
fn refused_19<D: Desk>() {
    let mut desk = D::opened(1_000, 1_000).damaged(&[(NEXT_TICKET, 999_999)]);
    assert_eq!(desk.claim(read(READ_USED, 0)), granted(999_999, 0, 0));
    assert_eq!(desk.word(NEXT_TICKET), 1_000_000);
    assert_eq!(desk.claim(read(READ_USED, 0)), refused(19));
    assert_eq!(desk.claim(write(REPORT_USED, 1, 0)), refused(19));
    assert_eq!(desk.release(0, 1_000_000), refused(21));
    assert_eq!(desk.release(0, 999_999), released(999_999, &[]));
    assert_eq!(desk.claim(read(READ_USED, 0)), refused(19));

    let mut desk: D = eight_wait();
    desk = desk.damaged(&[(NEXT_TICKET, 1_000_000)]);
    assert_eq!(desk.claim(read(READ_STATE, 0)), refused(19));
    assert_eq!(desk.claim(read(READ_USED, 0)), refused(19));
}

/// SetState active with ticket 1, eight ReadState wait with tickets 2 to 9.
fn eight_wait<D: Desk>() -> D {
    let mut desk = D::opened(1_000, 1_000);
    assert_eq!(desk.claim(write(SET_STATE, 1, 0)), granted(1, 0, 0));
    for ticket in 2..=9 {
        assert_eq!(desk.claim(read(READ_STATE, 0)), waits(ticket));
    }
    assert_eq!(desk.word(WAITING_COUNT), 8);
    desk
}

/// 20: a claim that would wait while 8 wait; one that would be granted is. A refused claim takes no ticket.
fn refused_20<D: Desk>() {
    let mut desk: D = eight_wait();
    assert_eq!(desk.claim(read(READ_STATE, 0)), refused(20));
    assert_eq!(desk.claim(read(READ_STATE, 0).priority(255)), refused(20));
    assert_eq!(desk.claim(read(READ_USED, 0)), granted(10, 0, 0));
    assert_eq!(desk.release(0, 9), released(9, &[]));
    assert_eq!(desk.claim(read(READ_STATE, 0)), waits(11));
    let grants: Vec<_> = (2..=8).map(|ticket| (ticket, 1, 0)).collect();
    assert_eq!(desk.release(0, 1), released(1, &grants));
}

/// 21: release of a ticket neither active nor waiting.
fn refused_21<D: Desk>() {
    let mut desk: D = eight_wait();
    for ticket in [0, 10, 11, 999_999, 1_000_000, u32::MAX] {
        assert_eq!(desk.release(0, ticket), refused(21));
    }
    assert_eq!(desk.release(0, 2), released(2, &[]));
    assert_eq!(desk.release(0, 2), refused(21));
    let grants: Vec<_> = (3..=9).map(|ticket| (ticket, 1, 0)).collect();
    assert_eq!(desk.release(0, 1), released(1, &grants));
    assert_eq!(desk.release(0, 1), refused(21));
    assert_eq!(desk.release(0, 3), released(3, &[]));
}
