//! The border: boards read and compared, answers and records in bytes.

use super::*;

/// A run with several disks, claims active and waiting.
fn busy() -> Run {
    let mut run = Run::usual();
    run.call(&record::open(0, 7, 0, 2_000_000_000));
    run.call(&record::open(63, 9, 5, 6));
    run.claim(report_used(-40).own(2));
    run.claim(read_load(100));
    run.claim(set_state(9));
    run.claim(read_state(0).fresh());
    run.claim(add_promised(-20));
    run.claim(set_promised(20));
    run
}

#[test]
fn read_and_differs_round_trip() {
    let run = busy();
    let board = run.board();
    assert_eq!(run.desk.differs(&board, None), None);
    let again = Desk::read(&board);
    assert_eq!(again.differs(&board, None), None);
    for disk in 0..64 {
        assert_eq!(again.disk(disk), run.desk.disk(disk));
        assert_eq!(again.differs(&board, Some(disk)), None);
    }
    assert_eq!(again.open_count(), 3);
    assert!(Desk::empty().differs(&vec![0; BOARD], None).is_none());
}

#[test]
fn every_byte_of_an_open_part_is_compared() {
    let run = busy();
    let board = run.board();
    for at in 0..BOARD {
        let mut damaged = board.clone();
        damaged[at] ^= 1;
        let disk = (at.max(64) - 64) / 768;
        let compared = at < 8 || (at >= 64 && [0, 3, 63].contains(&disk));
        assert_eq!(
            run.desk.differs(&damaged, None).is_some(),
            compared,
            "byte {at}"
        );
        if at >= 64 {
            let other = Some((disk + 1) % 64);
            assert_eq!(run.desk.differs(&damaged, other), None);
        }
    }
}

#[test]
fn differences_are_named() {
    let run = busy();
    let named = |at: usize, byte: u8, only| {
        let mut board = run.board();
        board[at] = byte;
        run.desk.differs(&board, only).unwrap()
    };
    let part = 64 + 3 * 768;
    assert_eq!(named(0, 8, None), "disk 0, open bit: expected 1, found 0");
    assert_eq!(
        named(7, 129, Some(3)),
        "disk 56, open bit: expected 0, found 1"
    );
    assert_eq!(
        named(part + 24, 3, None),
        "disk 3, used amount (byte 24 of the part): expected 2, found 3"
    );
    assert_eq!(
        named(part + 64 + 20, 0xD9, Some(3)),
        "disk 3, active slot 0 value (byte 84 of the part): expected -40, found -39"
    );
    assert_eq!(
        named(part + 416 + 44 + 36, 1, None),
        "disk 3, waiting slot 1 zero word (byte 496 of the part): expected 0, found 1"
    );
    let short = run.desk.differs(&[0; 7], None);
    assert_eq!(short.unwrap(), "board length: expected 49216, found 7");
}

#[test]
fn an_unsound_part_is_kept_and_refused_until_it_is_read_again() {
    let mut run = busy();
    let whole = run.board();
    let mut board = whole.clone();
    board[64 + 3 * 768 + 60] = 1;
    run.desk.read_disk(&board, 3);
    run.watch.forget(3);
    assert!(run.desk.disk(3).is_none());
    assert_eq!(run.desk.open_count(), 3);
    assert_eq!(run.claim(read_used(9)), refused(14));
    assert_eq!(run.board(), board);
    assert_eq!(run.desk.differs(&board, None), None);
    let text = run.desk.differs(&whole, None).unwrap();
    assert_eq!(
        text,
        "disk 3, unsound, zero word (byte 60 of the part): expected 1, found 0"
    );
    run.desk.read_disk(&whole, 3);
    assert!(matches!(run.release(2, 0), Outcome::Accepted(_)));
}

#[test]
fn a_closed_part_may_hold_anything_and_an_open_rewrites_it() {
    let mut board = vec![0xA5; BOARD];
    board[..8].fill(0);
    let mut run = Run::empty();
    run.desk = Desk::read(&board);
    assert_eq!(run.desk.open_count(), 0);
    assert_eq!(run.desk.differs(&board, None), None);
    assert_eq!(run.claim(read_used(0)), refused(13));
    assert_eq!(run.call(&record::open(DISK, 5, 6, 7)), opened());
    assert!(run.desk.differs(&board, None).is_some());
    let expected = Disk::opened(5, 6, 7);
    assert_eq!(run.disk(), &expected);
    let part = encode(&expected);
    let words: Vec<u32> = part
        .chunks(4)
        .take(16)
        .map(|w| u32::from_le_bytes(w.try_into().unwrap()))
        .collect();
    assert_eq!(words, [5, 1, 0, 0, 0, 5, 0, 6, 0, 5, 0, 7, 0, 5, 0, 0]);
    assert!(part[64..].iter().all(|&byte| byte == 0));
    // All bits set, all bytes 0xA5: open, not sound.
    board[..8].fill(0xFF);
    let desk = Desk::read(&board);
    assert_eq!(desk.open_count(), 64);
    assert_eq!(desk.differs(&board, None), None);
}

#[test]
fn a_claim_in_its_slot() {
    let mut run = Run::usual();
    run.claim(report_used(-2).own(3).priority(200).at(90).measured(80));
    run.claim(read_used(70).fresh().priority(1).at(91));
    let part = encode(run.disk());
    let words = |at: usize| -> Vec<i32> {
        part[at..at + 44]
            .chunks(4)
            .map(|w| i32::from_le_bytes(w.try_into().unwrap()))
            .collect()
    };
    assert_eq!(words(64), [1, 0, 200, 0, 80, -2, 3, 0, 0, 0, 0]);
    assert_eq!(words(108), [2, 4, 1, 1, 0, 0, 70, 0, 5, 0, 0]);
    run.claim(set_state(1).at(92));
    run.claim(read_state(7).at(93));
    let part = encode(run.disk());
    let slot = |at: usize| i32::from_le_bytes(part[at..at + 4].try_into().unwrap());
    let waiting: Vec<i32> = (0..11).map(|k| slot(416 + 4 * k)).collect();
    assert_eq!(waiting, [4, 6, 5, 0, 0, 0, 7, 0, 0, 0, 0]);
}

#[test]
fn the_answer_in_bytes() {
    let outcome = Outcome::Accepted(vec![item(2, 5, 0, 0), item(0, 999_999, -3, 70_000)]);
    let answer = outcome.answer().unwrap();
    let start = [
        2, 0, 0, 0, 5, 0, 0, 0, 0, 0, 0, 0, 0, 0, 0, 0, //
        0, 0, 0, 0, 0x3F, 0x42, 0x0F, 0, 0xFD, 0xFF, 0xFF, 0xFF, 0x70, 0x11, 1, 0,
    ];
    assert_eq!(answer[..32], start);
    assert!(answer[32..].iter().all(|&byte| byte == 0));
    assert_eq!(outcome.code(), 2);
    assert_eq!(opened().answer().unwrap()[..4], [3, 0, 0, 0]);
}

#[test]
fn records_in_bytes() {
    assert_eq!(
        record::open(9, 0x01020304, 5, 6),
        [0x52, 0x42, 1, 9, 0, 0, 0, 0, 4, 3, 2, 1, 0, 0, 0, 0, 5, 0, 0, 0, 6, 0, 0, 0]
    );
    let claim = add_promised(-2).own(7).priority(255).at(8).measured(6);
    assert_eq!(
        record::claim(&claim),
        [0x52, 0x42, 2, 3, 1, 255, 0, 0, 8, 0, 0, 0, 6, 0, 0, 0, 254, 255, 255, 255, 7, 0, 0, 0]
    );
    assert_eq!(
        record::release(63, 1, 258),
        [0x52, 0x42, 3, 63, 0, 0, 0, 0, 1, 0, 0, 0, 2, 1, 0, 0, 0, 0, 0, 0, 0, 0, 0, 0]
    );
}
