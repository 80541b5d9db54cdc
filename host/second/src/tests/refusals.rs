//! Every refusal on both sides of its edge, and in its order against its neighbours.

use super::*;

const OPEN: fn() -> [u8; 24] = || record::open(DISK, 0, 1_000, 1_000);

/// A record with one byte changed.
fn with(mut record: [u8; 24], at: usize, byte: u8) -> [u8; 24] {
    record[at] = byte;
    record
}

fn refusal(run: &mut Run, record: &[u8]) -> u32 {
    match run.call(record) {
        Outcome::Refused(number) => number,
        other => panic!("not refused: {other:?}"),
    }
}

/// Disk 3 with the next ticket changed by hand.
fn next_ticket(next: i64) -> Run {
    let mut run = Run::usual();
    let mut disk = run.disk().clone();
    disk.next_ticket = next;
    run.put(&disk);
    run
}

/// SetState active, eight ReadState waiting.
fn eight_wait() -> Run {
    let mut run = Run::usual();
    run.claim(set_state(1));
    for ticket in 2..=9 {
        assert_eq!(run.claim(read_state(0)), waits(ticket));
    }
    run
}

#[test]
fn nine_alone_and_before_all() {
    let mut desk = Desk::empty();
    for (board, answer) in [
        (0, 144),
        (49_215, 144),
        (49_217, 144),
        (49_216, 143),
        (49_216, 145),
    ] {
        assert_eq!(desk.step(board, &OPEN(), answer), Outcome::Nine);
        assert_eq!(desk.step(board, &[1, 2, 3], answer), Outcome::Nine);
    }
    assert_eq!(Outcome::Nine.answer(), None);
    assert_eq!(Outcome::Nine.code(), 9);
    assert_eq!(desk.open_count(), 0);
    assert_eq!(desk.step(49_216, &OPEN(), 144), opened());
}

#[test]
fn ten_by_length_mark_and_kind() {
    let mut run = Run::empty();
    let long = [&OPEN()[..], &[0]].concat();
    assert_eq!(refusal(&mut run, &long), 10);
    assert_eq!(refusal(&mut run, &OPEN()[..23]), 10);
    assert_eq!(refusal(&mut run, &[]), 10);
    for (at, byte) in [(0, 0x53), (1, 0x43), (2, 0), (2, 4), (7, 1)] {
        assert_eq!(refusal(&mut run, &with(OPEN(), at, byte)), 10);
    }
    // The kind decides what is unused: an open's bytes read as a release's are not zero.
    assert_eq!(refusal(&mut run, &with(OPEN(), 2, 3)), 10);
    assert_eq!(run.call(&OPEN()), opened());
}

#[test]
fn ten_by_unused_bytes() {
    for at in 4..24 {
        let used_by_open = (8..12).contains(&at) || at >= 16;
        let code = Run::empty().call(&with(OPEN(), at, 1)).code();
        assert_eq!(code, if used_by_open { 3 } else { 10 }, "open, byte {at}");

        let used_by_release = (8..16).contains(&at);
        let release = with(record::release(DISK, 0, 0), at, 1);
        let code = Run::empty().call(&release).code();
        assert_eq!(
            code,
            if used_by_release { 13 } else { 10 },
            "release, byte {at}"
        );

        let claim = with(record::claim(&report_used(0)), at, 1);
        let code = Run::empty().call(&claim).code();
        assert_eq!(code, if at == 7 { 10 } else { 13 }, "claim, byte {at}");
    }
    let flag = |flag| {
        record::claim(&Fields {
            flag,
            ..read_used(0)
        })
    };
    assert_eq!(refusal(&mut Run::usual(), &flag(2)), 10);
    assert_eq!(Run::usual().call(&flag(1)), granted(1, 0, 0));
    // 10 before 11 and 13
    let far = record::claim(&Fields {
        flag: 2,
        disk: 200,
        ..read_used(0)
    });
    assert_eq!(refusal(&mut Run::empty(), &far), 10);
}

#[test]
fn eleven_and_twelve_and_thirteen() {
    let mut run = Run::empty();
    assert_eq!(refusal(&mut run, &record::open(64, 0, 0, 0)), 11);
    assert_eq!(refusal(&mut run, &record::open(64, 0, u32::MAX, 0)), 11);
    assert_eq!(refusal(&mut run, &record::release(255, 0, 0)), 11);
    assert_eq!(run.call(&record::open(63, 0, 0, 0)), opened());
    assert_eq!(refusal(&mut run, &record::open(63, 0, 0, 0)), 12);
    // 12 before 17
    assert_eq!(refusal(&mut run, &record::open(63, 0, u32::MAX, 0)), 12);
    // 12, not 15: an open looks at no clock
    run.call(&record::open(5, 100, 0, 0));
    assert_eq!(refusal(&mut run, &record::open(5, 1, 0, 0)), 12);
    // 13 before 14 to 17
    assert_eq!(refusal(&mut run, &record::claim(&read_used(0))), 13);
    assert_eq!(refusal(&mut run, &record::claim(&write(9, 1))), 13);
    assert_eq!(
        refusal(
            &mut run,
            &record::claim(&Fields {
                value: 1,
                ..read_used(0)
            })
        ),
        13
    );
    assert_eq!(refusal(&mut run, &record::release(DISK, 0, 1)), 13);
}

#[test]
fn fourteen_before_fifteen_and_sixteen_not_for_open() {
    let mut run = Run::opened_at(100, 1_000, 1_000);
    let zero = [0; 768];
    run.put_part(DISK, &zero);
    assert_eq!(run.desk.open_count(), 1);
    assert_eq!(refusal(&mut run, &record::claim(&read_used(0).at(100))), 14);
    assert_eq!(refusal(&mut run, &record::claim(&write(9, 0).at(1))), 14);
    assert_eq!(refusal(&mut run, &record::release(DISK, 0, 1)), 14);
    assert_eq!(refusal(&mut run, &OPEN()), 12);
}

#[test]
fn fifteen_before_sixteen_seventeen_and_twentyone() {
    let run = || Run::opened_at(100, 1_000, 1_000);
    assert_eq!(
        refusal(&mut run(), &record::claim(&read_used(0).at(99))),
        15
    );
    assert_eq!(refusal(&mut run(), &record::claim(&write(7, 0).at(99))), 15);
    let odd = Fields {
        value: 1,
        ..read_used(0)
    };
    assert_eq!(refusal(&mut run(), &record::claim(&odd.at(99))), 15);
    assert_eq!(refusal(&mut run(), &record::release(DISK, 99, 9)), 15);
    assert_eq!(refusal(&mut run(), &record::release(DISK, 100, 9)), 21);
    assert_eq!(run().claim(read_used(0).at(100)), granted(1, 0, 0));
}

#[test]
fn sixteen_before_seventeen() {
    for method in [7, 8, 255] {
        let wild = write(method, i32::MIN).own(u32::MAX);
        assert_eq!(Run::usual().claim(wild), refused(16));
    }
    assert_eq!(Run::usual().claim(write(6, 0)), granted(1, 0, 0));
}

#[test]
fn seventeen_values() {
    for method in 0..3 {
        for value in [1_000_000_000, -1_000_000_000] {
            let edge = write(method, value);
            assert_eq!(Run::usual().claim(edge), granted(1, 0, 0));
        }
        for value in [1_000_000_001, -1_000_000_001, i32::MIN, i32::MAX] {
            assert_eq!(Run::usual().claim(write(method, value)), refused(17));
        }
    }
    for value in [0, 255] {
        assert_eq!(Run::usual().claim(set_state(value)), granted(1, 0, 0));
    }
    for value in [-1, 256, i32::MIN] {
        assert_eq!(Run::usual().claim(set_state(value)), refused(17));
    }
    for method in 4..7 {
        for value in [1, -1, i32::MIN] {
            assert_eq!(Run::usual().claim(write(method, value)), refused(17));
        }
    }
}

#[test]
fn seventeen_errors_limits_seconds_and_flag() {
    let most = 2_000_000_000;
    let wide = || Run::opened_at(0, most, most);
    for method in 0..3 {
        assert_eq!(
            wide().claim(write(method, 0).own(most)),
            granted(1, 0, most)
        );
        assert_eq!(wide().claim(write(method, 0).own(most + 1)), refused(17));
    }
    // 17 before 18
    assert_eq!(
        Run::usual().claim(report_used(0).own(most + 1)),
        refused(17)
    );
    assert_eq!(Run::usual().claim(report_used(0).own(most)), refused(18));
    assert_eq!(wide().claim(set_state(0).own(most + 1)), refused(17));
    for method in 4..7 {
        assert_eq!(wide().claim(write(method, 0).own(most)), granted(1, 0, 0));
        assert_eq!(wide().claim(write(method, 0).own(most + 1)), refused(17));
        let measured = write(method, 0).at(10).measured(1);
        assert_eq!(wide().claim(measured), refused(17));
    }
    for method in 0..4 {
        let measured = |second| write(method, 1).at(10).measured(second);
        assert_eq!(wide().claim(measured(11)), refused(17));
        assert_eq!(wide().claim(measured(10)), granted(1, 0, 0));
        assert_eq!(wide().claim(write(method, 1).fresh()), refused(17));
    }
    for (used, promised) in [(most + 1, 0), (0, most + 1), (u32::MAX, u32::MAX)] {
        let mut run = Run::empty();
        assert_eq!(
            refusal(&mut run, &record::open(DISK, 0, used, promised)),
            17
        );
        assert_eq!(run.desk.open_count(), 0);
    }
}

#[test]
fn eighteen_each_attribute_and_before_nineteen() {
    let start = || Run::opened_at(0, 10, 20);
    for (method, limit) in [(0, 10), (1, 20), (2, 20), (3, 0)] {
        assert_eq!(
            start().claim(write(method, 1).own(limit)),
            granted(1, 0, limit)
        );
        assert_eq!(start().claim(write(method, 1).own(limit + 1)), refused(18));
    }
    assert_eq!(
        next_ticket(1_000_000).claim(set_state(1).own(1)),
        refused(18)
    );
}

#[test]
fn nineteen_before_twenty_and_before_the_decision() {
    let mut run = next_ticket(999_999);
    assert_eq!(run.claim(read_used(0)), granted(999_999, 0, 0));
    assert_eq!(run.disk().next_ticket, 1_000_000);
    assert_eq!(run.claim(read_used(0)), refused(19));
    assert_eq!(run.release(999_999, 0), released(999_999, &[]));
    assert_eq!(run.claim(read_used(0)), refused(19));
    let mut run = eight_wait();
    let mut disk = run.disk().clone();
    disk.next_ticket = 1_000_000;
    run.put(&disk);
    assert_eq!(run.claim(read_state(0)), refused(19));
}

#[test]
fn twenty_only_where_it_would_wait() {
    let mut run = eight_wait();
    assert_eq!(run.claim(read_state(0).at(50)), refused(20));
    assert_eq!(run.claim(read_used(0).at(10)), granted(10, 0, 0));
    assert_eq!(run.release(9, 10), released(9, &[]));
    assert_eq!(run.claim(read_state(0).at(10)), waits(11));
}

#[test]
fn twentyone_any_ticket_that_is_not_there() {
    let mut run = Run::usual();
    run.claim(set_state(1));
    assert_eq!(run.claim(set_state(2)), waits(2));
    for ticket in [0, 3, 999_999, 1_000_000, u32::MAX] {
        assert_eq!(run.release(ticket, 7), refused(21));
    }
    assert_eq!(run.release(2, 0), released(2, &[]));
    assert_eq!(run.release(2, 0), refused(21));
    assert_eq!(run.release(1, 0), released(1, &[]));
    assert_eq!(run.release(1, 0), refused(21));
    assert_eq!(run.disk().attributes[2].value, 1);
}

#[test]
fn the_answer_of_a_refusal_is_its_number() {
    for number in 10..=21u32 {
        let mut bytes = [0; 144];
        bytes[0] = number as u8;
        assert_eq!(refused(number).answer(), Some(bytes));
        assert_eq!(refused(number).code(), number);
    }
}
