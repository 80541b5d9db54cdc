//! Long runs by chance: every call is checked by `Run`; and the speed of the desk.

use super::*;
use std::time::Instant;

/// A small generator of numbers (xorshift).
struct Chance(u64);

impl Chance {
    fn next(&mut self) -> u64 {
        self.0 ^= self.0 << 13;
        self.0 ^= self.0 >> 7;
        self.0 ^= self.0 << 17;
        self.0
    }
    fn below(&mut self, n: u64) -> u64 {
        (self.next() >> 16) % n
    }
    fn one_of<T: Copy>(&mut self, from: &[T]) -> T {
        from[self.below(from.len() as u64) as usize]
    }
}

/// A request of small figures near the edges, now moving slowly forward.
fn request(chance: &mut Chance, number: u8, disk: &Disk) -> [u8; 24] {
    let later = chance.one_of(&[0, 0, 0, 0, 0, 0, 1, 1, 2, 40, 299, 300]);
    let early = chance.one_of(&[0, 0, 0, 0, 0, 0, 0, 0, 0, 0, 0, 1]);
    let at = (disk.clock as u32 + later).saturating_sub(early);
    let held: Vec<i64> = disk
        .active
        .iter()
        .chain(&disk.waiting)
        .map(|c| c.ticket)
        .collect();
    if chance.below(16) <= held.len() as u64 {
        let ticket = match chance.below(20) {
            0 => disk.next_ticket,
            _ if held.is_empty() => 0,
            _ => chance.one_of(&held),
        };
        return record::release(number, at, ticket as u32);
    }
    let method = chance.one_of(&[0, 0, 1, 1, 1, 2, 3, 4, 4, 5, 5, 5, 6, 6, 7]);
    let reads = method >= 4;
    let value = match method {
        3 => chance.below(257) as i32,
        _ if reads => chance.one_of(&[0, 0, 0, 0, 0, 0, 0, 0, 0, 1]),
        _ if chance.below(40) == 0 => chance.one_of(&[1_000_000_000, -1_000_000_000, i32::MIN]),
        _ => chance.below(41) as i32 - 20,
    };
    let error = match method {
        3 => chance.one_of(&[0, 0, 0, 0, 0, 0, 1]),
        _ if reads => chance.one_of(&[0, 5, 10, 20, 30, 60, 2_000_000_000, 2_000_000_001]),
        _ => chance.one_of(&[0, 0, 0, 0, 1, 2, 5, 31]),
    };
    record::claim(&Fields {
        disk: number,
        method,
        priority: chance.one_of(&[1, 5, 5, 5, 9]),
        flag: if reads { chance.one_of(&[0, 0, 1]) } else { 0 },
        now: at,
        measured: if reads {
            0
        } else {
            at.saturating_sub(chance.below(3) as u32)
        },
        value,
        error_or_limit: error,
    })
}

#[test]
fn long_runs_keep_every_promise() {
    let mut counts = [0u32; 22];
    let (mut above, mut at_once, mut again) = (0, 0, 0);
    for seed in 1..=60 {
        let mut chance = Chance(0x9E37_79B9_7F4A_7C15u64.wrapping_mul(seed));
        let mut run = Run::opened_at(0, 30, 30);
        run.call(&record::open(4, 0, 10, 60));
        for _ in 0..2_000 {
            let k = chance.below(2) as usize;
            let disk = 3 + k as u8;
            let record = request(&mut chance, disk, run.desk.disk(3 + k).unwrap());
            counts[run.call(&record).code() as usize] += 1;
            let board = run.board();
            assert_eq!(run.desk.differs(&board, Some(3 + k)), None);
        }
        let board = run.board();
        assert_eq!(Desk::read(&board).differs(&board, None), None);
        above += run.watch.equalities_above_zero;
        at_once += run.watch.granted_at_once;
        again += run.watch.decided_again;
    }
    for code in [0, 1, 2, 15, 16, 17, 18, 20, 21] {
        assert!(counts[code] > 50, "code {code}: {counts:?}");
    }
    assert!(above > 50 && at_once > 1_000 && again > 1_000);
}

#[test]
fn any_bytes_end_in_an_answer() {
    let mut chance = Chance(7);
    let mut board = vec![0; BOARD];
    board.fill_with(|| chance.next() as u8);
    let mut desk = Desk::read(&board);
    for _ in 0..20_000 {
        let mut record = vec![0; chance.one_of(&[24, 24, 24, 23, 0, 48])];
        record.fill_with(|| chance.next() as u8);
        if record.len() == 24 && chance.below(4) > 0 {
            record[..3].copy_from_slice(&[0x52, 0x42, chance.one_of(&[1, 2, 3])]);
            record[3] &= 127;
            record[4..8].fill(0);
        }
        let code = desk.step(BOARD, &record, ANSWER).code();
        assert!(code <= 3 || (10..=21).contains(&code));
    }
}

/// Half a million calls a second time: the same outcomes, each seen on the board, demand 3 watched. Prints calls a second; they
/// mean something in release, with --nocapture.
#[test]
fn the_same_calls_again() {
    let mut chance = Chance(99);
    let again = || {
        let mut desk = Desk::empty();
        desk.step(BOARD, &record::open(3, 0, 30, 30), ANSWER);
        desk
    };
    let mut desk = again();
    let calls: Vec<([u8; 24], Outcome)> = (0..500_000)
        .map(|_| {
            let record = request(&mut chance, 3, desk.disk(3).unwrap());
            (record, desk.step(BOARD, &record, ANSWER))
        })
        .collect();
    let rate = |start: Instant| calls.len() as f64 / start.elapsed().as_secs_f64() / 1e6;
    let (mut desk, start) = (again(), Instant::now());
    for (record, outcome) in &calls {
        assert_eq!(desk.step(BOARD, record, ANSWER), *outcome);
    }
    println!("step: {:.2} million calls a second", rate(start));
    let (mut desk, mut watch) = (again(), Watch::new());
    let empty = vec![0; BOARD];
    let start = Instant::now();
    for (record, _) in &calls {
        let outcome = desk.step(BOARD, record, ANSWER);
        assert!(desk.differs(&empty, Some(3)).is_some());
        watch.check(&desk, 3, &outcome, record).unwrap();
    }
    println!("step, differs, watch: {:.2} million a second", rate(start));
    let counts = [
        watch.checks,
        watch.equalities,
        watch.granted_at_once,
        watch.decided_again,
    ];
    println!("{counts:?} checks, equal, at once, again");
    assert!(counts.iter().all(|&count| count > 10_000), "{counts:?}");
}
