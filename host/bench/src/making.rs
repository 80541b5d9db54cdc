//! Makes workloads: a board, calls on it, and the tickets that are held.

use crate::chance::Chance;
use stopblocker::layout::{item, part_at, word_at, ANSWER_BYTES, BOARD_BYTES, RECORD_BYTES};
use stopblocker::{step, Claim, Disk, Open, Release, Request};

/// A record, and how many bytes of it and of the answer buffer are lent: all, except to cause a few refusals.
#[derive(Clone, Copy)]
pub struct Call {
    pub record: [u8; RECORD_BYTES],
    pub record_bytes: usize,
    pub answer_bytes: usize,
}

impl Call {
    pub fn of(record: [u8; RECORD_BYTES]) -> Call {
        Call { record, record_bytes: RECORD_BYTES, answer_bytes: ANSWER_BYTES }
    }
}

pub struct Workload {
    pub name: &'static str,
    pub board: Vec<u8>,
    pub calls: Vec<Call>,
    /// Whether the store's rows can hold the board. They cannot where a count is not the number of claims.
    pub in_rows: bool,
}

pub fn disk(number: u8) -> Disk {
    Disk::new(number).expect("a disk below 64")
}

/// A board that calls are made on, with the tickets that are held on each disk.
pub struct Making {
    pub board: Vec<u8>,
    pub held: Vec<Vec<u32>>,
    pub now: u32,
    pub calls: Vec<Call>,
    pub answer: [u8; ANSWER_BYTES],
    pub chance: Chance,
}

impl Making {
    /// So many open disks; on each, used, promised and the state were written once.
    pub fn new(disks: u8, seed: u64) -> Making {
        let mut making = Making {
            board: vec![0; BOARD_BYTES],
            held: vec![Vec::new(); usize::from(disks)],
            now: 1_000,
            calls: Vec::new(),
            answer: [0; ANSWER_BYTES],
            chance: Chance::new(seed),
        };
        for d in 0..disks {
            making.call(Open::new(disk(d), 1_000, 1_000, 5_000).into());
            let used = 40_000 + 100 * i32::from(d);
            making.call(Claim::report_used(disk(d), 1_000, used, 20).into());
            making.call(Claim::add_promised(disk(d), 1_000, 500, 0).into());
            making.call(Claim::set_state(disk(d), 1_000, 1).into());
            making.release(d, 0);
            making.release(d, 0);
            making.release(d, 0);
        }
        making
    }

    /// Begins the workload: the board as it is now, and no calls yet.
    pub fn begin(&mut self) -> Vec<u8> {
        self.calls.clear();
        self.board.clone()
    }

    pub fn call(&mut self, request: Request) -> u32 {
        let record = request.record();
        self.calls.push(Call::of(record));
        let code = step(&mut self.board, &record, &mut self.answer);
        if let (Request::Claim(claim), 0..=1) = (request, code) {
            self.held[usize::from(claim.disk().number())].push(word_at(&self.answer, item::TICKET));
        }
        code
    }

    /// Releases the k-th ticket held on a disk.
    pub fn release(&mut self, d: u8, k: usize) {
        let ticket = self.held[usize::from(d)].remove(k);
        self.call(Release::new(disk(d), self.now, ticket).into());
    }

    pub fn release_any(&mut self, d: u8) {
        let k = self.chance.below(self.held[usize::from(d)].len() as u64) as usize;
        self.release(d, k);
    }

    pub fn count(&self, d: u8, at: usize) -> u32 {
        word_at(&self.board, part_at(usize::from(d)) + at)
    }

    /// A claim as people make them: half of all claims are readings.
    pub fn any_claim(&mut self, d: u8) -> Claim {
        let (disk, now) = (disk(d), self.now);
        let used = 40_000 + 100 * i32::from(d) + self.chance.below(400) as i32;
        let claim = match self.chance.below(16) {
            0..=3 => Claim::read_used(disk, now, 2_000),
            4..=6 => Claim::read_load(disk, now, 3_000),
            7 => Claim::read_state(disk, now),
            8..=10 => Claim::report_used(disk, now, used, 10),
            11..=13 => Claim::add_promised(disk, now, self.chance.below(801) as i32 - 400, 0),
            14 => Claim::set_promised(disk, now, self.chance.below(2_000) as i32, 5),
            _ => Claim::set_state(disk, now, self.chance.below(4) as u8),
        };
        claim.priority(self.chance.below(8) as u8)
    }
}
