//! The desk beside the second program: both get every event, and everything that a call shows is compared.

use crate::chance::Chance;
use crate::counts::Counts;
use crate::event::{Call, Event, Why};
use second::watch::Watch;
use second::{encode, sound, Desk, Outcome, ANSWER, BOARD, DISKS, HEAD, PART};
use std::ops::Range;
use stopblocker::layout::part;

/// The desk that is on trial.
pub trait Step {
    fn step(&mut self, board: &mut [u8], record: &[u8], answer: &mut [u8]) -> u32;
}

/// The proved desk.
pub struct Proved;

impl Step for Proved {
    fn step(&mut self, board: &mut [u8], record: &[u8], answer: &mut [u8]) -> u32 {
        stopblocker::step(board, record, answer)
    }
}

/// Extra bytes behind the board and behind the answer buffer: to lend too many bytes, and to see that no call changes them.
const BEHIND: usize = 16;

pub struct Beside<S> {
    desk: S,
    /// The board that is lent to the desk.
    board: Vec<u8>,
    /// The board as the second program says it must be.
    expected: Vec<u8>,
    pub second: Desk,
    watch: Watch,
    /// What stood in parts that were damaged while the watch was on: the trial may put it back.
    kept: Vec<Option<Box<[u8; PART]>>>,
    answer: [u8; ANSWER + BEHIND],
    pub counts: Counts,
    /// The whole board is compared each time that this many calls were made.
    whole_every: u64,
}

fn part_of(disk: usize) -> Range<usize> {
    HEAD + PART * disk..HEAD + PART * (disk + 1)
}

impl<S: Step> Beside<S> {
    pub fn new(desk: S, whole_every: u64) -> Beside<S> {
        Beside {
            desk,
            board: vec![0; BOARD + BEHIND],
            expected: vec![0; BOARD + BEHIND],
            second: Desk::empty(),
            watch: Watch::new(),
            kept: vec![None; DISKS],
            answer: [0; ANSWER + BEHIND],
            counts: Counts::new(),
            whole_every,
        }
    }

    /// Begins again with the empty board; the counts go on.
    pub fn clear(&mut self) {
        self.board.fill(0);
        self.expected.fill(0);
        self.second = Desk::empty();
        self.counts.watched(&self.watch);
        self.watch = Watch::new();
        self.kept.fill(None);
    }

    pub fn apply(&mut self, event: &Event) -> Result<(), String> {
        match event {
            Event::Call(call) => return self.call(call),
            Event::Put { disk, why, part } => self.put(*disk, *why, part),
            Event::Garbage { seed, open } => self.garbage(*seed, *open),
        }
        Ok(())
    }

    fn call(&mut self, call: &Call) -> Result<(), String> {
        let disk = call.disk();
        self.counts.before(call, disk.and_then(|disk| self.second.disk(disk)));
        let filled = (self.counts.calls as u8) | 1;
        self.answer.fill(filled);
        let (board_len, answer_len) = (call.board_len as usize, usize::from(call.answer_len));
        let record = call.record();
        let code = self.desk.step(&mut self.board[..board_len], record, &mut self.answer[..answer_len]);
        let outcome = self.second.step(board_len, record, answer_len);
        self.counts.after(call, &outcome);
        if code != outcome.code() {
            return Err(format!("code: expected {}, found {code}", outcome.code()));
        }
        self.compare_answer(&outcome, filled)?;
        self.compare_board(disk, &outcome)?;
        if self.counts.calls % self.whole_every == 0 {
            self.compare_whole(disk)?;
        }
        match (disk, &outcome) {
            // A refusal changes nothing, so there is nothing new to watch, except that a reading may have been refused wrongly.
            (Some(_), Outcome::Refused(_)) if !call.reads() => Ok(()),
            (Some(disk), _) => self.watch.check(&self.second, disk, &outcome, record),
            (None, _) => Ok(()),
        }
    }

    /// The 144 bytes are those of the second program, or unchanged after 9; the bytes behind them are unchanged.
    fn compare_answer(&self, outcome: &Outcome, filled: u8) -> Result<(), String> {
        let expected = outcome.answer().unwrap_or([filled; ANSWER]);
        if self.answer[..ANSWER] == expected && self.answer[ANSWER..] == [filled; BEHIND] {
            return Ok(());
        }
        let right = |at: usize| *expected.get(at).unwrap_or(&filled);
        let at = (0..ANSWER + BEHIND).find(|&at| self.answer[at] != right(at)).expect("they differ");
        let item = if at < ANSWER { format!("item {}", at / 16) } else { "behind the buffer".to_string() };
        Err(format!("answer, byte {at} ({item}): expected {}, found {}", right(at), self.answer[at]))
    }

    /// Compares the part of the call's disk, and the head with the open bits.
    fn compare_board(&mut self, disk: Option<usize>, outcome: &Outcome) -> Result<(), String> {
        if let (Some(disk), Outcome::Accepted(_)) = (disk, outcome) {
            let after = self.second.disk(disk).ok_or("accepted, yet not open and sound")?;
            self.expected[part_of(disk)].copy_from_slice(&encode(after));
            self.expected[disk / 8] |= 1 << (disk % 8);
            self.kept[disk] = None;
        }
        let part = disk.map_or(0..0, part_of);
        if self.board[..HEAD] == self.expected[..HEAD] && self.board[part.clone()] == self.expected[part] {
            return Ok(());
        }
        Err(self.first_difference(disk))
    }

    /// Compares every byte of the board, and checks that the part after an accepted call is sound and is the second program's disk.
    pub fn compare_whole(&mut self, disk: Option<usize>) -> Result<(), String> {
        self.counts.whole += 1;
        if self.board != self.expected {
            return Err(self.first_difference(disk));
        }
        if let Some(figures) = disk.and_then(|disk| self.second.disk(disk)) {
            let part = part_of(disk.expect("a disk"));
            match sound(&self.board[part]) {
                Ok(read) if read == *figures => {}
                Ok(_) => return Err("the part reads back as another disk".to_string()),
                Err(clause) => return Err(format!("the part is not sound: {clause}")),
            }
        }
        Ok(())
    }

    fn first_difference(&self, disk: Option<usize>) -> String {
        let at = (0..self.board.len()).find(|&at| self.board[at] != self.expected[at]).expect("they differ");
        let named = disk.and_then(|disk| self.second.differs(&self.board[..BOARD], Some(disk)));
        let place = match at {
            _ if at < HEAD => "head".to_string(),
            _ if at < BOARD => format!("part of disk {}", (at - HEAD) / PART),
            _ => "behind the board".to_string(),
        };
        let (expected, found) = (self.expected[at], self.board[at]);
        let named = named.map_or(String::new(), |text| format!("; {text}"));
        format!("board, byte {at} ({place}): expected {expected}, found {found}{named}")
    }

    /// Writes a part from outside. The watch of its disk goes on if this only repairs a damage, and else begins anew.
    fn put(&mut self, disk: usize, why: Why, part: &[u8; PART]) {
        let before: [u8; PART] = self.expected[part_of(disk)].try_into().expect("768 bytes");
        let was_sound = self.second.disk(disk).is_some();
        for board in [&mut self.board, &mut self.expected] {
            board[part_of(disk)].copy_from_slice(part);
            board[disk / 8] &= !(1 << (disk % 8));
            board[disk / 8] |= u8::from(why != Why::Closed) << (disk % 8);
        }
        self.second.read_disk(&self.board[..BOARD], disk);
        let is_sound = self.second.disk(disk).is_some();
        self.counts.put(why, part, is_sound);
        let back = self.kept[disk].take().map_or(false, |kept| *kept == *part);
        if was_sound && !is_sound && why != Why::Closed {
            self.kept[disk] = Some(Box::new(before));
        } else if was_sound || !back {
            self.watch.forget(disk);
        }
    }

    /// Changes the value of used from outside without telling the watch, which must detect it.
    pub fn move_used(&mut self, disk: usize, value: i32) {
        let at = part_of(disk).start + part::USED;
        for board in [&mut self.board, &mut self.expected] {
            board[at..at + 4].copy_from_slice(&value.to_le_bytes());
        }
        self.second.read_disk(&self.board[..BOARD], disk);
    }

    fn garbage(&mut self, seed: u64, open: bool) {
        Chance::new(seed).fill(&mut self.board);
        if !open {
            self.board[..8].fill(0);
        }
        self.expected.copy_from_slice(&self.board);
        self.second = Desk::read(&self.board[..BOARD]);
        for disk in 0..DISKS {
            self.watch.forget(disk);
            self.kept[disk] = None;
        }
        self.counts.garbage += 1;
    }
}
