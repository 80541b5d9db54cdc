//! Calls with any bytes of any length in all three buffers. Each buffer lies directly against a page that may not be
//! touched: before that page in half of the calls, behind it in the others. Codes and bytes are compared with the second
//! program's here too.

use crate::chance::Chance;
use crate::guard::Guarded;
use crate::odd;
use second::record::{self, Fields};
use second::{encode, Desk, Outcome, ANSWER, BOARD, HEAD, PART, RECORD};
use std::os::raw::{c_int, c_void};
use std::sync::atomic::{AtomicU64, Ordering};
use stopblocker::layout::{part, SLOT_BYTES};

/// The exported call as a C program sees it.
pub type Raw = unsafe extern "C" fn(*mut u8, usize, *const u8, usize, *mut u8, usize) -> u32;

extern "C" {
    pub fn step(board: *mut u8, b: usize, record: *const u8, r: usize, answer: *mut u8, a: usize) -> u32;
    fn signal(number: c_int, handler: usize) -> usize;
    fn write(file: c_int, bytes: *const c_void, len: usize) -> isize;
    fn _exit(status: c_int) -> !;
}

const SIGBUS: c_int = 7;
const SIGSEGV: c_int = 11;

/// The number of this run, for the message if it touches a guard page.
static RUN: AtomicU64 = AtomicU64::new(0);

/// Makes only calls that are allowed in a signal handler.
extern "C" fn touched(_: c_int) {
    let mut text = *b"fuzz: a byte outside of the buffers was read or written in run 00000000000000000000\n";
    let (mut at, mut run) = (text.len() - 2, RUN.load(Ordering::Relaxed));
    while run > 0 {
        text[at] = b'0' + (run % 10) as u8;
        run /= 10;
        at -= 1;
    }
    // SAFETY: both are safe in a signal handler.
    unsafe {
        write(2, text.as_ptr().cast(), text.len());
        _exit(1)
    }
}

/// The buffers for half of the runs: all three lie at the end of their rooms, or all at the start; and what the board must hold.
struct Half {
    at_end: bool,
    board: Guarded,
    record: Guarded,
    answer: Guarded,
    expected: Vec<u8>,
}

const LONGEST_RECORD: usize = 64;
const LONGEST_ANSWER: usize = 1_024;

impl Half {
    fn new(at_end: bool) -> Half {
        let mut board = Guarded::new(BOARD + PART);
        let expected = board.all().to_vec();
        Half { at_end, board, record: Guarded::new(LONGEST_RECORD), answer: Guarded::new(LONGEST_ANSWER), expected }
    }

    /// Makes one run; returns the code, or what is wrong.
    fn run(&mut self, chance: &mut Chance, second: &mut Desk, desk: Raw) -> Result<u32, String> {
        let board_len = length(chance, BOARD, BOARD + PART);
        let answer_len = length(chance, ANSWER, LONGEST_ANSWER);
        let at = self.board.place(board_len, self.at_end);
        if board_len == BOARD {
            change_board(chance, &mut self.board.all()[at..at + BOARD]);
        }
        let record = some_record(chance, &self.board.all()[at..], board_len);
        let record_at = self.record.place(record.len(), self.at_end);
        self.record.all()[record_at..record_at + record.len()].copy_from_slice(&record);
        chance.fill(self.answer.all());
        self.expected.copy_from_slice(self.board.all());
        let mut expected_answer = self.answer.all().to_vec();

        let disk = record.get(3).map(|&disk| usize::from(disk)).filter(|&disk| disk < 64);
        if let (BOARD, Some(disk)) = (board_len, disk) {
            second.read_disk(&self.expected[at..at + BOARD], disk);
        }
        let outcome = second.step(board_len, &record, answer_len);
        let answer_at = self.answer.place(answer_len, self.at_end);
        if let Some(answer) = outcome.answer() {
            expected_answer[answer_at..answer_at + ANSWER].copy_from_slice(&answer);
        }
        if let (Outcome::Accepted(_), Some(disk)) = (&outcome, disk) {
            let part = at + HEAD + PART * disk;
            self.expected[part..part + PART].copy_from_slice(&encode(second.disk(disk).expect("open and sound")));
            self.expected[at + disk / 8] |= 1 << (disk % 8);
        }

        // A C program may lend a record of no bytes with a null pointer.
        let none = record.is_empty() && chance.one_in(2);
        let lent = if none { std::ptr::null() } else { self.record.pointer(record_at) as *const u8 };
        let (board, answer) = (self.board.pointer(at), self.answer.pointer(answer_at));
        // SAFETY: the three buffers are valid for their lengths and do not overlap; whether the call stays within them is what is tested.
        let code = unsafe { desk(board, board_len, lent, record.len(), answer, answer_len) };

        let checks = [
            (code == outcome.code(), "the code"),
            (self.record.all()[record_at..record_at + record.len()] == record[..], "the record"),
            (self.answer.all() == expected_answer, "the answer buffer or what is beside it"),
            (self.board.all() == self.expected, "the board or what is beside it"),
        ];
        match checks.iter().find(|(equal, _)| !equal) {
            None => Ok(code),
            Some((_, what)) => Err(format!(
                "{what}: {} expected, code {code} found; board of {board_len} bytes, answer buffer of {answer_len}, record {record:02x?}",
                outcome.code()
            )),
        }
    }
}

/// Mostly the right length, else one more or less, or any.
fn length(chance: &mut Chance, right: usize, most: usize) -> usize {
    match chance.below(16) {
        0 => chance.one_of(&[0, 1, right - 1, right + 1, most]),
        1 => chance.below(most as u64 + 1) as usize,
        _ => right,
    }
}

/// A disk, mostly one of the first four.
fn some_disk(chance: &mut Chance) -> usize {
    let most = chance.one_of(&[4, 4, 4, 64]);
    chance.below(most) as usize
}

/// Changes a few things of a board: bytes, open bits, a part.
fn change_board(chance: &mut Chance, board: &mut [u8]) {
    let disk = some_disk(chance);
    let part = HEAD + PART * disk..HEAD + PART * (disk + 1);
    match chance.below(1_024) {
        0 => chance.fill(board),
        1 => board.fill(0),
        2..=33 => chance.fill(&mut board[part]),
        34..=193 => {
            board[part].copy_from_slice(&encode(&odd::disk(chance)));
            board[disk / 8] |= 1 << (disk % 8);
        }
        194..=225 => board[disk / 8] ^= 1 << (disk % 8),
        226..=257 => board[chance.below(BOARD as u64) as usize] = chance.word() as u8,
        258..=289 => board[part.start + chance.below(PART as u64) as usize] ^= 1 << chance.below(8),
        _ => {}
    }
}

/// Random bytes; random bytes with a right mark and kind; or a request with a second and a ticket from the board.
fn some_record(chance: &mut Chance, board: &[u8], board_len: usize) -> Vec<u8> {
    let mut bytes = vec![0; if chance.one_in(8) { chance.below(LONGEST_RECORD as u64 + 1) as usize } else { RECORD }];
    chance.fill(&mut bytes);
    if bytes.len() != RECORD || chance.one_in(8) {
        return bytes;
    }
    let disk = some_disk(chance) as u8;
    let at = HEAD + PART * usize::from(disk);
    let word = |at: usize| match board_len {
        BOARD => u32::from_le_bytes(board[at..at + 4].try_into().expect("four bytes")),
        _ => 0,
    };
    let (active, waiting) = (|k| part::ACTIVE + SLOT_BYTES * k, |k| part::WAITING + SLOT_BYTES * k);
    let slot = chance.one_of(&[active(0), active(1), active(7), waiting(0), waiting(1)]);
    let now = word(at).wrapping_add(chance.one_of(&[0, 0, 1, 300, u32::MAX]));
    let fields = Fields { disk, method: chance.below(8) as u8, now, ..Fields::default() };
    let record = match chance.below(4) {
        0 => record::open(disk, now, odd::limit(chance) as u32, odd::limit(chance) as u32),
        1 => record::release(disk, now, word(at + slot)),
        2 => record::claim(&Fields { error_or_limit: odd::limit(chance) as u32, ..fields }),
        _ => record::claim(&Fields { priority: 5, measured: now, value: chance.between(-40, 40) as i32, ..fields }),
    };
    if chance.one_in(4) {
        bytes[..3].copy_from_slice(&record[..3]);
        bytes[3] &= 127;
        bytes[4..8].copy_from_slice(&record[4..8]);
        return bytes;
    }
    bytes.copy_from_slice(&record);
    bytes
}

/// A fuzz of this many runs must meet every code at least once.
pub const SEES_ALL: u64 = 3_000_000;

/// The codes, of 0 to 3 and 9 to 21, that never came.
pub fn unseen(codes: &[u64; 22]) -> Vec<usize> {
    (0..=3).chain(9..=21).filter(|&code| codes[code] == 0).collect()
}

/// Makes so many runs; returns how often each code came, or which run went wrong and how.
pub fn fuzz(runs: u64, seed: u64, desk: Raw) -> Result<[u64; 22], String> {
    // SAFETY: the handler makes only calls that are safe there.
    unsafe {
        signal(SIGSEGV, touched as *const () as usize);
        signal(SIGBUS, touched as *const () as usize);
    }
    let mut halves = [Half::new(true), Half::new(false)];
    let mut second = Desk::empty();
    let mut chance = Chance::new(seed);
    let mut codes = [0; 22];
    for run in 0..runs {
        RUN.store(run, Ordering::Relaxed);
        let code = halves[(run % 2) as usize].run(&mut chance, &mut second, desk);
        codes[code.map_err(|wrong| format!("run {run}: {wrong}"))? as usize] += 1;
    }
    Ok(codes)
}
