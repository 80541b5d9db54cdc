//! The board kept by SQLite in memory: a row for each open disk, a row for each claim. A call is one transaction of
//! prepared statements: it reads the rows of its disk, decides in code, and writes the rows that have changed. The
//! hand-written engine makes the decision and the soundness test, on a part made from the rows, so that nearly all of the
//! time is SQLite's.

use crate::hand;
use crate::sqlite::{Database, Statement};
use stopblocker::layout::{
    figure, open_bit, part, part_at, put_word, record as at, slot, word_at, ANSWER_BYTES, BOARD_BYTES, CLAIMS, DISKS,
    PART_BYTES, SLOT_BYTES,
};

/// The words of a part's head that a row has: all but the two counts and the two zeros.
const HEAD: [usize; 12] = [
    part::CLOCK,
    part::NEXT_TICKET,
    part::USED + figure::VALUE,
    part::USED + figure::STAMP,
    part::USED + figure::AMOUNT,
    part::USED + figure::LIMIT,
    part::PROMISED + figure::VALUE,
    part::PROMISED + figure::STAMP,
    part::PROMISED + figure::AMOUNT,
    part::PROMISED + figure::LIMIT,
    part::STATE + figure::VALUE,
    part::STATE + figure::STAMP,
];
const FIGURES: usize = HEAD.len();

/// The words of a slot that a row has: all but the two zeros.
const WORDS: usize = slot::ZERO / 4;

const DISKS_TABLE: &str = "CREATE TABLE disks (disk INTEGER PRIMARY KEY, clock, next, \
    used, used_stamp, used_amount, used_limit, promised, promised_stamp, promised_amount, promised_limit, state, state_stamp)";
const CLAIMS_TABLE: &str =
    "CREATE TABLE claims (disk, ticket, granted, method, priority, fresh, measured, value, error, \
    told, amount, PRIMARY KEY (disk, ticket)) WITHOUT ROWID";

/// The row of a claim: `granted` orders the active claims of a disk by their grants, and is 0 while the claim waits.
#[derive(Clone, Copy, PartialEq)]
struct Row {
    granted: i64,
    words: [u32; WORDS],
}

pub struct Store {
    begin: Statement,
    commit: Statement,
    read_disk: Statement,
    read_claims: Statement,
    add_disk: Statement,
    put_disk: Statement,
    add_claim: Statement,
    put_claim: Statement,
    end_claim: Statement,
    clear: [Statement; 2],
    /// An empty board; a call is decided on it.
    board: Vec<u8>,
    rows: Vec<Row>,
    // the statements are dropped before it
    database: Database,
}

impl Store {
    /// None where SQLite is not installed.
    pub fn new() -> Option<Store> {
        let database = Database::in_memory()?;
        database.prepare(DISKS_TABLE).run(&[]);
        database.prepare(CLAIMS_TABLE).run(&[]);
        let on = |text: &str| database.prepare(text);
        Some(Store {
            begin: on("BEGIN"),
            commit: on("COMMIT"),
            read_disk: on("SELECT clock, next, used, used_stamp, used_amount, used_limit, promised, promised_stamp, \
                promised_amount, promised_limit, state, state_stamp FROM disks WHERE disk = ?1"),
            read_claims: on("SELECT granted, ticket, method, priority, fresh, measured, value, error, told, amount \
                FROM claims WHERE disk = ?1"),
            add_disk: on("INSERT INTO disks VALUES (?1, ?2, ?3, ?4, ?5, ?6, ?7, ?8, ?9, ?10, ?11, ?12, ?13)"),
            put_disk: on("UPDATE disks SET clock = ?2, next = ?3, used = ?4, used_stamp = ?5, used_amount = ?6, \
                used_limit = ?7, promised = ?8, promised_stamp = ?9, promised_amount = ?10, promised_limit = ?11, \
                state = ?12, state_stamp = ?13 WHERE disk = ?1"),
            add_claim: on("INSERT INTO claims VALUES (?1, ?2, ?3, ?4, ?5, ?6, ?7, ?8, ?9, ?10, ?11)"),
            put_claim: on("UPDATE claims SET granted = ?3, told = ?4, amount = ?5 WHERE disk = ?1 AND ticket = ?2"),
            end_claim: on("DELETE FROM claims WHERE disk = ?1 AND ticket = ?2"),
            clear: [on("DELETE FROM disks"), on("DELETE FROM claims")],
            board: vec![0; BOARD_BYTES],
            rows: Vec::with_capacity(2 * CLAIMS),
            database,
        })
    }

    pub fn version(&self) -> String {
        self.database.version()
    }

    /// Stores the open disks of a board, and forgets all others.
    pub fn load(&mut self, board: &[u8]) {
        self.begin.run(&[]);
        for clear in &mut self.clear {
            clear.run(&[]);
        }
        for disk in (0..DISKS).filter(|disk| is_open(board, *disk)) {
            let at = part_at(disk);
            self.board[at..at + PART_BYTES].copy_from_slice(&board[at..at + PART_BYTES]);
            self.rows.clear();
            self.write(disk, true);
        }
        self.commit.run(&[]);
        self.board.fill(0);
    }

    /// The open disks as a board.
    pub fn to_board(&mut self) -> Vec<u8> {
        let mut whole = vec![0; BOARD_BYTES];
        for disk in 0..DISKS {
            if self.read(disk) {
                let at = part_at(disk);
                set_open(&mut whole, disk);
                whole[at..at + PART_BYTES].copy_from_slice(&self.board[at..at + PART_BYTES]);
                self.forget(disk);
            }
        }
        whole
    }

    /// One call, as `stopblocker::step` on a board of the right length.
    pub fn step(&mut self, record: &[u8], answer: &mut [u8]) -> u32 {
        if answer.len() != ANSWER_BYTES || !hand::names_a_disk(record) {
            return hand::step(&mut self.board, record, answer);
        }
        let disk = usize::from(record[at::DISK]);
        self.begin.run(&[]);
        self.read(disk);
        let code = hand::step(&mut self.board, record, answer);
        if code <= 3 {
            self.write(disk, code == 3);
        }
        self.commit.run(&[]);
        self.forget(disk);
        code
    }

    /// Writes the rows of a disk to the empty board, and returns whether the disk is open.
    fn read(&mut self, disk: usize) -> bool {
        let board = &mut self.board;
        let at = part_at(disk);
        let mut open = false;
        self.read_disk.rows(&[disk as i64], |figures: [i64; FIGURES]| {
            open = true;
            for (place, figure) in HEAD.iter().zip(figures) {
                put_word(board, at + place, figure as u32);
            }
        });
        self.rows.clear();
        if !open {
            return false;
        }
        set_open(board, disk);
        let rows = &mut self.rows;
        self.read_claims.rows(&[disk as i64], |[granted, words @ ..]: [i64; 1 + WORDS]| {
            rows.push(Row { granted, words: words.map(|word| word as u32) });
        });
        // active claims by their grants, waiting ones in the pass's order
        rows.sort_unstable_by_key(|row| (row.granted == 0, row.granted, !row.words[2], row.words[0]));
        let actives = rows.iter().filter(|row| row.granted != 0).count();
        put_word(board, at + part::ACTIVE_COUNT, actives as u32);
        put_word(board, at + part::WAITING_COUNT, (rows.len() - actives) as u32);
        for (k, row) in rows.iter().enumerate() {
            let slot =
                if k < actives { part::ACTIVE + SLOT_BYTES * k } else { part::WAITING + SLOT_BYTES * (k - actives) };
            for (word, place) in row.words.iter().zip((at + slot..).step_by(4)) {
                put_word(board, place, *word);
            }
        }
        true
    }

    /// Writes the rows of a disk that have changed: its own, new claims, claims that were granted or raised, and ended ones.
    fn write(&mut self, disk: usize, new: bool) {
        let (board, at, number) = (&self.board, part_at(disk), disk as i64);
        let mut figures = [number; 1 + FIGURES];
        for (figure, place) in figures[1..].iter_mut().zip(HEAD) {
            *figure = i64::from(word_at(board, at + place));
        }
        let row = if new { &mut self.add_disk } else { &mut self.put_disk };
        row.run(&figures);
        let mut last = self.rows.iter().map(|row| row.granted).max().unwrap_or(0);
        for (slots, count) in [(part::ACTIVE, part::ACTIVE_COUNT), (part::WAITING, part::WAITING_COUNT)] {
            for k in 0..word_at(board, at + count) as usize {
                let mut words = [0; WORDS];
                for (word, place) in words.iter_mut().zip((at + slots + SLOT_BYTES * k..).step_by(4)) {
                    *word = word_at(board, place);
                }
                let found = self.rows.iter().position(|row| row.words[0] == words[0]);
                let was = found.map(|k| self.rows.swap_remove(k));
                let mut granted = was.map_or(0, |row| row.granted);
                if slots == part::ACTIVE && granted == 0 {
                    last += 1;
                    granted = last;
                }
                let now = Row { granted, words };
                let [ticket, fields @ ..] = words.map(i64::from);
                if was.is_none() {
                    let [method, priority, fresh, measured, value, error, told, amount] = fields;
                    self.add_claim
                        .run(&[number, ticket, granted, method, priority, fresh, measured, value, error, told, amount]);
                } else if was != Some(now) {
                    self.put_claim.run(&[number, ticket, granted, fields[6], fields[7]]);
                }
            }
        }
        for ended in &self.rows {
            self.end_claim.run(&[number, i64::from(ended.words[0])]);
        }
    }

    /// Makes the board empty again.
    fn forget(&mut self, disk: usize) {
        let at = part_at(disk);
        self.board[open_bit(disk).0] = 0;
        self.board[at..at + PART_BYTES].fill(0);
    }
}

fn is_open(board: &[u8], disk: usize) -> bool {
    let (byte, mask) = open_bit(disk);
    board[byte] & mask != 0
}

fn set_open(board: &mut [u8], disk: usize) {
    let (byte, mask) = open_bit(disk);
    board[byte] |= mask;
}
