//! The same requests through the typed crate and, as bytes written here by hand, through the low-level call.
#![allow(dead_code)]

use stopblocker::{step, Answer, Board, Claim, Claimed, Disk, Granted, Method, Open, Refusal, Release, Request};

pub const BOARD: usize = 49_216;
pub const PART: usize = 768;
pub const ANSWER: usize = 144;

/// The disk that the tests use.
pub const DISK: u8 = 3;

/// Where its part begins.
pub const AT: usize = 64 + PART * DISK as usize;

// Places in the part.
pub const CLOCK: usize = 0;
pub const NEXT_TICKET: usize = 4;
pub const ACTIVE_COUNT: usize = 8;
pub const WAITING_COUNT: usize = 12;
pub const USED: usize = 16;
pub const PROMISED: usize = 32;
pub const STATE: usize = 48;

// Places in a figure.
pub const STAMP: usize = 4;
pub const AMOUNT: usize = 8;
pub const LIMIT: usize = 12;

pub const REPORT_USED: u8 = 0;
pub const ADD_PROMISED: u8 = 1;
pub const SET_PROMISED: u8 = 2;
pub const SET_STATE: u8 = 3;
pub const READ_USED: u8 = 4;
pub const READ_LOAD: u8 = 5;
pub const READ_STATE: u8 = 6;

/// An answer item: code, ticket, told, amount.
pub type Item = (u32, u32, i32, u32);

/// What a call says: its own item, then the grants of its pass. A refusal is its number and zeros.
pub type Said = Vec<Item>;

pub fn granted(ticket: u32, told: i32, amount: u32) -> Said {
    vec![(0, ticket, told, amount)]
}

pub fn waits(ticket: u32) -> Said {
    vec![(1, ticket, 0, 0)]
}

pub fn released(ticket: u32, grants: &[(u32, i32, u32)]) -> Said {
    let mut said = vec![(2, ticket, 0, 0)];
    said.extend(grants.iter().map(|&(t, told, amount)| (0, t, told, amount)));
    said
}

pub fn opened() -> Said {
    vec![(3, 0, 0, 0)]
}

pub fn refused(number: u32) -> Said {
    vec![(number, 0, 0, 0)]
}

/// A claim: at second 0, of priority 5, measured now, unless said.
#[derive(Clone, Copy)]
pub struct Ask {
    pub disk: u8,
    pub method: u8,
    pub priority: u8,
    pub fresh: u8,
    pub now: u32,
    pub measured: Option<u32>,
    pub value: i32,
    pub error: u32,
}

/// A write: its value and own error.
pub fn write(method: u8, value: i32, error: u32) -> Ask {
    Ask { disk: DISK, method, priority: 5, fresh: 0, now: 0, measured: None, value, error }
}

/// A reading: its stated limit.
pub fn read(method: u8, limit: u32) -> Ask {
    Ask { measured: Some(0), ..write(method, 0, limit) }
}

impl Ask {
    pub fn at(self, now: u32) -> Ask {
        Ask { now, ..self }
    }

    pub fn priority(self, priority: u8) -> Ask {
        Ask { priority, ..self }
    }

    pub fn fresh(self) -> Ask {
        Ask { fresh: 1, ..self }
    }

    pub fn measured(self, second: u32) -> Ask {
        Ask { measured: Some(second), ..self }
    }

    pub fn value(self, value: i32) -> Ask {
        Ask { value, ..self }
    }

    pub fn on(self, disk: u8) -> Ask {
        Ask { disk, ..self }
    }

    /// By 01: 0-1 the mark, 2 kind, 3 disk, 4 method, 5 priority, 6 flag, 7 zero, 8-11 now, 12-15 second of measuring,
    /// 16-19 value, 20-23 own error or stated limit.
    pub fn record(self) -> [u8; 24] {
        let mut r = begun(2, self.disk, self.now);
        r[4] = self.method;
        r[5] = self.priority;
        r[6] = self.fresh;
        r[12..16].copy_from_slice(&self.measured.unwrap_or(self.now).to_le_bytes());
        r[16..20].copy_from_slice(&self.value.to_le_bytes());
        r[20..24].copy_from_slice(&self.error.to_le_bytes());
        r
    }
}

fn begun(kind: u8, disk: u8, now: u32) -> [u8; 24] {
    let mut r = [0; 24];
    r[0] = 0x52;
    r[1] = 0x42;
    r[2] = kind;
    r[3] = disk;
    r[8..12].copy_from_slice(&now.to_le_bytes());
    r
}

pub fn open_record(disk: u8, now: u32, used_limit: u32, promised_limit: u32) -> [u8; 24] {
    let mut r = begun(1, disk, now);
    r[16..20].copy_from_slice(&used_limit.to_le_bytes());
    r[20..24].copy_from_slice(&promised_limit.to_le_bytes());
    r
}

pub fn release_record(disk: u8, now: u32, ticket: u32) -> [u8; 24] {
    let mut r = begun(3, disk, now);
    r[12..16].copy_from_slice(&ticket.to_le_bytes());
    r
}

/// A desk with one board, through either door.
pub trait Desk: Sized {
    fn of(board: Vec<u8>) -> Self;
    fn bytes(&self) -> &[u8];
    fn open(&mut self, now: u32, used_limit: u32, promised_limit: u32) -> Said;
    fn claim(&mut self, ask: Ask) -> Said;
    fn release(&mut self, now: u32, ticket: u32) -> Said;

    /// With the tests' disk opened at second 0.
    fn opened(used_limit: u32, promised_limit: u32) -> Self {
        let mut desk = Self::of(vec![0; BOARD]);
        assert_eq!(desk.open(0, used_limit, promised_limit), opened());
        desk
    }

    /// The same with words of the disk's part written over.
    fn damaged(&self, words: &[(usize, u32)]) -> Self {
        let mut board = self.bytes().to_vec();
        for &(at, word) in words {
            board[AT + at..AT + at + 4].copy_from_slice(&word.to_le_bytes());
        }
        Self::of(board)
    }

    /// A word of the disk's part.
    fn word(&self, at: usize) -> u32 {
        u32::from_le_bytes(self.bytes()[AT + at..AT + at + 4].try_into().unwrap())
    }

    /// The present amount of active claim k.
    fn amount_of_active(&self, k: usize) -> u32 {
        self.word(64 + 44 * k + 32)
    }
}

/// The low-level call. Every call is held to what 01 says of both buffers.
pub struct Low {
    pub board: Vec<u8>,
}

impl Low {
    pub fn call(&mut self, record: &[u8]) -> Said {
        let before = self.board.clone();
        let mut answer = [0xa5; ANSWER];
        let code = step(&mut self.board, record, &mut answer);
        let word = |at: usize| u32::from_le_bytes(answer[at..at + 4].try_into().unwrap());
        let all: Said =
            (0..9).map(|k| 16 * k).map(|at| (word(at), word(at + 4), word(at + 8) as i32, word(at + 12))).collect();
        let used = 1 + all[1..].iter().take_while(|item| item.1 != 0).count();
        assert_eq!(code, all[0].0, "the call returns the first item's code");
        assert!(all[used..].iter().all(|&item| item == (0, 0, 0, 0)), "unused items are zero: {all:?}");
        if code > 3 {
            assert_eq!(all[0], (code, 0, 0, 0), "a refusal puts only its number");
            assert_eq!(used, 1, "a refusal grants nothing");
            assert_eq!(self.board, before, "a refusal changes nothing on the board");
        }
        all[..used].to_vec()
    }
}

impl Desk for Low {
    fn of(board: Vec<u8>) -> Low {
        Low { board }
    }

    fn bytes(&self) -> &[u8] {
        &self.board
    }

    fn open(&mut self, now: u32, used_limit: u32, promised_limit: u32) -> Said {
        self.call(&open_record(DISK, now, used_limit, promised_limit))
    }

    fn claim(&mut self, ask: Ask) -> Said {
        self.call(&ask.record())
    }

    fn release(&mut self, now: u32, ticket: u32) -> Said {
        self.call(&release_record(DISK, now, ticket))
    }
}

/// The typed crate. What the typed functions answer is turned back into items.
pub struct Typed {
    pub board: Board,
}

fn disk(number: u8) -> Disk {
    Disk::new(number).unwrap()
}

fn item(g: Granted) -> Item {
    (0, g.ticket, g.told, g.amount)
}

impl Typed {
    fn typed(ask: Ask) -> Claim {
        let d = disk(ask.disk);
        let claim = match Method::of(u32::from(ask.method)).unwrap() {
            Method::ReportUsed => Claim::report_used(d, ask.now, ask.value, ask.error),
            Method::AddPromised => Claim::add_promised(d, ask.now, ask.value, ask.error),
            Method::SetPromised => Claim::set_promised(d, ask.now, ask.value, ask.error),
            Method::SetState => Claim::set_state(d, ask.now, ask.value.try_into().unwrap()),
            Method::ReadUsed => Claim::read_used(d, ask.now, ask.error),
            Method::ReadLoad => Claim::read_load(d, ask.now, ask.error),
            Method::ReadState => Claim::read_state(d, ask.now),
        };
        let claim = claim.priority(ask.priority);
        let claim = if ask.fresh == 1 { claim.fresh() } else { claim };
        match ask.measured {
            Some(second) => claim.measured(second),
            None => claim,
        }
    }

    /// A refusal through the typed crate leaves the board too, and `call` says the same as the typed function.
    fn held(&mut self, request: Request, typed: impl Fn(&mut Board) -> Result<Said, Refusal>) -> Said {
        let before = self.board.clone();
        let mut beside = self.board.clone();
        let said = typed(&mut self.board);
        if said.is_err() {
            assert_eq!(self.board, before, "a refusal changes nothing on the board");
        }
        let any = beside.call(request).map(|answer| match answer {
            Answer::Opened(_) => opened(),
            Answer::Granted(g) => vec![item(g)],
            Answer::Waits(w) => waits(w.ticket),
            Answer::Released(r) => [(2, r.ticket, 0, 0)].into_iter().chain(r.grants.into_iter().map(item)).collect(),
        });
        assert_eq!(any, said, "call says what the typed function says");
        assert_eq!(beside, self.board, "call leaves what the typed function leaves");
        said.unwrap_or_else(|refusal| refused(refusal.number()))
    }
}

impl Desk for Typed {
    fn of(board: Vec<u8>) -> Typed {
        Typed { board: Board::from_bytes(&board).unwrap() }
    }

    fn bytes(&self) -> &[u8] {
        self.board.as_bytes()
    }

    fn open(&mut self, now: u32, used_limit: u32, promised_limit: u32) -> Said {
        let open = Open::new(disk(DISK), now, used_limit, promised_limit);
        self.held(open.into(), |board| board.open(open).map(|_| opened()))
    }

    fn claim(&mut self, ask: Ask) -> Said {
        let claim = Typed::typed(ask);
        self.held(claim.into(), |board| {
            board.claim(claim).map(|claimed| match claimed {
                Claimed::Granted(g) => vec![item(g)],
                Claimed::Waits(w) => waits(w.ticket),
            })
        })
    }

    fn release(&mut self, now: u32, ticket: u32) -> Said {
        let release = Release::new(disk(DISK), now, ticket);
        self.held(release.into(), |board| {
            board.release(release).map(|released| {
                let mut said = vec![(2, released.ticket, 0, 0)];
                said.extend(released.grants.into_iter().map(item));
                said
            })
        })
    }
}

/// A test of each generic function, through both doors.
#[macro_export]
macro_rules! both {
    ($($name:ident),* $(,)?) => {
        mod typed {
            $(#[test] fn $name() { super::$name::<super::common::Typed>(); })*
        }
        mod low {
            $(#[test] fn $name() { super::$name::<super::common::Low>(); })*
        }
    };
}
