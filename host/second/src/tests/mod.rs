//! What the tests share: short names for claims, and a run that checks itself at every call.

mod border;
mod chance;
mod granting;
mod order;
mod refusals;
mod situations;
mod soundness;
mod watching;

use crate::record::{self, Fields};
use crate::watch::Watch;
use crate::{encode, sound, Desk, Disk, Item, Outcome, ANSWER, BOARD};

pub const DISK: u8 = 3;

/// A claim on disk 3, priority 5, own error 0, at second 0, measured now, no fresh flag.
pub fn write(method: u8, value: i32) -> Fields {
    Fields {
        disk: DISK,
        method,
        priority: 5,
        value,
        ..Fields::default()
    }
}

pub fn report_used(value: i32) -> Fields {
    write(0, value)
}
pub fn add_promised(value: i32) -> Fields {
    write(1, value)
}
pub fn set_promised(value: i32) -> Fields {
    write(2, value)
}
pub fn set_state(value: i32) -> Fields {
    write(3, value)
}

fn reading(method: u8, limit: u32) -> Fields {
    write(method, 0).own(limit)
}
pub fn read_used(limit: u32) -> Fields {
    reading(4, limit)
}
pub fn read_load(limit: u32) -> Fields {
    reading(5, limit)
}
pub fn read_state(limit: u32) -> Fields {
    reading(6, limit)
}

impl Fields {
    /// Own error or stated limit.
    pub fn own(self, error_or_limit: u32) -> Fields {
        Fields {
            error_or_limit,
            ..self
        }
    }
    pub fn priority(self, priority: u8) -> Fields {
        Fields { priority, ..self }
    }
    pub fn fresh(self) -> Fields {
        Fields { flag: 1, ..self }
    }
    /// Now; a write is measured then as well.
    pub fn at(self, now: u32) -> Fields {
        let measured = if self.method < 4 { now } else { 0 };
        Fields {
            now,
            measured,
            ..self
        }
    }
    pub fn measured(self, measured: u32) -> Fields {
        Fields { measured, ..self }
    }
}

pub fn item(code: u32, ticket: u32, told: i32, amount: u32) -> Item {
    Item {
        code,
        ticket,
        told,
        amount,
    }
}
pub fn granted(ticket: u32, told: i32, amount: u32) -> Outcome {
    Outcome::Accepted(vec![item(0, ticket, told, amount)])
}
pub fn waits(ticket: u32) -> Outcome {
    Outcome::Accepted(vec![item(1, ticket, 0, 0)])
}
/// A release and the grants of its pass: ticket, told, amount.
pub fn released(ticket: u32, grants: &[(u32, i32, u32)]) -> Outcome {
    let mut items = vec![item(2, ticket, 0, 0)];
    items.extend(grants.iter().map(|&(t, told, a)| item(0, t, told, a)));
    Outcome::Accepted(items)
}
pub fn opened() -> Outcome {
    Outcome::Accepted(vec![item(3, 0, 0, 0)])
}
pub fn refused(number: u32) -> Outcome {
    Outcome::Refused(number)
}

/// A desk with its watch. Every call checks: a refusal changes nothing, an accepted call sets the
/// clock and leaves a sound part that reads back as the same disk, and demand 3.
pub struct Run {
    pub desk: Desk,
    pub watch: Watch,
}

impl Run {
    pub fn empty() -> Run {
        Run {
            desk: Desk::empty(),
            watch: Watch::new(),
        }
    }

    /// Disk 3 opened at a second, with the limits of used and promised.
    pub fn opened_at(now: u32, used: u32, promised: u32) -> Run {
        let mut run = Run::empty();
        let record = record::open(DISK, now, used, promised);
        assert_eq!(run.call(&record), opened());
        run
    }

    /// "used and promised limit 1,000 unless said"
    pub fn usual() -> Run {
        Run::opened_at(0, 1_000, 1_000)
    }

    pub fn call(&mut self, record: &[u8]) -> Outcome {
        let disk = record.get(3).map_or(0, |&d| usize::from(d));
        let before = self.desk.disk(disk).cloned();
        let outcome = self.desk.step(BOARD, record, ANSWER);
        match &outcome {
            Outcome::Accepted(_) => {
                let after = self.desk.disk(disk).expect("accepted on an open disk");
                assert_eq!(sound(&encode(after)).as_ref(), Ok(after));
                let now = u32::from_le_bytes(record[8..12].try_into().unwrap());
                assert_eq!(after.clock, i64::from(now));
            }
            _ => assert_eq!(self.desk.disk(disk), before.as_ref()),
        }
        let watched = self.watch.check(&self.desk, disk, &outcome, record);
        assert_eq!(watched, Ok(()), "{outcome:?}");
        outcome
    }

    pub fn claim(&mut self, fields: Fields) -> Outcome {
        self.call(&record::claim(&fields))
    }

    pub fn release(&mut self, ticket: u32, now: u32) -> Outcome {
        self.call(&record::release(DISK, now, ticket))
    }

    /// Puts a hand-made disk in the place of disk 3; its readings are watched no more.
    pub fn put(&mut self, disk: &Disk) {
        self.put_part(DISK, &encode(disk));
        assert!(self.desk.disk(usize::from(DISK)).is_some(), "not sound");
    }

    pub fn put_part(&mut self, disk: u8, part: &[u8]) {
        let mut board = self.board();
        board[64 + 768 * usize::from(disk)..][..768].copy_from_slice(part);
        board[usize::from(disk / 8)] |= 1 << (disk % 8);
        self.desk.read_disk(&board, usize::from(disk));
        self.watch.forget(usize::from(disk));
    }

    pub fn board(&self) -> Vec<u8> {
        let mut board = vec![0; BOARD];
        self.desk.write(&mut board);
        board
    }

    pub fn disk(&self) -> &Disk {
        self.desk.disk(usize::from(DISK)).expect("open and sound")
    }

    /// The amount an active reading has now.
    pub fn amount_of(&self, ticket: i64) -> i64 {
        self.disk().active_claim(ticket).expect("active").amount
    }
}
