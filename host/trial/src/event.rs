//! The events that both desks get: calls, and bytes written to the board from outside. A list of events from the empty
//! board is a whole run, and can be repeated.

use crate::edges::Aim;
use second::{ANSWER, BOARD, PART, RECORD};
use stopblocker::layout::{record, CLAIM, DISKS};

/// The longest record that is tried.
pub const LONGEST: usize = 2 * RECORD;

/// A record and the lengths of the three buffers.
#[derive(Clone, Copy, Debug)]
pub struct Call {
    bytes: [u8; LONGEST],
    len: u8,
    pub board_len: u32,
    pub answer_len: u16,
    /// The edge at which the call is aimed, to be counted.
    pub aim: Option<Aim>,
}

impl Call {
    pub fn new(record: &[u8]) -> Call {
        let mut bytes = [0; LONGEST];
        bytes[..record.len()].copy_from_slice(record);
        Call { bytes, len: record.len() as u8, board_len: BOARD as u32, answer_len: ANSWER as u16, aim: None }
    }

    pub fn aimed(self, aim: Option<Aim>) -> Call {
        Call { aim, ..self }
    }

    pub fn lent(self, board_len: usize, answer_len: usize) -> Call {
        Call { board_len: board_len as u32, answer_len: answer_len as u16, ..self }
    }

    #[inline]
    pub fn record(&self) -> &[u8] {
        &self.bytes[..usize::from(self.len)]
    }

    /// The record as 24 bytes: a longer one is cut, a shorter one is filled with zeros.
    pub fn whole(&self) -> [u8; RECORD] {
        self.bytes[..RECORD].try_into().expect("24 bytes")
    }

    /// Whether it claims a reading.
    pub fn reads(&self) -> bool {
        self.bytes[record::KIND] == CLAIM && (4..=6).contains(&self.bytes[record::METHOD])
    }

    /// The disk that the record names, if the board has it.
    pub fn disk(&self) -> Option<usize> {
        let disk = usize::from(self.bytes[record::DISK]);
        (self.len == RECORD as u8 && disk < DISKS).then_some(disk)
    }

    /// Replaces bytes of a record that has the right length; whether that changed anything.
    pub fn change(&mut self, at: usize, bytes: &[u8]) -> bool {
        let place = &mut self.bytes[at..at + bytes.len()];
        let other = self.len == RECORD as u8 && place != bytes;
        if other {
            place.copy_from_slice(bytes);
        }
        other
    }

    /// The record of a call of this kind (1 open, 2 claim, 3 release), to be changed.
    pub fn of_kind(&mut self, kind: u8) -> Option<&mut [u8]> {
        (self.len == RECORD as u8 && self.bytes[record::KIND] == kind).then_some(&mut self.bytes[..RECORD])
    }
}

/// Why bytes are put on the board from outside.
#[derive(Clone, Copy, Debug, PartialEq, Eq)]
pub enum Why {
    /// By the damage with this place in `DAMAGES`.
    Damaged(usize),
    /// What stood there before the damage.
    Restored,
    /// One of the others, made simpler while a failing list is shortened.
    Shorter,
    /// A sound part built at random.
    Odd,
    /// The same disk with few tickets left, or none.
    LastTickets,
    /// A closed disk with any bytes in its part.
    Closed,
}

#[derive(Clone, Debug)]
pub enum Event {
    Call(Call),
    /// A part and its open bit, written from outside.
    Put {
        disk: usize,
        why: Why,
        part: Box<[u8; PART]>,
    },
    /// The whole board, filled with random bytes from a seed; the open bits too, unless all disks are closed.
    Garbage {
        seed: u64,
        open: bool,
    },
}

impl Event {
    pub fn put(disk: usize, why: Why, part: [u8; PART]) -> Event {
        Event::Put { disk, why, part: Box::new(part) }
    }

    /// The one disk that the event is about.
    pub fn disk(&self) -> Option<usize> {
        match self {
            Event::Call(call) => call.disk(),
            Event::Put { disk, .. } => Some(*disk),
            Event::Garbage { .. } => None,
        }
    }
}
