//! The desk: 64 disks, the refusals 9 to 14, and the comparison with a board.

use crate::disk::Disk;
use crate::layout::{encode, first_difference};
use crate::outcome::{Item, Outcome};
use crate::record::{self, Kind};
use crate::rules::{self, Asked, Refusal};
use crate::sound::sound;
use crate::{ANSWER, BOARD, DISKS, HEAD, PART};

/// What stands in one of the 64 places.
#[derive(Clone, Debug)]
enum Place {
    /// A closed disk; its bytes may be anything.
    Closed,
    Open(Disk),
    /// Open, but the part isn't sound: every call on it is refused, so its bytes stay as they are.
    Unsound(Box<[u8; PART]>),
}

#[derive(Clone, Debug)]
pub struct Desk {
    places: Vec<Place>,
}

/// "disk d: bit d mod 8 of byte d div 8"
fn is_open(board: &[u8], disk: usize) -> bool {
    board[disk / 8] >> (disk % 8) & 1 == 1
}

/// "starting at 64 + 768 times the disk"
fn part_of(board: &[u8], disk: usize) -> &[u8] {
    &board[HEAD + PART * disk..][..PART]
}

impl Desk {
    /// "All zeros is the empty board."
    pub fn empty() -> Desk {
        Desk {
            places: vec![Place::Closed; DISKS],
        }
    }

    /// Reads a whole board of 49,216 bytes.
    pub fn read(board: &[u8]) -> Desk {
        let mut desk = Desk::empty();
        for disk in 0..DISKS {
            desk.read_disk(board, disk);
        }
        desk
    }

    /// Re-reads one disk's part and its open bit.
    pub fn read_disk(&mut self, board: &[u8], disk: usize) {
        assert_eq!(board.len(), BOARD, "a board is 49,216 bytes");
        self.places[disk] = if is_open(board, disk) {
            let part = part_of(board, disk);
            match sound(part) {
                Ok(disk) => Place::Open(disk),
                Err(_) => Place::Unsound(Box::new(part.try_into().expect("768 bytes"))),
            }
        } else {
            Place::Closed
        };
    }

    /// One call. `board_len` and `answer_len` are the lengths of the two lent buffers.
    pub fn step(&mut self, board_len: usize, record: &[u8], answer_len: usize) -> Outcome {
        // 9: "board or answer buffer of another length; neither is touched"
        if board_len != BOARD || answer_len != ANSWER {
            return Outcome::Nine;
        }
        match self.call(record) {
            Ok(items) => Outcome::Accepted(items),
            Err(refusal) => Outcome::Refused(refusal as u32),
        }
    }

    /// The refusals 10 to 14 in their order, then the request itself.
    fn call(&mut self, bytes: &[u8]) -> Result<Vec<Item>, Refusal> {
        let request = record::read(bytes).ok_or(Refusal::Record)?;
        let now = request.now;
        let place = self
            .places
            .get_mut(request.disk)
            .ok_or(Refusal::DiskAbove63)?;
        match request.kind {
            Kind::Open {
                limit_of_used,
                limit_of_promised,
            } => match place {
                Place::Open(_) | Place::Unsound(_) => Err(Refusal::OpenOfOpen),
                Place::Closed => {
                    let (disk, items) = rules::open(now, limit_of_used, limit_of_promised)?;
                    *place = Place::Open(disk);
                    Ok(items)
                }
            },
            Kind::Claim {
                method,
                priority,
                fresh,
                measured,
                value,
                error_or_limit,
            } => {
                let asked = Asked {
                    method,
                    priority,
                    fresh,
                    measured,
                    value,
                    error_or_limit,
                };
                rules::claim(open_and_sound(place)?, now, asked)
            }
            Kind::Release { ticket } => rules::release(open_and_sound(place)?, now, ticket),
        }
    }

    /// Compares open bits and open disks' parts with `board` and names the first figure that
    /// differs. `only`: look only at this disk (and the open bits) when Some.
    pub fn differs(&self, board: &[u8], only: Option<usize>) -> Option<String> {
        if board.len() != BOARD {
            return Some(format!(
                "board length: expected {BOARD}, found {}",
                board.len()
            ));
        }
        for disk in 0..DISKS {
            let expected = !matches!(self.places[disk], Place::Closed);
            let found = is_open(board, disk);
            if expected != found {
                return Some(format!(
                    "disk {disk}, open bit: expected {}, found {}",
                    u8::from(expected),
                    u8::from(found)
                ));
            }
        }
        let differs = |disk: usize| {
            let part = part_of(board, disk);
            match &self.places[disk] {
                Place::Closed => None,
                Place::Open(figures) => first_difference(&encode(figures), part),
                Place::Unsound(kept) => {
                    first_difference(&kept[..], part).map(|text| format!("unsound, {text}"))
                }
            }
            .map(|text| format!("disk {disk}, {text}"))
        };
        match only {
            Some(disk) => differs(disk),
            None => (0..DISKS).find_map(differs),
        }
    }

    /// Writes open bits and open disks' parts into a board; all other bytes stay.
    pub fn write(&self, board: &mut [u8]) {
        assert_eq!(board.len(), BOARD, "a board is 49,216 bytes");
        for (disk, place) in self.places.iter().enumerate() {
            let bit = 1 << (disk % 8);
            board[disk / 8] &= !bit;
            let part = match place {
                Place::Closed => continue,
                Place::Open(figures) => encode(figures),
                Place::Unsound(kept) => **kept,
            };
            board[disk / 8] |= bit;
            board[HEAD + PART * disk..][..PART].copy_from_slice(&part);
        }
    }

    /// The figures of an open, sound disk.
    pub fn disk(&self, disk: usize) -> Option<&Disk> {
        match self.places.get(disk) {
            Some(Place::Open(figures)) => Some(figures),
            _ => None,
        }
    }

    /// "The number of open disks is the count of those bits."
    pub fn open_count(&self) -> u32 {
        let open = |place: &&Place| !matches!(place, Place::Closed);
        self.places.iter().filter(open).count() as u32
    }
}

/// 13: "claim or release on a closed disk"; 14: "the disk's part isn't sound (not for open)".
fn open_and_sound(place: &mut Place) -> Result<&mut Disk, Refusal> {
    match place {
        Place::Closed => Err(Refusal::Closed),
        Place::Unsound(_) => Err(Refusal::Unsound),
        Place::Open(disk) => Ok(disk),
    }
}
