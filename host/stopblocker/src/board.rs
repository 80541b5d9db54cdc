//! The board, and the calls on it.

use crate::layout::{open_bit, part_at, ANSWER_BYTES, BOARD_BYTES, OPEN_BYTES, PART_BYTES};
use crate::{step, Answer, Claim, Claimed, Disk, DiskView, Open, Opened, Refusal, Release, Released, Request};
use std::error::Error;
use std::fmt;

/// The board of up to 64 disks.
///
/// ```
/// use stopblocker::{Board, Disk, Open, Refusal};
///
/// let mut board = Board::new();
/// let disk = Disk::new(3).unwrap();
/// board.open(Open::new(disk, 100, 1_000, 500)).unwrap();
/// assert_eq!(board.open(Open::new(disk, 100, 1_000, 500)), Err(Refusal::Open));
/// assert_eq!(board.open_disks(), 1);
///
/// let copy = Board::from_bytes(board.as_bytes()).unwrap();
/// assert_eq!(copy, board);
/// ```
#[derive(Clone, PartialEq, Eq)]
pub struct Board {
    bytes: Box<[u8]>,
}

/// The error for bytes that are not a board: a board has 49,216.
#[derive(Clone, Copy, PartialEq, Eq, Debug)]
pub struct WrongLength {
    /// How many bytes there were.
    pub length: usize,
}

impl fmt::Display for WrongLength {
    fn fmt(&self, f: &mut fmt::Formatter<'_>) -> fmt::Result {
        write!(f, "a board has {BOARD_BYTES} bytes, not {}", self.length)
    }
}

impl Error for WrongLength {}

impl Board {
    /// The empty board: every disk is closed.
    pub fn new() -> Board {
        Board { bytes: vec![0; BOARD_BYTES].into_boxed_slice() }
    }

    /// A board of these bytes, whatever they hold: a call on a disk whose part isn't sound is refused 14.
    pub fn from_bytes(bytes: &[u8]) -> Result<Board, WrongLength> {
        if bytes.len() == BOARD_BYTES {
            Ok(Board { bytes: bytes.into() })
        } else {
            Err(WrongLength { length: bytes.len() })
        }
    }

    /// Its 49,216 bytes, as docs/LAYOUT.md says.
    pub fn as_bytes(&self) -> &[u8] {
        &self.bytes
    }

    /// Opens a disk.
    pub fn open(&mut self, open: Open) -> Result<Opened, Refusal> {
        match self.call(open)? {
            Answer::Opened(opened) => Ok(opened),
            other => unreachable!("an open answers opened, not {other:?}"),
        }
    }

    /// Claims a method of a disk.
    pub fn claim(&mut self, claim: Claim) -> Result<Claimed, Refusal> {
        match self.call(claim)? {
            Answer::Granted(granted) => Ok(Claimed::Granted(granted)),
            Answer::Waits(waits) => Ok(Claimed::Waits(waits)),
            other => unreachable!("a claim answers granted or waits, not {other:?}"),
        }
    }

    /// Releases a claim, active or waiting.
    pub fn release(&mut self, release: Release) -> Result<Released, Refusal> {
        match self.call(release)? {
            Answer::Released(released) => Ok(released),
            other => unreachable!("a release answers released, not {other:?}"),
        }
    }

    /// Any request.
    pub fn call(&mut self, request: impl Into<Request>) -> Result<Answer, Refusal> {
        let mut answer = [0; ANSWER_BYTES];
        step(&mut self.bytes, &request.into().record(), &mut answer);
        Answer::of(&answer)
    }

    /// Whether a disk is open.
    pub fn is_open(&self, disk: Disk) -> bool {
        let (byte, mask) = open_bit(usize::from(disk.number()));
        self.bytes[byte] & mask != 0
    }

    /// The number of open disks.
    pub fn open_disks(&self) -> u32 {
        self.bytes[..OPEN_BYTES].iter().map(|byte| byte.count_ones()).sum()
    }

    /// An open disk as it stands on the board; none if the disk is closed.
    pub fn disk(&self, disk: Disk) -> Option<DiskView<'_>> {
        let at = part_at(usize::from(disk.number()));
        self.is_open(disk).then(|| DiskView::of(&self.bytes[at..at + PART_BYTES]))
    }
}

impl Default for Board {
    fn default() -> Board {
        Board::new()
    }
}

impl fmt::Debug for Board {
    fn fmt(&self, f: &mut fmt::Formatter<'_>) -> fmt::Result {
        f.debug_map().entries(Disk::all().filter_map(|d| self.disk(d).map(|view| (d.number(), view)))).finish()
    }
}
