//! A disk as it stands on the board, read only, for tools that show it to people.

use crate::layout::{figure, part, signed_at, slot, word_at, CLAIMS, SLOT_BYTES};
use crate::Method;
use std::fmt;

/// An open disk of a board.
///
/// If only calls have written the board, this is the disk. Otherwise it shows what the bytes say, sound or not; the desk
/// refuses 14 if they aren't sound.
///
/// ```
/// use stopblocker::{Board, Claim, Disk, Method, Open};
///
/// let mut board = Board::new();
/// let disk = Disk::new(3).unwrap();
/// board.open(Open::new(disk, 100, 1_000, 500)).unwrap();
/// board.claim(Claim::report_used(disk, 101, 40_000, 20)).unwrap();
///
/// let view = board.disk(disk).unwrap();
/// assert_eq!((view.clock(), view.next_ticket()), (101, 2));
/// assert_eq!((view.used().value, view.used().amount), (0, 20));
/// let claim = view.active().next().unwrap();
/// assert_eq!((claim.ticket, claim.method, claim.value), (1, Some(Method::ReportUsed), 40_000));
/// assert_eq!(view.waiting().count(), 0);
/// assert!(board.disk(Disk::new(4).unwrap()).is_none());
/// ```
#[derive(Clone, Copy, PartialEq, Eq)]
pub struct DiskView<'a> {
    part: &'a [u8],
}

/// Used or promised.
#[derive(Clone, Copy, PartialEq, Eq, Hash, Debug)]
pub struct Figure {
    /// MiB.
    pub value: i32,
    /// Second of measuring of the last set that was released, or of the open.
    pub stamp: u32,
    /// How much error it carries.
    pub amount: u32,
    /// The most that its amount may be.
    pub limit: u32,
}

/// The state.
#[derive(Clone, Copy, PartialEq, Eq, Hash, Debug)]
pub struct State {
    /// A code, 0 to 255 where the part is sound.
    pub code: i32,
    /// Second of measuring of the last SetState that was released, or of the open.
    pub stamp: u32,
}

/// A claim, active or waiting.
#[derive(Clone, Copy, PartialEq, Eq, Hash, Debug)]
pub struct ClaimView {
    /// Ticket.
    pub ticket: u32,
    /// Method; none if its number is above 6, which no sound part has.
    pub method: Option<Method>,
    /// Priority, 0 to 255 where the part is sound.
    pub priority: u32,
    /// Whether it asks for fresh figures.
    pub fresh: bool,
    /// Second of measuring; 0 for a reading.
    pub measured: u32,
    /// Value of a set, amount of an add; 0 for a reading.
    pub value: i32,
    /// Own error of a write, stated limit of a reading.
    pub error: u32,
    /// What an active reading was told; 0 for any other claim.
    pub told: i32,
    /// The present amount of an active reading; 0 for any other claim.
    pub amount: u32,
}

impl<'a> DiskView<'a> {
    pub(crate) fn of(part: &'a [u8]) -> DiskView<'a> {
        DiskView { part }
    }

    /// Second of the last accepted call.
    pub fn clock(&self) -> u32 {
        word_at(self.part, part::CLOCK)
    }

    /// The ticket that the next granted or waiting claim takes; 1,000,000 when none is left.
    pub fn next_ticket(&self) -> u32 {
        word_at(self.part, part::NEXT_TICKET)
    }

    /// Used.
    pub fn used(&self) -> Figure {
        self.figure(part::USED)
    }

    /// Promised.
    pub fn promised(&self) -> Figure {
        self.figure(part::PROMISED)
    }

    /// State.
    pub fn state(&self) -> State {
        State {
            code: signed_at(self.part, part::STATE + figure::VALUE),
            stamp: word_at(self.part, part::STATE + figure::STAMP),
        }
    }

    /// The active claims, in the order of their grants.
    pub fn active(&self) -> impl Iterator<Item = ClaimView> + 'a {
        self.claims(part::ACTIVE_COUNT, part::ACTIVE)
    }

    /// The waiting claims, in the order of the pass.
    pub fn waiting(&self) -> impl Iterator<Item = ClaimView> + 'a {
        self.claims(part::WAITING_COUNT, part::WAITING)
    }

    fn figure(&self, at: usize) -> Figure {
        Figure {
            value: signed_at(self.part, at + figure::VALUE),
            stamp: word_at(self.part, at + figure::STAMP),
            amount: word_at(self.part, at + figure::AMOUNT),
            limit: word_at(self.part, at + figure::LIMIT),
        }
    }

    // A part has eight slots, whatever its count says.
    fn claims(&self, count: usize, at: usize) -> impl Iterator<Item = ClaimView> + 'a {
        let slots = &self.part[at..at + CLAIMS * SLOT_BYTES];
        let count = word_at(self.part, count).min(CLAIMS as u32);
        slots.chunks_exact(SLOT_BYTES).take(count as usize).map(ClaimView::of)
    }
}

impl ClaimView {
    fn of(bytes: &[u8]) -> ClaimView {
        ClaimView {
            ticket: word_at(bytes, slot::TICKET),
            method: Method::of(word_at(bytes, slot::METHOD)),
            priority: word_at(bytes, slot::PRIORITY),
            fresh: word_at(bytes, slot::FRESH) != 0,
            measured: word_at(bytes, slot::MEASURED),
            value: signed_at(bytes, slot::VALUE),
            error: word_at(bytes, slot::OWN_ERROR),
            told: signed_at(bytes, slot::TOLD),
            amount: word_at(bytes, slot::AMOUNT),
        }
    }
}

impl fmt::Debug for DiskView<'_> {
    fn fmt(&self, f: &mut fmt::Formatter<'_>) -> fmt::Result {
        f.debug_struct("Disk")
            .field("clock", &self.clock())
            .field("next_ticket", &self.next_ticket())
            .field("used", &self.used())
            .field("promised", &self.promised())
            .field("state", &self.state())
            .field("active", &self.active().collect::<Vec<_>>())
            .field("waiting", &self.waiting().collect::<Vec<_>>())
            .finish()
    }
}
