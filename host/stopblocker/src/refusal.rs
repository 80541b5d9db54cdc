//! The refusals, with 01's numbers and sentences.

use std::error::Error;
use std::fmt;

/// Why a call was refused. Nothing on the board has changed.
///
/// Its `Display` is 01's sentence; its `Debug`, which `unwrap` and a failing `main` print, has the number too.
///
/// ```
/// use stopblocker::Refusal;
///
/// assert_eq!(Refusal::Clock.number(), 15);
/// assert_eq!(Refusal::of(15), Some(Refusal::Clock));
/// assert_eq!(Refusal::Clock.to_string(), "now below the disk's clock");
/// assert_eq!(format!("{:?}", Refusal::Clock), "refused 15 (now below the disk's clock)");
/// assert_eq!(Refusal::Closed.what_to_do(), "open the disk first");
/// ```
#[derive(Clone, Copy, PartialEq, Eq, PartialOrd, Ord, Hash)]
#[repr(u32)]
pub enum Refusal {
    /// 9: board or answer buffer of another length; neither is touched.
    Length = 9,
    /// 10: record not 24 bytes, wrong mark or kind, flag over 1, an unused byte or byte 7 not zero.
    Record = 10,
    /// 11: disk above 63.
    Disk = 11,
    /// 12: open of an open disk.
    Open = 12,
    /// 13: claim or release on a closed disk.
    Closed = 13,
    /// 14: the disk's part isn't sound (not for open).
    Unsound = 14,
    /// 15: now below the disk's clock (not for open).
    Clock = 15,
    /// 16: method above 6 (claim).
    Method = 16,
    /// 17: a field out of range: values, errors, limits; a reading with value or second of measuring not 0; a write
    /// with the fresh flag, or measured after now.
    Field = 17,
    /// 18: a write whose own error exceeds its attribute's limit.
    OwnError = 18,
    /// 19: a claim with no ticket left.
    NoTicket = 19,
    /// 20: a claim that would wait while 8 wait.
    Full = 20,
    /// 21: release of a ticket neither active nor waiting.
    Ticket = 21,
}

impl Refusal {
    /// All of them, in the order they apply.
    pub const ALL: [Refusal; 13] = [
        Refusal::Length,
        Refusal::Record,
        Refusal::Disk,
        Refusal::Open,
        Refusal::Closed,
        Refusal::Unsound,
        Refusal::Clock,
        Refusal::Method,
        Refusal::Field,
        Refusal::OwnError,
        Refusal::NoTicket,
        Refusal::Full,
        Refusal::Ticket,
    ];

    /// 01's number, 9 to 21.
    pub const fn number(self) -> u32 {
        self as u32
    }

    /// The refusal with this number; none if there is no such refusal.
    pub fn of(number: u32) -> Option<Refusal> {
        Refusal::ALL.into_iter().find(|r| r.number() == number)
    }

    /// What a caller can do about it, in a line.
    pub const fn what_to_do(self) -> &'static str {
        match self {
            Refusal::Length => "lend a board of 49,216 bytes and an answer buffer of 144",
            Refusal::Record => "the sender's fault, or bytes lost on the way; sb decode says which byte is wrong",
            Refusal::Disk => "a board has disks 0 to 63; more disks need a second board",
            Refusal::Open => "it is open already, go on with claims; its limits stay as the first open set them",
            Refusal::Closed => "open the disk first",
            Refusal::Unsound => {
                "its bytes were changed from outside: put back a copy of the board, or clear its open bit and open it anew"
            }
            Refusal::Clock => {
                "an accepted call was later than this one: call again with the present second; all callers need one clock"
            }
            Refusal::Method => {
                "methods are 0 ReportUsed, 1 AddPromised, 2 SetPromised, 3 SetState, 4 ReadUsed, 5 ReadLoad, 6 ReadState"
            }
            Refusal::Field => "the sender's fault; sb explain --records names the field",
            Refusal::OwnError => {
                "it could never be granted: measure better, or open the disk with a larger limit on the next board"
            }
            Refusal::NoTicket => "all 999,999 tickets of this disk are taken: begin a new board",
            Refusal::Full => "try again after a release, or on a disk that is less wanted",
            Refusal::Ticket => "it was released before, or never was; nothing is held under it",
        }
    }
}

impl fmt::Display for Refusal {
    fn fmt(&self, f: &mut fmt::Formatter<'_>) -> fmt::Result {
        f.write_str(match self {
            Refusal::Length => "board or answer buffer of another length; neither is touched",
            Refusal::Record => {
                "record not 24 bytes, wrong mark or kind, flag over 1, an unused byte or byte 7 not zero"
            }
            Refusal::Disk => "disk above 63",
            Refusal::Open => "open of an open disk",
            Refusal::Closed => "claim or release on a closed disk",
            Refusal::Unsound => "the disk's part isn't sound",
            Refusal::Clock => "now below the disk's clock",
            Refusal::Method => "method above 6",
            Refusal::Field => {
                "a field out of range: values, errors, limits; a reading with value or second of measuring not 0; \
                 a write with the fresh flag, or measured after now"
            }
            Refusal::OwnError => "a write whose own error exceeds its attribute's limit",
            Refusal::NoTicket => "a claim with no ticket left",
            Refusal::Full => "a claim that would wait while 8 wait",
            Refusal::Ticket => "release of a ticket neither active nor waiting",
        })
    }
}

impl fmt::Debug for Refusal {
    fn fmt(&self, f: &mut fmt::Formatter<'_>) -> fmt::Result {
        write!(f, "refused {} ({self})", self.number())
    }
}

impl Error for Refusal {}
