//! The number of a disk, and the methods of a disk.

use crate::layout::DISKS;
use std::fmt;

/// The number of a disk, 0 to 63.
///
/// ```
/// use stopblocker::Disk;
///
/// assert_eq!(Disk::new(63).map(Disk::number), Some(63));
/// assert_eq!(Disk::new(64), None);
/// ```
#[derive(Clone, Copy, PartialEq, Eq, PartialOrd, Ord, Hash, Debug)]
pub struct Disk(u8);

impl Disk {
    /// The disk with this number; none if it is above 63.
    pub const fn new(number: u8) -> Option<Disk> {
        if (number as usize) < DISKS {
            Some(Disk(number))
        } else {
            None
        }
    }

    /// Its number.
    pub const fn number(self) -> u8 {
        self.0
    }

    /// All disks of a board.
    pub fn all() -> impl Iterator<Item = Disk> {
        (0..DISKS as u8).map(Disk)
    }
}

impl fmt::Display for Disk {
    fn fmt(&self, f: &mut fmt::Formatter<'_>) -> fmt::Result {
        self.0.fmt(f)
    }
}

/// The methods of a disk.
#[derive(Clone, Copy, PartialEq, Eq, PartialOrd, Ord, Hash, Debug)]
#[repr(u8)]
pub enum Method {
    /// Sets used.
    ReportUsed = 0,
    /// Adds a signed amount to promised.
    AddPromised = 1,
    /// Sets promised.
    SetPromised = 2,
    /// Sets the state.
    SetState = 3,
    /// Told used.
    ReadUsed = 4,
    /// Told used + promised.
    ReadLoad = 5,
    /// Told the state.
    ReadState = 6,
}

impl Method {
    /// All of them, by number.
    pub const ALL: [Method; 7] = [
        Method::ReportUsed,
        Method::AddPromised,
        Method::SetPromised,
        Method::SetState,
        Method::ReadUsed,
        Method::ReadLoad,
        Method::ReadState,
    ];

    /// 01's number, 0 to 6.
    pub const fn number(self) -> u8 {
        self as u8
    }

    /// The method with this number; none if it is above 6.
    pub fn of(number: u32) -> Option<Method> {
        Method::ALL.get(usize::try_from(number).ok()?).copied()
    }

    /// Whether it is a reading; else it is a write.
    pub const fn is_reading(self) -> bool {
        self.number() >= Method::ReadUsed.number()
    }
}
