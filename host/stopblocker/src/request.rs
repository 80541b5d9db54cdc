//! Open, release and any request, and their records.

use crate::layout::{begun, put_word, record, OPEN, RECORD_BYTES, RELEASE};
use crate::{Claim, Disk};

/// Opens a disk: values and amounts 0, stamps and clock = now, next ticket 1, no claims.
///
/// Its limits are the most error that used and promised may carry, not the disk's capacity. They cannot be changed on this
/// board: a second open is refused 12, and nothing closes a disk.
#[derive(Clone, Copy, PartialEq, Eq, Hash, Debug)]
pub struct Open {
    disk: Disk,
    now: u32,
    used_limit: u32,
    promised_limit: u32,
}

impl Open {
    /// An open at second `now`, with the limits of used and promised, 0 to 2,000,000,000 each.
    pub const fn new(disk: Disk, now: u32, used_limit: u32, promised_limit: u32) -> Open {
        Open { disk, now, used_limit, promised_limit }
    }

    /// Its disk.
    pub const fn disk(&self) -> Disk {
        self.disk
    }

    /// Its record.
    pub fn record(&self) -> [u8; RECORD_BYTES] {
        let mut bytes = begun(OPEN, self.disk.number(), self.now);
        put_word(&mut bytes, record::USED_LIMIT, self.used_limit);
        put_word(&mut bytes, record::PROMISED_LIMIT, self.promised_limit);
        bytes
    }
}

/// Releases a claim: an active write shows in the figures, a reading or a waiting claim is removed. Then one pass over
/// the waiting claims.
#[derive(Clone, Copy, PartialEq, Eq, Hash, Debug)]
pub struct Release {
    disk: Disk,
    now: u32,
    ticket: u32,
}

impl Release {
    /// A release of a ticket at second `now`.
    pub const fn new(disk: Disk, now: u32, ticket: u32) -> Release {
        Release { disk, now, ticket }
    }

    /// Its disk.
    pub const fn disk(&self) -> Disk {
        self.disk
    }

    /// Its record.
    pub fn record(&self) -> [u8; RECORD_BYTES] {
        let mut bytes = begun(RELEASE, self.disk.number(), self.now);
        put_word(&mut bytes, record::TICKET, self.ticket);
        bytes
    }
}

/// Any of the three, for programs that pass requests on.
#[derive(Clone, Copy, PartialEq, Eq, Hash, Debug)]
pub enum Request {
    /// Opens a disk.
    Open(Open),
    /// Claims a method of a disk.
    Claim(Claim),
    /// Releases a claim.
    Release(Release),
}

impl Request {
    /// Its disk.
    pub const fn disk(&self) -> Disk {
        match self {
            Request::Open(open) => open.disk(),
            Request::Claim(claim) => claim.disk(),
            Request::Release(release) => release.disk(),
        }
    }

    /// Its record.
    pub fn record(&self) -> [u8; RECORD_BYTES] {
        match self {
            Request::Open(open) => open.record(),
            Request::Claim(claim) => claim.record(),
            Request::Release(release) => release.record(),
        }
    }
}

impl From<Open> for Request {
    fn from(open: Open) -> Request {
        Request::Open(open)
    }
}

impl From<Claim> for Request {
    fn from(claim: Claim) -> Request {
        Request::Claim(claim)
    }
}

impl From<Release> for Request {
    fn from(release: Release) -> Request {
        Request::Release(release)
    }
}
