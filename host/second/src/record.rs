//! The request record: 24 bytes to a request, and for tests a request to 24 bytes.

use crate::RECORD;

/// "0–1 the mark 0x52 0x42".
const MARK: [u8; 2] = [0x52, 0x42];
/// "2 kind (1 open, 2 claim, 3 release)".
const OPEN: u8 = 1;
const CLAIM: u8 = 2;
const RELEASE: u8 = 3;

/// A record that isn't refused 10.
#[derive(Clone, Debug, PartialEq, Eq)]
pub struct Request {
    pub disk: usize,
    pub now: i64,
    pub kind: Kind,
}

#[derive(Clone, Debug, PartialEq, Eq)]
pub enum Kind {
    Open {
        limit_of_used: i64,
        limit_of_promised: i64,
    },
    Claim {
        method: i64,
        priority: i64,
        fresh: bool,
        measured: i64,
        value: i64,
        error_or_limit: i64,
    },
    Release {
        ticket: i64,
    },
}

/// None where the refusal is 10: "record not 24 bytes, wrong mark or kind, flag over 1,
/// an unused byte or byte 7 not zero".
pub fn read(record: &[u8]) -> Option<Request> {
    let bytes: &[u8; RECORD] = record.try_into().ok()?;
    let word = |at: usize| u32::from_le_bytes(bytes[at..at + 4].try_into().expect("four bytes"));
    let unsigned = |at: usize| i64::from(word(at));
    let zero = |from: usize, to: usize| bytes[from..=to].iter().all(|&byte| byte == 0);
    if bytes[0..2] != MARK || bytes[7] != 0 {
        return None;
    }
    let kind = match bytes[2] {
        // "Bytes unused by open (4–6, 12–15) ... are zero."
        OPEN if zero(4, 6) && zero(12, 15) => Kind::Open {
            limit_of_used: unsigned(16),
            limit_of_promised: unsigned(20),
        },
        // "4 method; 5 priority, 255 the highest; 6 fresh flag 0 or 1"
        CLAIM if bytes[6] <= 1 => Kind::Claim {
            method: i64::from(bytes[4]),
            priority: i64::from(bytes[5]),
            fresh: bytes[6] == 1,
            measured: unsigned(12),
            value: i64::from(word(16) as i32),
            error_or_limit: unsigned(20),
        },
        // "and release (4–6, 16–23) are zero."
        RELEASE if zero(4, 6) && zero(16, 23) => Kind::Release {
            ticket: unsigned(12),
        },
        _ => return None,
    };
    Some(Request {
        disk: usize::from(bytes[3]),
        now: unsigned(8),
        kind,
    })
}

/// The fields of a claim's record, any of them possibly out of range.
#[derive(Clone, Copy, Debug, Default, PartialEq, Eq)]
pub struct Fields {
    pub disk: u8,
    pub method: u8,
    pub priority: u8,
    pub flag: u8,
    pub now: u32,
    pub measured: u32,
    pub value: i32,
    /// "own error of a write, stated limit of a reading".
    pub error_or_limit: u32,
}

fn build(kind: u8, disk: u8, now: u32, at_12: u32, at_16: u32, at_20: u32) -> [u8; RECORD] {
    let mut bytes = [0; RECORD];
    bytes[0..2].copy_from_slice(&MARK);
    bytes[2] = kind;
    bytes[3] = disk;
    bytes[8..12].copy_from_slice(&now.to_le_bytes());
    bytes[12..16].copy_from_slice(&at_12.to_le_bytes());
    bytes[16..20].copy_from_slice(&at_16.to_le_bytes());
    bytes[20..24].copy_from_slice(&at_20.to_le_bytes());
    bytes
}

/// An open: "limit of used (open)" and "limit of promised (open)".
pub fn open(disk: u8, now: u32, limit_of_used: u32, limit_of_promised: u32) -> [u8; RECORD] {
    build(OPEN, disk, now, 0, limit_of_used, limit_of_promised)
}

/// A claim.
pub fn claim(fields: &Fields) -> [u8; RECORD] {
    let mut bytes = build(
        CLAIM,
        fields.disk,
        fields.now,
        fields.measured,
        fields.value as u32,
        fields.error_or_limit,
    );
    bytes[4] = fields.method;
    bytes[5] = fields.priority;
    bytes[6] = fields.flag;
    bytes
}

/// A release: "ticket (release)".
pub fn release(disk: u8, now: u32, ticket: u32) -> [u8; RECORD] {
    build(RELEASE, disk, now, ticket, 0, 0)
}
