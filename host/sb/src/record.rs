//! A well-formed record, whatever it asks. It may have a disk above 63, a method above 6 or a field out of range, which the
//! desk refuses; the crate's requests cannot ask for that.

use std::ops::Range;
use stopblocker::layout::{begun, put_signed, put_word, record as at, signed_at, word_at};
use stopblocker::layout::{CLAIM, MARK, OPEN, RECORD_BYTES, RELEASE};
use stopblocker::Method;

#[derive(Clone, Copy, PartialEq, Eq, Debug)]
pub enum Record {
    Open { disk: u8, now: u32, used_limit: u32, promised_limit: u32 },
    Claim(Claim),
    Release { disk: u8, now: u32, ticket: u32 },
}

#[derive(Clone, Copy, PartialEq, Eq, Debug)]
pub struct Claim {
    pub disk: u8,
    pub now: u32,
    pub method: u8,
    pub priority: u8,
    pub fresh: bool,
    pub measured: u32,
    pub value: i32,
    /// Own error of a write, stated limit of a reading.
    pub error: u32,
}

impl Claim {
    /// The method of its number; none if the number is unknown.
    pub fn known_method(&self) -> Option<Method> {
        Method::of(u32::from(self.method))
    }
}

impl Record {
    /// The record of these bytes, or why the desk would refuse them 10.
    pub fn of(bytes: &[u8]) -> Result<Record, String> {
        if bytes.len() != RECORD_BYTES {
            return Err(format!("{} bytes, expected {RECORD_BYTES}", bytes.len()));
        }
        if bytes[..2] != MARK {
            let [first, second] = MARK;
            let begins = format!("begins with {:02x} {:02x}", bytes[0], bytes[1]);
            return Err(format!("{begins}, expected the mark {first:02x} {second:02x}"));
        }
        let (disk, now) = (bytes[at::DISK], word_at(bytes, at::NOW));
        match bytes[at::KIND] {
            OPEN => unused(bytes, &[at::METHOD..at::NOW, at::MEASURED..at::VALUE]).map(|()| Record::Open {
                disk,
                now,
                used_limit: word_at(bytes, at::USED_LIMIT),
                promised_limit: word_at(bytes, at::PROMISED_LIMIT),
            }),
            CLAIM if bytes[at::FRESH] > 1 => Err(format!("fresh flag {}, expected 0 or 1", bytes[at::FRESH])),
            CLAIM => unused(bytes, &[at::ZERO..at::NOW]).map(|()| {
                Record::Claim(Claim {
                    disk,
                    now,
                    method: bytes[at::METHOD],
                    priority: bytes[at::PRIORITY],
                    fresh: bytes[at::FRESH] == 1,
                    measured: word_at(bytes, at::MEASURED),
                    value: signed_at(bytes, at::VALUE),
                    error: word_at(bytes, at::OWN_ERROR),
                })
            }),
            RELEASE => unused(bytes, &[at::METHOD..at::NOW, at::VALUE..RECORD_BYTES]).map(|()| Record::Release {
                disk,
                now,
                ticket: word_at(bytes, at::TICKET),
            }),
            kind => Err(format!("kind {kind}, expected {OPEN} (open), {CLAIM} (claim) or {RELEASE} (release)")),
        }
    }

    pub fn disk(&self) -> u8 {
        match *self {
            Record::Open { disk, .. } | Record::Release { disk, .. } => disk,
            Record::Claim(claim) => claim.disk,
        }
    }

    pub fn bytes(&self) -> [u8; RECORD_BYTES] {
        match *self {
            Record::Open { disk, now, used_limit, promised_limit } => {
                let mut bytes = begun(OPEN, disk, now);
                put_word(&mut bytes, at::USED_LIMIT, used_limit);
                put_word(&mut bytes, at::PROMISED_LIMIT, promised_limit);
                bytes
            }
            Record::Claim(claim) => {
                let mut bytes = begun(CLAIM, claim.disk, claim.now);
                bytes[at::METHOD] = claim.method;
                bytes[at::PRIORITY] = claim.priority;
                bytes[at::FRESH] = u8::from(claim.fresh);
                put_word(&mut bytes, at::MEASURED, claim.measured);
                put_signed(&mut bytes, at::VALUE, claim.value);
                put_word(&mut bytes, at::OWN_ERROR, claim.error);
                bytes
            }
            Record::Release { disk, now, ticket } => {
                let mut bytes = begun(RELEASE, disk, now);
                put_word(&mut bytes, at::TICKET, ticket);
                bytes
            }
        }
    }
}

/// The bytes that a kind of record does not use are zero.
fn unused(bytes: &[u8], ranges: &[Range<usize>]) -> Result<(), String> {
    match ranges.iter().cloned().flatten().find(|&at| bytes[at] != 0) {
        Some(at) => Err(format!("byte {at} is {}, expected 0", bytes[at])),
        None => Ok(()),
    }
}

#[cfg(test)]
mod tests {
    use super::*;
    use stopblocker::layout::{ANSWER_BYTES, BOARD_BYTES};
    use stopblocker::step;

    /// Every byte of three records takes every value: it is a record exactly if the desk does not refuse 10, and then it
    /// gives back its bytes.
    #[test]
    fn refusal_10_and_no_other() {
        let claim = Claim { disk: 3, now: 9, method: 2, priority: 5, fresh: true, measured: 8, value: -7, error: 6 };
        let open = Record::Open { disk: 3, now: 9, used_limit: 1_000, promised_limit: 500 };
        let release = Record::Release { disk: 3, now: 9, ticket: 77 };
        let mut refused = 0;
        for record in [open, Record::Claim(claim), release] {
            for place in 0..RECORD_BYTES {
                for byte in 0..=255 {
                    let mut bytes = record.bytes();
                    bytes[place] = byte;
                    let code = step(&mut [0; BOARD_BYTES], &bytes, &mut [0; ANSWER_BYTES]);
                    match Record::of(&bytes) {
                        Ok(record) => assert!(code != 10 && record.bytes() == bytes, "{bytes:?}"),
                        Err(_) => assert_eq!(code, 10, "{bytes:?}"),
                    }
                    refused += u32::from(code == 10);
                }
            }
        }
        // The mark; the kind (an open and a release with kind 2 are claims); the unused bytes; the claim's flag.
        assert_eq!(refused, 3 * 2 * 255 + (254 + 255 + 254) + (8 + 1 + 12) * 255 + 254);
        assert_eq!(Record::of(&open.bytes()[..23]), Err("23 bytes, expected 24".to_string()));
        assert!(Record::of(&[&open.bytes()[..], &[0]].concat()).is_err() && Record::of(&[]).is_err());
    }
}
