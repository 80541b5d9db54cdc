//! What a call comes to, and the answer buffer's bytes.

use crate::ANSWER;

/// "nine items of 16 (code, ticket, told as signed, amount)".
#[derive(Clone, Debug, PartialEq, Eq)]
pub struct Item {
    pub code: u32,
    pub ticket: u32,
    pub told: i32,
    pub amount: u32,
}

/// "Codes: 0 granted, 1 waits, 2 released, 3 opened."
pub const GRANTED: u32 = 0;
pub const WAITS: u32 = 1;
pub const RELEASED: u32 = 2;
pub const OPENED: u32 = 3;

impl Item {
    pub fn granted(ticket: i64, told: i64, amount: i64) -> Item {
        Item {
            code: GRANTED,
            ticket: ticket.try_into().expect("a ticket is a word"),
            told: told.try_into().expect("a told sum is a signed word"),
            amount: amount.try_into().expect("an amount is a word"),
        }
    }

    /// "Waits and released carry only the ticket, opened nothing."
    pub fn ticket_only(code: u32, ticket: i64) -> Item {
        Item {
            code,
            ..Item::granted(ticket, 0, 0)
        }
    }
}

/// What a call comes to: 9 alone; a refusal 10..=21; or accepted: the items, the call's own first.
#[derive(Clone, Debug, PartialEq, Eq)]
pub enum Outcome {
    Nine,
    Refused(u32),
    Accepted(Vec<Item>),
}

impl Outcome {
    /// "The call returns the first item's code." Refusals: "9 is returned alone; 10 to 21 also
    /// stand in the first item".
    pub fn code(&self) -> u32 {
        match self {
            Outcome::Nine => 9,
            Outcome::Refused(number) => *number,
            Outcome::Accepted(items) => items[0].code,
        }
    }

    /// The 144 bytes of the answer buffer after the call, None for 9 (untouched).
    pub fn answer(&self) -> Option<[u8; ANSWER]> {
        let mut bytes = [0; ANSWER];
        match self {
            Outcome::Nine => return None,
            // "10 to 21 also stand in the first item, all else zero."
            Outcome::Refused(number) => bytes[..4].copy_from_slice(&number.to_le_bytes()),
            // "First the call's own answer, then the pass's grants in order"; "unused ones zero".
            Outcome::Accepted(items) => {
                for (item, place) in items.iter().zip(bytes.chunks_exact_mut(16)) {
                    place[0..4].copy_from_slice(&item.code.to_le_bytes());
                    place[4..8].copy_from_slice(&item.ticket.to_le_bytes());
                    place[8..12].copy_from_slice(&item.told.to_le_bytes());
                    place[12..16].copy_from_slice(&item.amount.to_le_bytes());
                }
            }
        }
        Some(bytes)
    }
}
