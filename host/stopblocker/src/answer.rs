//! What an accepted call answers.

use crate::layout::{item, signed_at, word_at, ANSWER_BYTES, GRANTED, ITEMS, ITEM_BYTES, OPENED, RELEASED, WAITS};
use crate::Refusal;

/// A claim is granted, in its own call or in the pass of a release.
#[derive(Clone, Copy, PartialEq, Eq, Hash, Debug)]
pub struct Granted {
    /// The ticket to release it with.
    pub ticket: u32,
    /// The sum of the values that a reading reads; 0 for a write.
    pub told: i32,
    /// For a reading its own amount of error; for a write its attribute's amount after the grant.
    pub amount: u32,
}

/// A claim waits; it is tried again at each release on its disk.
#[derive(Clone, Copy, PartialEq, Eq, Hash, Debug)]
pub struct Waits {
    /// The ticket that a later pass may grant. Releasing it withdraws the claim.
    pub ticket: u32,
}

/// A claim is released.
#[derive(Clone, PartialEq, Eq, Hash, Debug)]
pub struct Released {
    /// Its ticket.
    pub ticket: u32,
    /// Every grant of the pass, in order.
    pub grants: Vec<Granted>,
}

/// A disk is opened.
#[derive(Clone, Copy, PartialEq, Eq, Hash, Debug)]
pub struct Opened;

/// The answer to an accepted claim.
#[derive(Clone, Copy, PartialEq, Eq, Hash, Debug)]
pub enum Claimed {
    /// It is granted.
    Granted(Granted),
    /// It waits.
    Waits(Waits),
}

impl Claimed {
    /// The ticket that it took.
    pub const fn ticket(&self) -> u32 {
        match self {
            Claimed::Granted(granted) => granted.ticket,
            Claimed::Waits(waits) => waits.ticket,
        }
    }

    /// Its grant, if it is granted.
    pub const fn granted(self) -> Option<Granted> {
        match self {
            Claimed::Granted(granted) => Some(granted),
            Claimed::Waits(_) => None,
        }
    }

    /// Its wait, if it waits.
    pub const fn waits(self) -> Option<Waits> {
        match self {
            Claimed::Granted(_) => None,
            Claimed::Waits(waits) => Some(waits),
        }
    }
}

/// The answer to any accepted request.
#[derive(Clone, PartialEq, Eq, Hash, Debug)]
pub enum Answer {
    /// Code 0.
    Granted(Granted),
    /// Code 1.
    Waits(Waits),
    /// Code 2.
    Released(Released),
    /// Code 3.
    Opened(Opened),
}

/// An item of the answer buffer, as its four words.
#[derive(Clone, Copy, PartialEq, Eq, Hash, Debug, Default)]
pub struct Item {
    /// 0 granted, 1 waits, 2 released, 3 opened, or a refusal's number.
    pub code: u32,
    /// Ticket.
    pub ticket: u32,
    /// Told.
    pub told: i32,
    /// Amount.
    pub amount: u32,
}

impl Item {
    /// The nine items of an answer buffer: the call's own, then the grants of its pass; unused ones are zero.
    pub fn all(answer: &[u8; ANSWER_BYTES]) -> [Item; ITEMS] {
        let mut items = [Item::default(); ITEMS];
        for (filled, bytes) in items.iter_mut().zip(answer.chunks_exact(ITEM_BYTES)) {
            *filled = Item {
                code: word_at(bytes, item::CODE),
                ticket: word_at(bytes, item::TICKET),
                told: signed_at(bytes, item::TOLD),
                amount: word_at(bytes, item::AMOUNT),
            };
        }
        items
    }

    fn granted(self) -> Granted {
        Granted { ticket: self.ticket, told: self.told, amount: self.amount }
    }
}

impl Answer {
    /// The answer that a call has left in the buffer.
    pub(crate) fn of(answer: &[u8; ANSWER_BYTES]) -> Result<Answer, Refusal> {
        let [own, pass @ ..] = Item::all(answer);
        Ok(match own.code {
            GRANTED => Answer::Granted(own.granted()),
            WAITS => Answer::Waits(Waits { ticket: own.ticket }),
            RELEASED => Answer::Released(Released {
                ticket: own.ticket,
                grants: pass.iter().take_while(|item| item.ticket != 0).map(|item| item.granted()).collect(),
            }),
            OPENED => Answer::Opened(Opened),
            number => return Err(Refusal::of(number).expect("every call ends with a code 0 to 3 or a refusal")),
        })
    }
}
