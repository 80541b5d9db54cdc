//! One disk: three attributes, its clock, its next ticket, its active and waiting claims.

use crate::table::{Action, Method, STATE};

/// "Valid for 300, 300 and 3,600 seconds."
pub const VALIDITY: [i64; 3] = [300, 300, 3_600];
/// "Values of 0 and 1 and amounts to add lie within ±1,000,000,000."
pub const MOST_VALUE: i64 = 1_000_000_000;
/// "a code 0 to 255".
pub const MOST_STATE: i64 = 255;
/// "Limits, own errors, amounts and stated limits are 0 to 2,000,000,000."
pub const MOST_AMOUNT: i64 = 2_000_000_000;
/// "an active reading's told lies within ±2,000,000,000".
pub const MOST_TOLD: i64 = 2_000_000_000;
/// "at most 8 active and 8 waiting".
pub const MOST_CLAIMS: usize = 8;
/// "Tickets run 1 to 999,999 for each disk".
pub const LAST_TICKET: i64 = 999_999;

/// "attributes with value, time and imprecision amount", and the limit of that amount.
#[derive(Clone, Debug, PartialEq, Eq)]
pub struct Attribute {
    pub value: i64,
    pub stamp: i64,
    pub amount: i64,
    pub limit: i64,
}

/// "Each request is a claim on a method of one disk, held until released."
#[derive(Clone, Debug, PartialEq, Eq)]
pub struct Claim {
    pub ticket: i64,
    pub method: Method,
    pub priority: i64,
    pub fresh: bool,
    /// The second of measuring of a write; 0 of a reading.
    pub measured: i64,
    /// The value of a set, the signed amount of an add; 0 of a reading.
    pub value: i64,
    /// "own error of a write, stated limit of a reading".
    pub error_or_limit: i64,
    /// What an active reading was told; else 0.
    pub told: i64,
    /// An active reading's own amount; else 0.
    pub amount: i64,
}

impl Claim {
    pub fn is_reading(&self) -> bool {
        self.method.is_reading()
    }

    pub fn is_add(&self) -> bool {
        matches!(self.method.action(), Action::Add(_))
    }

    /// The own error of a write.
    pub fn own_error(&self) -> i64 {
        self.error_or_limit
    }

    /// The stated limit of a reading.
    pub fn stated_limit(&self) -> i64 {
        self.error_or_limit
    }
}

#[derive(Clone, Debug, PartialEq, Eq)]
pub struct Disk {
    pub clock: i64,
    pub next_ticket: i64,
    pub attributes: [Attribute; 3],
    /// In the order of their grants.
    pub active: Vec<Claim>,
    /// In the pass's order.
    pub waiting: Vec<Claim>,
}

impl Disk {
    /// "An opened disk has values 0, amounts 0, stamps and clock = now, next ticket 1, no claims."
    pub fn opened(now: i64, limit_of_used: i64, limit_of_promised: i64) -> Disk {
        // "2 state (a code 0 to 255, not metric, so its limit is 0)"
        let attribute = |limit| Attribute {
            value: 0,
            stamp: now,
            amount: 0,
            limit,
        };
        Disk {
            clock: now,
            next_ticket: 1,
            attributes: [
                attribute(limit_of_used),
                attribute(limit_of_promised),
                attribute(0),
            ],
            active: Vec::with_capacity(MOST_CLAIMS),
            waiting: Vec::with_capacity(MOST_CLAIMS),
        }
    }

    /// The attributes that a method reads, with their numbers.
    pub fn read_by(&self, method: Method) -> impl Iterator<Item = (usize, &Attribute)> {
        let mask = method.reads();
        self.attributes
            .iter()
            .enumerate()
            .filter(move |(number, _)| mask >> number & 1 == 1)
    }

    /// "A reading is told the sum of the values that it reads."
    pub fn sum_of_values(&self, method: Method) -> i64 {
        self.read_by(method).map(|(_, a)| a.value).sum()
    }

    /// "the sum of the amounts read (demand 3's carried error)".
    pub fn sum_of_amounts(&self, method: Method) -> i64 {
        self.read_by(method).map(|(_, a)| a.amount).sum()
    }

    /// "the sum of |d'| over active adds".
    pub fn sum_of_active_adds(&self) -> i64 {
        self.active
            .iter()
            .filter(|claim| claim.is_add())
            .map(|claim| claim.value.abs())
            .sum()
    }

    pub fn active_claim(&self, ticket: i64) -> Option<&Claim> {
        self.active.iter().find(|claim| claim.ticket == ticket)
    }

    pub fn waiting_claim(&self, ticket: i64) -> Option<&Claim> {
        self.waiting.iter().find(|claim| claim.ticket == ticket)
    }
}

/// The range of an attribute's value.
pub fn value_in_range(attribute: usize, value: i64) -> bool {
    if attribute == STATE {
        // "state (a code 0 to 255 ...)"
        (0..=MOST_STATE).contains(&value)
    } else {
        // "Values of 0 and 1 and amounts to add lie within ±1,000,000,000."
        (-MOST_VALUE..=MOST_VALUE).contains(&value)
    }
}

/// "Limits, own errors, amounts and stated limits are 0 to 2,000,000,000."
pub fn amount_in_range(amount: i64) -> bool {
    (0..=MOST_AMOUNT).contains(&amount)
}
