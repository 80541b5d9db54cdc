//! The disk type: seven methods, what they read and write, and the compatibility table.

/// "Methods: 0 ReportUsed sets used; 1 AddPromised adds a signed amount to promised;
/// 2 SetPromised; 3 SetState; 4 ReadUsed; 5 ReadLoad, told used + promised; 6 ReadState."
#[derive(Clone, Copy, Debug, PartialEq, Eq)]
pub enum Method {
    ReportUsed,
    AddPromised,
    SetPromised,
    SetState,
    ReadUsed,
    ReadLoad,
    ReadState,
}

/// What a method does: a set or an add of one attribute, or a reading.
#[derive(Clone, Copy, Debug, PartialEq, Eq)]
pub enum Action {
    Set(usize),
    Add(usize),
    Read,
}

/// "Three attributes: 0 used, 1 promised (both MiB), 2 state".
pub const USED: usize = 0;
pub const PROMISED: usize = 1;
pub const STATE: usize = 2;

impl Method {
    /// "method above 6" is no method.
    pub fn of_number(number: i64) -> Option<Method> {
        match number {
            0 => Some(Method::ReportUsed),
            1 => Some(Method::AddPromised),
            2 => Some(Method::SetPromised),
            3 => Some(Method::SetState),
            4 => Some(Method::ReadUsed),
            5 => Some(Method::ReadLoad),
            6 => Some(Method::ReadState),
            _ => None,
        }
    }

    pub fn number(self) -> usize {
        self as usize
    }

    pub fn action(self) -> Action {
        match self {
            Method::ReportUsed => Action::Set(USED),
            Method::AddPromised => Action::Add(PROMISED),
            Method::SetPromised => Action::Set(PROMISED),
            Method::SetState => Action::Set(STATE),
            Method::ReadUsed | Method::ReadLoad | Method::ReadState => Action::Read,
        }
    }

    pub fn is_reading(self) -> bool {
        self.action() == Action::Read
    }

    /// "What a method reads and what it writes is a mask with one bit for each attribute."
    pub fn reads(self) -> u8 {
        match self {
            Method::ReadUsed => 1 << USED,
            Method::ReadLoad => 1 << USED | 1 << PROMISED,
            Method::ReadState => 1 << STATE,
            _ => 0,
        }
    }

    pub fn writes(self) -> u8 {
        match self.action() {
            Action::Set(attribute) | Action::Add(attribute) => 1 << attribute,
            Action::Read => 0,
        }
    }
}

/// "A always, N never, D distance of two sets, G gap between a reading and a write."
#[derive(Clone, Copy, Debug, PartialEq, Eq)]
pub enum Entry {
    A,
    N,
    D,
    G,
}

use Entry::{A, D, G, N};

/// "The compatibility table is a constant. Row: active method; column: requested."
pub const TABLE: [[Entry; 7]; 7] = [
    [D, A, A, A, G, G, A],
    [A, A, N, A, A, G, A],
    [A, N, D, A, A, G, A],
    [A, A, A, N, A, A, N],
    [G, A, A, A, A, A, A],
    [G, G, G, A, A, A, A],
    [A, A, A, N, A, A, A],
];

/// The entry of an active (or waiting) method and a requested one.
pub fn entry(active: Method, requested: Method) -> Entry {
    TABLE[active.number()][requested.number()]
}
