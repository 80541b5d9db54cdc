//! The edges at which calls are aimed: on the edge, and one past it.

/// An edge, the code of a call that is past it, and the edge in words.
pub struct Edge {
    pub past: u32,
    pub name: &'static str,
}

macro_rules! edges {
    ($($edge:ident $past:literal $name:literal,)*) => {
        /// The places in `EDGES`.
        #[derive(Clone, Copy, Debug, PartialEq, Eq)]
        pub enum At { $($edge),* }
        pub const EDGES: &[Edge] = &[$(Edge { past: $past, name: $name }),*];
    };
}

edges! {
    ValueHigh 17 "value 1,000,000,000 of used, promised, an add",
    ValueLow 17 "value -1,000,000,000 of used, promised, an add",
    ValueLeast 17 "value -2^31 (on the edge: -1,000,000,000)",
    StateHigh 17 "state 255",
    StateLow 17 "state 0",
    ErrorHigh 17 "own error 2,000,000,000",
    ErrorLimit 18 "own error = the attribute's limit",
    StatedHigh 17 "stated limit 2,000,000,000",
    OpenHigh 17 "a disk's limit 2,000,000,000",
    ReadingValue 17 "a reading's value 0",
    ReadingMeasured 17 "a reading's second of measuring 0",
    Measured 17 "measured = now",
    WriteFlag 17 "a write without the fresh flag",
    Clock 15 "now = clock",
    LastDisk 11 "disk 63",
    LastMethod 16 "method 6",
    Flag 10 "flag 1",
    LastTicket 19 "ticket 999,999",
    Fresh 1 "(a) stamp + validity = now + 1",
    AddError 1 "(b) amount + own error = limit",
    Carried 1 "(c) carried error = stated limit",
    AddSum 1 "(d) |value| + adds = 1,000,000,000",
    Distance 1 "D, total = the attribute's limit",
    ReadGap 1 "G, a reading's total = its stated limit",
    WriteGap 1 "G, a reading's amount grows to its limit",
}

/// At an edge: on it, or one past it.
#[derive(Clone, Copy, Debug)]
pub struct Aim {
    pub at: At,
    pub past: bool,
}

/// How often each edge was tried.
#[derive(Clone, Debug, Default)]
pub struct Tried {
    /// Calls on the edge, and how many of them were granted or opened.
    pub on: u64,
    pub on_accepted: u64,
    /// Calls past the edge, and how many of them got the code that is expected there.
    pub past: u64,
    pub past_turned: u64,
}

impl Tried {
    pub fn count(&mut self, aim: Aim, code: u32) {
        if aim.past {
            self.past += 1;
            self.past_turned += u64::from(code == EDGES[aim.at as usize].past);
        } else {
            self.on += 1;
            self.on_accepted += u64::from(code == 0 || code == 3);
        }
    }
}
