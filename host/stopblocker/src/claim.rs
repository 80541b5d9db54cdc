//! A claim, and its record.

use crate::layout::{begun, put_signed, put_word, record, CLAIM, RECORD_BYTES};
use crate::{Disk, Method};

/// A claim on a method of one disk, held until released.
///
/// Its priority is 0, the lowest, unless said. A write is measured at `now` unless said.
///
/// ```
/// use stopblocker::{Claim, Disk};
///
/// let disk = Disk::new(3).unwrap();
/// let report = Claim::report_used(disk, 102, 40_600, 0).measured(101).priority(5);
/// let reading = Claim::read_load(disk, 102, 1_000).priority(5).fresh();
/// assert_eq!(report.record()[..8], [0x52, 0x42, 2, 3, 0, 5, 0, 0]);
/// assert_eq!(reading.record()[..8], [0x52, 0x42, 2, 3, 5, 5, 1, 0]);
/// ```
#[derive(Clone, Copy, PartialEq, Eq, Hash, Debug)]
pub struct Claim {
    disk: Disk,
    now: u32,
    method: Method,
    priority: u8,
    fresh: bool,
    measured: u32,
    value: i32,
    error: u32,
}

impl Claim {
    const fn write(disk: Disk, now: u32, method: Method, value: i32, own_error: u32) -> Claim {
        Claim { disk, now, method, priority: 0, fresh: false, measured: now, value, error: own_error }
    }

    const fn reading(disk: Disk, now: u32, method: Method, stated_limit: u32) -> Claim {
        Claim { disk, now, method, priority: 0, fresh: false, measured: 0, value: 0, error: stated_limit }
    }

    /// ReportUsed: sets used, within ±1,000,000,000 MiB, with the report's own possible error.
    pub const fn report_used(disk: Disk, now: u32, value: i32, own_error: u32) -> Claim {
        Claim::write(disk, now, Method::ReportUsed, value, own_error)
    }

    /// AddPromised: adds a signed amount to promised, within ±1,000,000,000 MiB, with its own possible error.
    pub const fn add_promised(disk: Disk, now: u32, amount: i32, own_error: u32) -> Claim {
        Claim::write(disk, now, Method::AddPromised, amount, own_error)
    }

    /// SetPromised: sets promised, within ±1,000,000,000 MiB, with its own possible error.
    pub const fn set_promised(disk: Disk, now: u32, value: i32, own_error: u32) -> Claim {
        Claim::write(disk, now, Method::SetPromised, value, own_error)
    }

    /// SetState: sets the state, a code that has no error.
    pub const fn set_state(disk: Disk, now: u32, code: u8) -> Claim {
        Claim::write(disk, now, Method::SetState, code as i32, 0)
    }

    /// ReadUsed: told used, by a reader that can bear an error of `stated_limit`.
    pub const fn read_used(disk: Disk, now: u32, stated_limit: u32) -> Claim {
        Claim::reading(disk, now, Method::ReadUsed, stated_limit)
    }

    /// ReadLoad: told used + promised, by a reader that can bear an error of `stated_limit`.
    pub const fn read_load(disk: Disk, now: u32, stated_limit: u32) -> Claim {
        Claim::reading(disk, now, Method::ReadLoad, stated_limit)
    }

    /// ReadState: told the state. Its stated limit is 0: the state has no error to bear.
    pub const fn read_state(disk: Disk, now: u32) -> Claim {
        Claim::reading(disk, now, Method::ReadState, 0)
    }

    /// With this priority, 255 the highest.
    pub const fn priority(self, priority: u8) -> Claim {
        Claim { priority, ..self }
    }

    /// Asks for fresh figures: a reading that waits while a figure it reads is too old. A write that asks is refused 17.
    pub const fn fresh(self) -> Claim {
        Claim { fresh: true, ..self }
    }

    /// Measured at this second, at most `now`. A reading with another second than 0 is refused 17.
    pub const fn measured(self, second: u32) -> Claim {
        Claim { measured: second, ..self }
    }

    /// Its disk.
    pub const fn disk(&self) -> Disk {
        self.disk
    }

    /// Its method.
    pub const fn method(&self) -> Method {
        self.method
    }

    /// Its record.
    pub fn record(&self) -> [u8; RECORD_BYTES] {
        let mut bytes = begun(CLAIM, self.disk.number(), self.now);
        bytes[record::METHOD] = self.method.number();
        bytes[record::PRIORITY] = self.priority;
        bytes[record::FRESH] = u8::from(self.fresh);
        put_word(&mut bytes, record::MEASURED, self.measured);
        put_signed(&mut bytes, record::VALUE, self.value);
        put_word(&mut bytes, record::OWN_ERROR, self.error);
        bytes
    }
}
