//! Random claims that keep a disk busy: in range, and small enough for the disk's limits. Every third is then aimed at an
//! edge.

use crate::aims::aimed;
use crate::chance::Chance;
use crate::edges::{Aim, At};
use crate::event::Call;
use crate::odd::{self, BILLION, LAST_SECOND};
use second::record::{self, Fields};
use second::{Action, Disk, Method};

/// A second at or after the disk's clock.
pub fn now(chance: &mut Chance, disk: &Disk) -> i64 {
    let later = match chance.below(64) {
        0 => chance.one_of(&[60, 299, 300, 301, 3_599, 3_600, 3_601]),
        1..=15 => 1,
        _ => 0,
    };
    (disk.clock + later).min(LAST_SECOND)
}

/// A claim with one of these methods.
pub fn claim(chance: &mut Chance, number: u8, disk: &Disk, methods: &[u8]) -> Call {
    let method = chance.one_of(methods);
    let mut asked = plain(chance, disk, method);
    asked.disk = number;
    let mut aim = if chance.one_in(3) { aimed(chance, disk, &mut asked) } else { None };
    if disk.next_ticket >= odd::LAST_TICKET {
        aim = Some(Aim { at: At::LastTicket, past: disk.next_ticket > odd::LAST_TICKET });
    }
    Call::new(&record::claim(&asked)).aimed(aim)
}

pub fn method_of(asked: &Fields) -> Method {
    Method::of_number(i64::from(asked.method)).expect("0 to 6 are methods")
}

fn plain(chance: &mut Chance, disk: &Disk, method: u8) -> Fields {
    let now = now(chance, disk);
    let priority = chance.one_of(&[5, 5, 5, 5, 5, 6, 6, 4, 0, 255]);
    let mut asked = Fields { method, priority, now: now as u32, ..Fields::default() };
    match method_of(&asked).action() {
        Action::Read => {
            asked.flag = u8::from(chance.one_in(8));
            asked.error_or_limit = stated(chance, disk, method_of(&asked));
        }
        Action::Set(2) => {
            asked.measured = now as u32;
            asked.value = chance.between(0, 255) as i32;
        }
        Action::Set(k) | Action::Add(k) => {
            let a = &disk.attributes[k];
            let size = a.limit.clamp(20, BILLION);
            let moved = chance.between(-size, size);
            let value = if method == 1 { moved } else { a.value + moved / chance.one_of(&[1, 4, 16]) };
            asked.value = value.clamp(-BILLION, BILLION) as i32;
            asked.measured = (now - chance.one_of(&[0, 0, 0, 1, 200])).max(0) as u32;
            if chance.one_in(4) {
                asked.error_or_limit = chance.between(0, a.limit.min(40)) as u32;
            }
        }
    }
    asked
}

/// A stated limit close to the error that the reading will have.
fn stated(chance: &mut Chance, disk: &Disk, method: Method) -> u32 {
    let size = disk.attributes[0].limit.max(disk.attributes[1].limit).max(20);
    match chance.below(8) {
        0 => 0,
        1 | 2 => (2 * BILLION) as u32,
        _ => (disk.sum_of_amounts(method) + chance.between(0, 2 * size)).min(2 * BILLION) as u32,
    }
}
