//! Claims aimed at an edge: on it, or one past it.

use crate::chance::Chance;
use crate::claims::method_of;
use crate::edges::{Aim, At};
use crate::odd::{BILLION, LAST_SECOND};
use second::record::Fields;
use second::{entry, Action, Claim, Disk, Entry, Method};
use stopblocker::layout::{PROMISED_VALID, STATE_VALID, USED_VALID};

const VALIDITY: [i64; 3] = [USED_VALID as i64, PROMISED_VALID as i64, STATE_VALID as i64];

/// Changes a plain claim so that it is exactly on an edge or one past it; None if this disk has no such edge.
pub fn aimed(chance: &mut Chance, disk: &Disk, asked: &mut Fields) -> Option<Aim> {
    let at = match method_of(asked).action() {
        _ if chance.one_in(8) => chance.one_of(&[At::Clock, At::LastMethod, At::Flag]),
        Action::Read => chance.one_of(&[
            At::Carried,
            At::Carried,
            At::ReadGap,
            At::ReadGap,
            At::ReadGap,
            At::Fresh,
            At::Fresh,
            At::StatedHigh,
            At::ReadingValue,
            At::ReadingMeasured,
        ]),
        Action::Set(2) => chance.one_of(&[At::StateHigh, At::StateLow, At::Measured, At::WriteFlag, At::ErrorLimit]),
        _ if chance.one_in(2) => At::WriteGap,
        _ if chance.one_in(3) => chance.one_of(&[
            At::ValueHigh,
            At::ValueLow,
            At::ValueLeast,
            At::ErrorHigh,
            At::ErrorLimit,
            At::Measured,
            At::WriteFlag,
        ]),
        Action::Set(_) => At::Distance,
        Action::Add(_) => chance.one_of(&[At::AddError, At::AddSum]),
    };
    let past = chance.one_in(2);
    let held = aim_field(at, past, disk, asked) || aim_decision(chance, at, past, disk, asked);
    held.then_some(Aim { at, past })
}

/// The edges of a record's own fields.
fn aim_field(at: At, past: bool, disk: &Disk, asked: &mut Fields) -> bool {
    let one = i64::from(past);
    match at {
        At::ValueHigh => asked.value = (BILLION + one) as i32,
        At::ValueLow => asked.value = (-BILLION - one) as i32,
        At::ValueLeast => asked.value = if past { i32::MIN } else { -BILLION as i32 },
        At::StateHigh => asked.value = 255 + one as i32,
        At::StateLow => asked.value = -one as i32,
        At::ErrorHigh | At::StatedHigh => asked.error_or_limit = (2 * BILLION + one) as u32,
        At::ErrorLimit => asked.error_or_limit = (written(disk, asked).1 + one) as u32,
        At::ReadingValue => asked.value = one as i32,
        At::ReadingMeasured => asked.measured = one as u32,
        At::WriteFlag => asked.flag = past as u8,
        At::Measured if i64::from(asked.now) + one > LAST_SECOND => return false,
        At::Measured => asked.measured = asked.now + one as u32,
        At::Clock if disk.clock < one => return false,
        At::Clock => {
            asked.now = (disk.clock - one) as u32;
            asked.measured = asked.measured.min(asked.now);
        }
        At::LastMethod => {
            let Fields { disk, priority, now, .. } = *asked;
            *asked = Fields { disk, priority, now, method: 6 + past as u8, ..Fields::default() };
        }
        At::Flag => {
            let Fields { disk, priority, now, method, .. } = *asked;
            let (method, error_or_limit) = (method.max(4), (2 * BILLION) as u32);
            *asked = Fields { disk, priority, now, method, error_or_limit, flag: 1 + past as u8, ..Fields::default() };
        }
        _ => return false,
    }
    true
}

/// Value, limit and amount of the attribute that a write writes.
fn written(disk: &Disk, asked: &Fields) -> (i64, i64, i64) {
    match method_of(asked).action() {
        Action::Set(k) | Action::Add(k) => {
            let a = &disk.attributes[k];
            (a.value, a.limit, a.amount)
        }
        Action::Read => (0, 0, 0),
    }
}

/// The edges of preconditions and lock step. The numbers worked out here only aim the claim; the two desks decide on it.
fn aim_decision(chance: &mut Chance, at: At, past: bool, disk: &Disk, asked: &mut Fields) -> bool {
    let one = i64::from(past);
    let method = method_of(asked);
    let (value, limit, amount) = written(disk, asked);
    match at {
        At::Fresh => {
            let ends = disk.read_by(method).map(|(k, a)| a.stamp + VALIDITY[k]).min().unwrap_or(0);
            let now = ends - 1 + one;
            asked.flag = 1;
            asked.error_or_limit = (2 * BILLION) as u32;
            asked.now = now.clamp(0, LAST_SECOND) as u32;
            (disk.clock..=LAST_SECOND).contains(&now)
        }
        At::Carried => state_limit(asked, disk.sum_of_amounts(method) - one),
        At::ReadGap => {
            let gaps: i64 = beside(disk, method, Entry::G).map(|write| gap(disk, write)).sum();
            gaps >= one && state_limit(asked, disk.sum_of_amounts(method) + gaps - one)
        }
        At::AddError => amount >= one && state_limit(asked, limit - amount + one),
        At::AddSum => {
            let d = BILLION - value.abs() - disk.sum_of_active_adds() + one;
            asked.error_or_limit = 0;
            asked.value = chance.one_of(&[d, -d]) as i32;
            d <= BILLION
        }
        At::Distance => {
            let far: i64 = beside(disk, method, Entry::D).map(|c| (c.value - i64::from(asked.value)).abs()).sum();
            far >= one && far > 0 && far - one <= limit && state_limit(asked, limit - far + one)
        }
        At::WriteGap => {
            let room = beside(disk, method, Entry::G).map(|c| c.stated_limit() - c.amount).min();
            let room = match room {
                Some(room) => room + one,
                None => return false,
            };
            let own = if chance.one_in(2) { 0 } else { room.min(limit).min(chance.between(0, 40)) };
            let gap = chance.one_of(&[room - own, own - room]);
            let to = if method == Method::AddPromised { gap } else { value + gap };
            asked.value = to.clamp(-BILLION, BILLION) as i32;
            to.abs() <= BILLION && state_limit(asked, own)
        }
        _ => false,
    }
}

/// Sets the own error or stated limit; false if it is out of range.
fn state_limit(asked: &mut Fields, limit: i64) -> bool {
    asked.error_or_limit = limit.clamp(0, 2 * BILLION) as u32;
    (0..=2 * BILLION).contains(&limit)
}

/// The active claims that have this entry with a method.
fn beside(disk: &Disk, method: Method, letter: Entry) -> impl Iterator<Item = &Claim> {
    disk.active.iter().filter(move |active| entry(active.method, method) == letter)
}

fn gap(disk: &Disk, write: &Claim) -> i64 {
    match write.method.action() {
        Action::Set(k) => (write.value - disk.attributes[k].value).abs(),
        Action::Add(_) => write.value.abs(),
        Action::Read => 0,
    }
}
