//! What comes between the calls of busy disks: parts written from outside, bad records, buffers of other lengths.

use crate::claims;
use crate::damage::DAMAGES;
use crate::edges::{Aim, At};
use crate::event::{Call, Event, Why, LONGEST};
use crate::hurt::Hurt;
use crate::odd;
use crate::traffic::Traffic;
use second::{encode, Desk, Disk, ANSWER, BOARD, PART};

/// A damaged part stays for some calls; then it is repaired.
pub struct Damaged {
    disk: usize,
    before: Disk,
    calls: u64,
}

impl Traffic {
    /// Damages the disk as it stands; if it has nothing to damage in that way, an odd disk in its place.
    pub(crate) fn damage(&mut self, second: &Desk, disk: usize) -> Event {
        let before = match second.disk(disk) {
            Some(figures) => figures.clone(),
            None => return self.odd(disk),
        };
        let kind = self.chance.below(DAMAGES.len() as u64) as usize;
        let mut figures = before.clone();
        loop {
            let mut part = encode(&figures);
            if DAMAGES[kind].1(&mut Hurt { chance: &mut self.chance, disk: &figures, part: &mut part }) {
                let calls = 1 + self.chance.below(3);
                self.damaged = Some(Damaged { disk, before, calls });
                return Event::put(disk, Why::Damaged(kind), part);
            }
            figures = odd::disk(&mut self.chance);
        }
    }

    /// Makes some calls on a damaged part, then repairs it.
    pub(crate) fn on_damaged(&mut self, mut damaged: Damaged) -> Event {
        if damaged.calls == 0 {
            return Event::put(damaged.disk, Why::Restored, encode(&damaged.before));
        }
        let (number, before) = (damaged.disk as u8, &damaged.before);
        let call = match self.chance.below(16) {
            0 => self.open(number),
            1..=6 => self.release(number, before),
            _ => claims::claim(&mut self.chance, number, before, &[0, 1, 2, 3, 4, 5, 6]),
        };
        damaged.calls -= 1;
        self.damaged = Some(damaged);
        Event::Call(call)
    }

    pub(crate) fn odd(&mut self, disk: usize) -> Event {
        Event::put(disk, Why::Odd, encode(&odd::disk(&mut self.chance)))
    }

    /// The disk as it stands, with up to three tickets left.
    pub(crate) fn last_tickets(&mut self, second: &Desk, disk: usize) -> Event {
        let mut figures = match second.disk(disk) {
            Some(figures) => figures.clone(),
            None => return self.odd(disk),
        };
        figures.next_ticket = self.chance.between(figures.next_ticket.max(odd::LAST_TICKET - 2), odd::LAST_TICKET + 1);
        Event::put(disk, Why::LastTickets, encode(&figures))
    }

    /// A closed disk; its part may be anything.
    pub(crate) fn close(&mut self, disk: usize) -> Event {
        let mut part = [0; PART];
        match self.chance.below(3) {
            0 => {}
            1 => part = encode(&odd::disk(&mut self.chance)),
            _ => self.chance.fill(&mut part),
        }
        Event::put(disk, Why::Closed, part)
    }

    /// A good record with a wrong byte, or with another length.
    pub(crate) fn malformed(&mut self, second: &Desk, k: usize) -> Call {
        let call = self.call(second, k);
        let mut record = [0; LONGEST];
        record[..call.record().len()].copy_from_slice(call.record());
        let chance = &mut self.chance;
        let len = match chance.below(4) {
            0 => chance.one_of(&[0, 1, 2, 3, 4, 8, 23, 25, LONGEST]),
            1 => {
                let at = chance.below(24) as usize;
                record[at] = chance.one_of(&[0, 1, 2, 127, 128, 255]);
                24
            }
            2 => {
                chance.fill(&mut record[..24]);
                24
            }
            _ => {
                let at = chance.one_of(&[0, 1, 2, 4, 5, 6, 7, 12, 15, 16, 19, 20, 23]);
                record[at] ^= 1 << chance.below(8);
                24
            }
        };
        Call::new(&record[..len])
    }

    /// A good record with a board or an answer buffer of another length.
    pub(crate) fn other_length(&mut self, second: &Desk, k: usize) -> Call {
        let call = if self.chance.one_in(4) { self.malformed(second, k) } else { self.call(second, k) };
        let board = self.chance.one_of(&[0, 1, 144, 768, BOARD - 1, BOARD + 1]);
        let answer = self.chance.one_of(&[0, 1, 16, ANSWER - 1, ANSWER + 1]);
        match self.chance.below(4) {
            0 => call.lent(board, answer),
            1 => call.lent(BOARD, answer),
            _ => call.lent(board, ANSWER),
        }
    }

    /// A good record for disk 63, or for one above.
    pub(crate) fn disk_above_63(&mut self, second: &Desk, k: usize) -> Call {
        let call = self.call(second, k);
        let mut record = [0; 24];
        record.copy_from_slice(call.record());
        let past = self.chance.one_in(2);
        record[3] = if past { self.chance.one_of(&[64, 64, 65, 127, 128, 255]) } else { 63 };
        Call::new(&record).aimed(Some(Aim { at: At::LastDisk, past }))
    }
}
