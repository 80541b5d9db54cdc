//! Chooses the next event: mostly a call on one of the busy disks, between them everything else that can be lent.

use crate::chance::Chance;
use crate::claims;
use crate::edges::{Aim, At};
use crate::event::{Call, Event};
use crate::odd;
use crate::outside::Damaged;
use second::record;
use second::{Claim, Desk, Disk, RECORD};
use stopblocker::layout::MOST_ERROR;

/// The next event is chosen by a random number below this; most of the numbers mean a call on a busy disk.
const OF_CALLS: u64 = 2_048;

/// The methods that a disk is asked for.
const MIXES: &[&[u8]] = &[
    &[0, 1, 2, 3, 4, 5, 6],
    &[0, 0, 4, 4, 5],
    &[0, 4, 5, 5, 6],
    &[1, 1, 1, 5],
    &[1, 1, 2, 5, 5, 5],
    &[0, 1, 5, 5, 5, 4],
    &[3, 6, 6, 6, 6, 4],
    &[4, 5, 6],
    &[0, 1, 2, 4, 5],
];

/// What a disk is asked for, and about how many claims it holds.
#[derive(Clone, Copy)]
struct Mood {
    methods: &'static [u8],
    held: usize,
}

pub struct Traffic {
    pub(crate) chance: Chance,
    /// The round's busy disks.
    disks: [u8; 4],
    moods: [Mood; 4],
    pub(crate) damaged: Option<Damaged>,
}

impl Traffic {
    /// The traffic of one round.
    pub fn new(seed: u64) -> Traffic {
        let mut chance = Chance::new(seed);
        let disks = [0; 4].map(|_| {
            let any = chance.below(64) as u8;
            chance.one_of(&[0, 7, 8, 63, any, any])
        });
        let moods = [0; 4].map(|_| mood(&mut chance));
        Traffic { chance, disks, moods, damaged: None }
    }

    pub fn next(&mut self, second: &Desk) -> Event {
        if let Some(damaged) = self.damaged.take() {
            return self.on_damaged(damaged);
        }
        let k = self.busy();
        let disk = usize::from(self.disks[k]);
        match self.chance.below(OF_CALLS) {
            0..=5 => self.damage(second, disk),
            6..=8 => self.odd(disk),
            9 => self.last_tickets(second, disk),
            10 => self.close(disk),
            35..=40 => Event::Call(self.other_length(second, k)),
            which if which > 55 && self.is_done(second.disk(disk)) => self.close(disk),
            which => Event::Call(self.request(second, k, which)),
        }
    }

    /// The next record for the program, whose board nobody else can write. Bad records have 24 bytes too.
    pub fn record(&mut self, second: &Desk) -> [u8; RECORD] {
        let k = self.busy();
        let which = self.chance.below(OF_CALLS);
        self.request(second, k, which).whole()
    }

    /// A record that uses up the tickets of one disk: a reading or its release, seldom with more than one held.
    pub fn wearing(&mut self, second: &Desk, number: u8) -> [u8; RECORD] {
        self.call_on(second, number, Mood { methods: &[4, 5, 6], held: 0 }).whole()
    }

    /// One of the round's disks; now and then it begins to get other methods.
    fn busy(&mut self) -> usize {
        let k = self.chance.below(4) as usize;
        if self.chance.one_in(64) {
            self.moods[k] = mood(&mut self.chance);
        }
        k
    }

    /// A request: most are for what the disk is busy with.
    fn request(&mut self, second: &Desk, k: usize, which: u64) -> Call {
        match which {
            11..=34 => self.malformed(second, k),
            41..=46 => self.disk_above_63(second, k),
            47..=54 => self.open(self.disks[k]),
            55 => {
                self.disks[k] = self.chance.below(64) as u8;
                self.call(second, k)
            }
            _ => self.call(second, k),
        }
    }

    /// Whether to give up a disk that has no tickets left or isn't sound.
    fn is_done(&mut self, disk: Option<&Disk>) -> bool {
        disk.map(|disk| disk.next_ticket <= odd::LAST_TICKET) != Some(true) && self.chance.one_in(32)
    }

    /// A claim, a release or an open on one of the round's disks.
    pub(crate) fn call(&mut self, second: &Desk, k: usize) -> Call {
        self.call_on(second, self.disks[k], self.moods[k])
    }

    fn call_on(&mut self, second: &Desk, number: u8, mood: Mood) -> Call {
        let disk = match second.disk(usize::from(number)) {
            Some(disk) => disk,
            None => return self.call_on_shut(number),
        };
        let held = disk.active.len() + disk.waiting.len();
        let lets_go = match held {
            0 => 1,
            _ if held > mood.held => 24,
            _ => 10,
        };
        if self.chance.below(32) < lets_go {
            self.release(number, disk)
        } else {
            claims::claim(&mut self.chance, number, disk, mood.methods)
        }
    }

    /// A call on a closed disk or an unsound part: mostly an open.
    fn call_on_shut(&mut self, number: u8) -> Call {
        let now = odd::clock(&mut self.chance) as u32;
        let opened = Disk::opened(i64::from(now), 1_000, 1_000);
        match self.chance.below(8) {
            0 => claims::claim(&mut self.chance, number, &opened, MIXES[0]),
            1 => Call::new(&record::release(number, now, self.chance.between(0, 3) as u32)),
            _ => self.open(number),
        }
    }

    pub(crate) fn open(&mut self, number: u8) -> Call {
        let now = odd::clock(&mut self.chance) as u32;
        let mut limits = [odd::limit(&mut self.chance) as u32, odd::limit(&mut self.chance) as u32];
        let mut aim = None;
        if self.chance.one_in(8) {
            let past = self.chance.one_in(2);
            limits[self.chance.below(2) as usize] = MOST_ERROR + u32::from(past);
            aim = Some(Aim { at: At::OpenHigh, past });
        }
        Call::new(&record::open(number, now, limits[0], limits[1])).aimed(aim)
    }

    pub(crate) fn release(&mut self, number: u8, disk: &Disk) -> Call {
        let chance = &mut self.chance;
        let mut now = claims::now(chance, disk);
        let mut aim = None;
        if chance.one_in(32) {
            aim = Some(Aim { at: At::Clock, past: true }).filter(|_| disk.clock > 0);
            now = (disk.clock - 1).max(0);
        }
        let ticket = match chance.below(16) {
            0 => chance.one_of(&[
                0,
                1,
                disk.next_ticket,
                disk.next_ticket - 1,
                odd::LAST_TICKET,
                odd::LAST_TICKET + 1,
                u32::MAX as i64,
            ]),
            1..=3 if !disk.waiting.is_empty() => one_ticket(chance, &disk.waiting),
            4..=8 if !disk.active.is_empty() => disk.active[0].ticket,
            _ if !disk.active.is_empty() => one_ticket(chance, &disk.active),
            _ => disk.waiting.first().map_or(0, |claim| claim.ticket),
        };
        Call::new(&record::release(number, now as u32, ticket as u32)).aimed(aim)
    }
}

fn mood(chance: &mut Chance) -> Mood {
    Mood { methods: chance.one_of(MIXES), held: chance.one_of(&[0, 1, 1, 2, 2, 3, 3, 4, 5, 7, 10, 16]) }
}

fn one_ticket(chance: &mut Chance, claims: &[Claim]) -> i64 {
    claims[chance.below(claims.len() as u64) as usize].ticket
}
