//! Counts of what was tried.

use crate::damage::DAMAGES;
use crate::edges::{Tried, EDGES};
use crate::event::{Call, Why};
use second::watch::Watch;
use second::{sound, Disk, Outcome, ANSWER, BOARD, PART, RECORD};
use std::collections::BTreeMap;

/// From this second on a stamp and its validity may add up to more than 2^32.
const NEAR_LAST: u32 = u32::MAX - 3_600;

#[derive(Clone, Debug, Default)]
pub struct Counts {
    pub calls: u64,
    /// By code: 0 to 3 and 9 to 21.
    codes: [u64; 22],
    /// Releases, by how many their pass granted.
    grants: [u64; 9],
    eight_active: u64,
    eight_waiting: u64,
    all_full: u64,
    near_last_second: u64,
    last_tickets: u64,
    other_boards: u64,
    other_answers: u64,
    other_records: u64,
    /// Comparisons of the whole board.
    pub whole: u64,
    pub garbage: u64,
    odd: u64,
    closed: u64,
    tickets_put: u64,
    edges: Vec<Tried>,
    /// Damages after which the part was unsound, and those after which it was still sound.
    damages: Vec<(u64, u64)>,
    /// The clause of "Sound" that failed first.
    clauses: BTreeMap<&'static str, u64>,
    readings: u64,
    checks: u64,
    equal: u64,
    equal_above_zero: u64,
    granted_at_once: u64,
    decided_again: u64,
}

impl Counts {
    pub fn new() -> Counts {
        Counts { edges: vec![Tried::default(); EDGES.len()], damages: vec![(0, 0); DAMAGES.len()], ..Counts::default() }
    }

    pub fn before(&mut self, call: &Call, disk: Option<&Disk>) {
        self.calls += 1;
        self.other_boards += u64::from(call.board_len as usize != BOARD);
        self.other_answers += u64::from(usize::from(call.answer_len) != ANSWER);
        self.other_records += u64::from(call.record().len() != RECORD);
        if let Some(disk) = disk {
            let (active, waiting) = (disk.active.len() == 8, disk.waiting.len() == 8);
            self.eight_active += u64::from(active);
            self.eight_waiting += u64::from(waiting);
            self.all_full += u64::from(active && waiting);
            self.near_last_second += u64::from(disk.clock as u32 >= NEAR_LAST);
            self.last_tickets += u64::from(disk.next_ticket >= 999_990);
        }
    }

    pub fn after(&mut self, call: &Call, outcome: &Outcome) {
        let code = outcome.code();
        self.codes[code as usize] += 1;
        if let Some(aim) = call.aim {
            self.edges[aim.at as usize].count(aim, code);
        }
        if let (Outcome::Accepted(items), 2) = (outcome, code) {
            self.grants[items.len() - 1] += 1;
        }
    }

    pub fn put(&mut self, why: Why, part: &[u8; PART], is_sound: bool) {
        match why {
            Why::Damaged(kind) if is_sound => self.damages[kind].1 += 1,
            Why::Damaged(kind) => {
                self.damages[kind].0 += 1;
                let clause = sound(part).expect_err("it is not sound");
                *self.clauses.entry(clause).or_default() += 1;
            }
            Why::Odd => {
                assert!(is_sound, "an odd part was built as 01 says, yet: {:?}", sound(part).err());
                self.odd += 1;
            }
            Why::LastTickets => self.tickets_put += 1,
            Why::Closed => self.closed += 1,
            Why::Restored | Why::Shorter => {}
        }
    }

    /// Adds what a watch has counted.
    pub fn watched(&mut self, watch: &Watch) {
        self.readings += watch.readings;
        self.checks += watch.checks;
        self.equal += watch.equalities;
        self.equal_above_zero += watch.equalities_above_zero;
        self.granted_at_once += watch.granted_at_once;
        self.decided_again += watch.decided_again;
    }

    /// Every count with its name.
    fn named(&self) -> Vec<(String, u64)> {
        const CODES: [&str; 4] = ["granted", "waits", "released", "opened"];
        let mut all = Vec::new();
        let mut add = |name: String, count: u64| all.push((name, count));
        for (code, name) in CODES.iter().enumerate() {
            add(format!("{code} {name}"), self.codes[code]);
        }
        (9..=21).for_each(|code| add(format!("{code} refused"), self.codes[code]));
        (0..=8).for_each(|k| add(format!("passes that grant {k}"), self.grants[k]));
        for (name, count) in [
            ("calls while 8 are active", self.eight_active),
            ("calls while 8 wait", self.eight_waiting),
            ("calls while 8 are active and 8 wait", self.all_full),
            ("calls on a disk near second 2^32", self.near_last_second),
            ("calls on a disk near ticket 999,999", self.last_tickets),
            ("boards of another length", self.other_boards),
            ("answer buffers of another length", self.other_answers),
            ("records of another length", self.other_records),
            ("garbage boards", self.garbage),
            ("odd but sound parts", self.odd),
            ("disks closed from outside", self.closed),
            ("disks with few tickets left", self.tickets_put),
            ("comparisons of the whole board", self.whole),
            ("demand 3: readings watched", self.readings),
            ("demand 3: told beside the present sum", self.checks),
            ("demand 3: bound met with equality", self.equal),
            ("demand 3: and above 0", self.equal_above_zero),
            ("demand 3: granted in its own call", self.granted_at_once),
            ("demand 3: decided again without readers", self.decided_again),
        ] {
            add(name.to_string(), count);
        }
        all
    }

    /// Prints all counts; returns the names of those that are zero.
    pub fn print(&self) -> Vec<String> {
        let mut missing = print_named(self.named());
        println!("clauses of \"Sound\" that failed first:");
        for (clause, count) in &self.clauses {
            println!("{count:>12}  {clause}");
        }
        if self.clauses.len() != 11 {
            missing.push(format!("{} of 11 clauses of \"Sound\"", 11 - self.clauses.len()));
        }
        println!("damages: not sound by it, still sound:");
        for ((name, _), (unsound, still)) in DAMAGES.iter().zip(&self.damages) {
            println!("{unsound:>12} {still:>8}  {name}");
            if *unsound == 0 {
                missing.push(format!("damage: {name}"));
            }
        }
        println!("edges: on it, of these granted or opened; one past it, of these with the code behind it:");
        for (edge, tried) in EDGES.iter().zip(&self.edges) {
            let Tried { on, on_accepted, past, past_turned } = tried;
            println!("{on:>12} {on_accepted:>8} {past:>8} {past_turned:>8}  {} ({})", edge.name, edge.past);
            if *on_accepted == 0 || *past_turned == 0 {
                missing.push(format!("edge: {}", edge.name));
            }
        }
        missing
    }
}

/// Prints each count with its name; returns the names of those that are zero.
pub fn print_named(all: Vec<(String, u64)>) -> Vec<String> {
    all.iter().for_each(|(name, count)| println!("{count:>12}  {name}"));
    all.into_iter().filter(|(_, count)| *count == 0).map(|(name, _)| name).collect()
}
