//! `bench time [COUNTS]`: compares the engines byte by byte, times them, and prints the tables. COUNTS is a file with the
//! counted instructions: on each line name, engine and instructions of a call, with tabs between.
//!
//! `bench names`: the workloads and situations, one on each line, with a tab and the number of their calls.
//!
//! `bench count NAME ENGINE`: runs one of them once by engine 0, 1 or 2, so that valgrind can count. Engine 2 does nothing,
//! and everything but the calls is the same for all three: an engine's count minus that of engine 2 is that of its calls.

use bench::making::{Call, Workload};
use bench::store::Store;
use bench::turns::{by_desk, by_hand, by_nothing, Turns};
use bench::{clock, equal, random, situations, workload};
use std::collections::HashMap;
use std::{env, fs, process};
use stopblocker::layout::ANSWER_BYTES;

const ENGINES: [(&str, Turns); 3] = [("desk", by_desk), ("hand", by_hand), ("nothing", by_nothing)];

const RANDOM_CALLS: u64 = 100_000;
const REPETITIONS: usize = 400;
/// The store is timed in one of this many repetitions.
const STORE_ONCE_IN: usize = 40;

fn main() {
    let words: Vec<String> = env::args().skip(1).collect();
    match words.iter().map(String::as_str).collect::<Vec<_>>()[..] {
        ["time"] => time(&HashMap::new()),
        ["time", counts] => time(&read_counts(&fs::read_to_string(counts).expect("a file of counts"))),
        ["names"] => all().iter().for_each(|it| println!("{}\t{}", it.name, it.calls.len())),
        ["count", name, engine] => count(name, engine),
        _ => {
            eprintln!("bench time [COUNTS] | bench names | bench count NAME ENGINE");
            process::exit(2);
        }
    }
}

fn all() -> Vec<Workload> {
    workload::all().into_iter().chain(situations::all()).collect()
}

fn count(name: &str, engine: &str) {
    let workload = all().into_iter().find(|workload| workload.name == name).expect("a workload or situation");
    let engine: usize = engine.parse().expect("the number of an engine");
    ENGINES[engine].1(&mut workload.board.clone(), &workload.calls, &mut [0; ANSWER_BYTES]);
}

/// Instructions of a call by name and engine.
type Counts = HashMap<(String, String), f64>;

fn read_counts(text: &str) -> Counts {
    let words = |line: &str| line.split('\t').map(String::from).collect::<Vec<_>>();
    let entry = |line| match &words(line)[..] {
        [name, engine, count] => ((name.clone(), engine.clone()), count.parse().expect("a number")),
        _ => panic!("not a count: {line}"),
    };
    text.lines().map(entry).collect()
}

/// The median and the least of all repetitions, in ns of a call.
#[derive(Clone, Copy)]
struct Times {
    median: f64,
    least: f64,
}

impl Times {
    fn of(mut all: Vec<f64>) -> Times {
        all.sort_by(f64::total_cmp);
        Times { median: all[all.len() / 2], least: all[0] }
    }

    fn without(self, turn: Times) -> Times {
        Times { median: self.median - turn.median, least: self.least - turn.least }
    }
}

/// The ns of a call by each engine, and by the store if there is one. Each repetition begins with another engine.
fn times(workload: &Workload, store: &mut Option<Store>) -> ([Times; 3], Option<Times>) {
    let mut board = workload.board.clone();
    let mut answer = [0; ANSWER_BYTES];
    let mut all = [vec![], vec![], vec![]];
    let mut stored = vec![];
    let per_call = |began: u64| (clock::ns() - began) as f64 / workload.calls.len() as f64;
    for repetition in 0..REPETITIONS {
        for k in 0..3 {
            let engine = (repetition + k) % 3;
            board.copy_from_slice(&workload.board);
            let began = clock::ns();
            ENGINES[engine].1(&mut board, &workload.calls, &mut answer);
            all[engine].push(per_call(began));
        }
        if let (Some(store), 0) = (store.as_mut(), repetition % STORE_ONCE_IN) {
            store.load(&workload.board);
            let began = clock::ns();
            by_store(store, &workload.calls, &mut answer);
            stored.push(per_call(began));
        }
    }
    let by_store = if stored.is_empty() { None } else { Some(Times::of(stored)) };
    (all.map(Times::of), by_store)
}

fn by_store(store: &mut Store, calls: &[Call], answer: &mut [u8; ANSWER_BYTES]) {
    for call in calls {
        store.step(&call.record[..call.record_bytes], &mut answer[..call.answer_bytes]);
    }
}

/// Compares, then times, and prints the tables.
fn time(counts: &Counts) {
    let mut store = Store::new();
    let same = |compared: Result<(), String>| {
        compared.unwrap_or_else(|differ| {
            eprintln!("bench: {differ}");
            process::exit(1);
        })
    };
    let workloads = workload::all();
    for workload in &all() {
        same(equal::on_workload(workload).map(|_| ()));
        if let (Some(store), true) = (&mut store, workload.in_rows) {
            same(equal::on_store(workload, store));
        }
    }
    same(random::on_random_calls(RANDOM_CALLS, 7).map(|_| ()));
    match &store {
        Some(store) => println!("SQLite {}, in memory.\n", store.version()),
        None => println!("SQLite is not installed, so it was left out.\n"),
    }
    println!("| workload | desk, ns | by hand, ns | desk / by hand | desk, instructions | by hand, instructions | desk / by hand | SQLite, ns |");
    println!("|---|---|---|---|---|---|---|---|");
    for workload in &workloads {
        let ([desk, hand, turn], stored) = times(workload, &mut store);
        let (desk, hand) = (desk.without(turn), hand.without(turn));
        println!(
            "| {} | {} | {} | {:.2} | {} | {} |",
            workload.name,
            shown(desk),
            shown(hand),
            desk.median / hand.median,
            instructions(counts, workload.name),
            stored.map_or("not there".to_string(), |stored| shown(stored.without(turn))),
        );
    }
    if !counts.is_empty() {
        println!("\n| one call | desk, instructions | by hand, instructions | desk / by hand |\n|---|---|---|---|");
        for situation in situations::all() {
            println!("| {} | {} |", situation.name, instructions(counts, situation.name));
        }
    }
}

/// The median, and the least in brackets.
fn shown(times: Times) -> String {
    let digits = usize::from(times.median < 100.0);
    format!("{:.*} ({:.*})", digits, times.median, digits, times.least)
}

/// Three cells: the desk's instructions of a call, the other's, and how they compare.
fn instructions(counts: &Counts, name: &str) -> String {
    let by = |engine: &str| counts.get(&(name.to_string(), engine.to_string()));
    match (by("desk"), by("hand")) {
        (Some(desk), Some(hand)) => format!("{desk:.0} | {hand:.0} | {:.2}", desk / hand),
        _ => "not counted | not counted |".to_string(),
    }
}
