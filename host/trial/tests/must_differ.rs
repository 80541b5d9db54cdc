//! A check that cannot fail is worth nothing: each wrong desk is seen, by a list of events that is short, each call that
//! leaves its buffers ends the fuzz run, and each wrong output of the program is seen.

use std::process::{Command, Output};
use trial::beside::{Beside, Proved};
use trial::event::{Call, Event, Why};
use trial::filters::FILTERS;
use trial::fuzz::unseen;
use trial::overrun::OVERRUNS;
use trial::program::{compare, program};
use trial::shrink::shrink;
use trial::trial::{Failure, Trial};
use trial::wrong::{Wrong, WrongDesk, WRONGS};

const CALLS: u64 = 5_000_000;

fn seen(wrong: Wrong, seed: u64) -> Failure {
    let failure = Trial::new(WrongDesk(wrong), seed).run(CALLS).expect_err("a wrong desk is seen");
    shrink(&|| WrongDesk(wrong), failure)
}

/// From the empty board most take a handful of events; to see 20 in the place of a wait, an open and nine claims.
#[test]
fn every_wrong_desk_is_seen_and_the_list_is_short() {
    for (name, wrong) in WRONGS {
        for seed in 1..=4 {
            let failure = seen(*wrong, seed);
            let short = if *name == "code-only" { 12 } else { 6 };
            assert!(failure.events.len() <= short, "{name}: {} events, {}", failure.events.len(), failure.wrong);
            assert!(!failure.wrong.starts_with("panic"), "{name}: {}", failure.wrong);
        }
    }
}

fn run(words: &[&str]) -> Output {
    Command::new(env!("CARGO_BIN_EXE_trial")).args(words).output().expect("the program runs")
}

#[test]
fn every_call_that_leaves_its_buffers_is_seen() {
    for (name, _) in OVERRUNS {
        let said = run(&["--fuzz", "1000", "--seed", "1", "--wrong", name]);
        assert_eq!(said.status.code(), Some(1), "{name}");
        let text = String::from_utf8([said.stdout, said.stderr].concat()).expect("text");
        let seen = ["outside of the buffers", "what is beside it", "the record"];
        assert!(seen.iter().any(|part| text.contains(part)), "{name}: {text}");
    }
    let read = run(&["--fuzz", "1000", "--seed", "1", "--wrong", "reads-behind-record"]);
    assert!(String::from_utf8_lossy(&read.stderr).contains("outside of the buffers"), "no guard page: {read:?}");
}

#[test]
fn the_program_says_what_differs_and_ends_with_1() {
    let said = run(&["--calls", "100000", "--seed", "7", "--wrong", "refusal-writes"]);
    let text = String::from_utf8_lossy(&said.stdout);
    assert_eq!(said.status.code(), Some(1), "{text}");
    for part in ["seed 7", "shortest list", "release", "52 42 03", "clock"] {
        assert!(text.contains(part), "{part}: {text}");
    }
    assert_eq!(run(&["--calls", "20000", "--seed", "7"]).status.code(), Some(0));
    assert_eq!(run(&["--calls"]).status.code(), Some(2));
}

/// Demand 3 is watched: a figure that is moved from outside under a held reading, on both boards, is seen by the watch
/// alone; and a part put from outside ends the watch.
#[test]
fn the_watch_is_on() {
    let call = |record: &[u8]| Event::Call(Call::new(record));
    let fields = second::record::Fields { disk: 3, method: 4, error_or_limit: 10, ..Default::default() };
    let read = |beside: &mut Beside<Proved>| {
        beside.apply(&call(&second::record::open(3, 0, 1_000, 1_000))).unwrap();
        beside.apply(&call(&second::record::claim(&fields))).unwrap();
    };
    let release = call(&second::record::release(3, 0, 77));
    let again = call(&second::record::claim(&fields));
    for (value, within) in [(10, true), (-10, true), (11, false), (-11, false)] {
        let mut beside = Beside::new(Proved, 1);
        read(&mut beside);
        beside.move_used(3, value);
        let seen = beside.apply(&again);
        assert_eq!(seen.is_ok(), within, "{value}: {seen:?}");
        assert!(within || seen.unwrap_err().contains("told 0, present sum"));

        let mut beside = Beside::new(Proved, 1);
        read(&mut beside);
        beside.move_used(3, value);
        let part = second::encode(beside.second.disk(3).expect("open"));
        beside.apply(&Event::put(3, Why::Odd, part)).unwrap();
        assert_eq!(beside.apply(&again), Ok(()));
        assert_eq!(beside.apply(&release), Ok(()));
    }
}

/// A run that saw nothing is told so, thing by thing: 17 codes, 9 passes, 19 other counts, the clauses, damages and edges.
#[test]
fn what_was_not_seen_is_named() {
    let missing = trial::counts::Counts::new().print();
    assert!(missing.len() > 17 + 9 + 19 + 1 + 40 + 20, "{missing:?}");
    for name in ["14 refused", "passes that grant 8", "11 of 11 clauses", "entry N among the active", "method 6"] {
        assert!(missing.iter().any(|text| text.contains(name)), "{name}: {missing:?}");
    }
}

#[test]
fn every_wrong_output_of_the_program_is_seen() {
    for (name, _) in FILTERS {
        for seed in ["1", "2"] {
            let said = run(&["--program", "6000", "--seed", seed, "--wrong", name]);
            let text = String::from_utf8_lossy(&said.stdout);
            assert_eq!(said.status.code(), Some(1), "{name}: {text}");
            let seen = if *name == "exit-status" { "ends with exit status: 3" } else { "differs:\n  expected " };
            assert!(text.contains(&format!("seed {seed}, run 1, ")) && text.contains(seen), "{name}: {text}");
        }
    }
    assert_eq!(run(&["--program", "6000", "--seed", "1"]).status.code(), Some(0));
}

/// A filter that alters nothing is no difference; an amount that is altered is, told with both lines and the disk's last
/// records.
#[test]
fn a_line_that_differs_is_told() {
    let through = |filter: &'static str| compare(&move || program(Some(filter)), 20_000, 5);
    assert_eq!(through("cat").expect("no difference").runs, 2);
    let text = through("awk '$1 == 3000 { $6 += 7 } 1'").expect_err("a difference");
    let lines: Vec<&str> = text.lines().collect();
    assert_eq!(lines[0], "seed 5, run 1, record 3000 differs:", "{text}");
    let fields = |line: &str| -> Vec<String> {
        let line = line.split('"').nth(1).expect("a line in quotes").trim_end_matches("\\n");
        line.split(' ').map(str::to_string).collect()
    };
    let (expected, found) = (fields(lines[1]), fields(lines[2]));
    assert_eq!((&expected[..5], expected[0].as_str()), (&found[..5], "3000"), "{text}");
    assert_eq!(expected[5].parse::<u32>().unwrap() + 7, found[5].parse::<u32>().unwrap(), "{text}");
    assert!(lines[3].starts_with("the last records of disk "), "{text}");
    assert_eq!(lines.len(), 4 + 2 * 16, "{text}");
    assert!(lines[34].starts_with("     3000  ") && lines[35].trim_start().len() == 24 * 3 - 1, "{text}");
}

/// So is a fuzz run: 17 codes.
#[test]
fn what_a_fuzz_run_did_not_meet_is_named() {
    assert_eq!(unseen(&[0; 22]), (0..=3).chain(9..=21).collect::<Vec<_>>());
    assert!(unseen(&[1; 22]).is_empty());
    let mut codes = [1; 22];
    codes[14] = 0;
    assert_eq!(unseen(&codes), [14]);
    let said = run(&["--fuzz", "20", "--seed", "1"]);
    let text = String::from_utf8_lossy(&said.stdout);
    assert!(said.status.success() && text.contains("fuzz: not seen: code 19\n"), "{text}");
}

/// A run of the program that saw nothing is told so: 15 codes and 6 other counts.
#[test]
fn what_the_program_did_not_meet_is_named() {
    let missing = trial::lines::Counts::default().print();
    assert_eq!(missing.len(), 15 + 6, "{missing:?}");
    for name in ["code 0", "code 10", "code 19", "code 21", "short last pieces"] {
        assert!(missing.iter().any(|text| text == name), "{name}: {missing:?}");
    }
}
