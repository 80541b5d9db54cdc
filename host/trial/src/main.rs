//! `trial --calls N --seed S`: N calls to the desk and to the second program, compared.
//! `trial --fuzz N --seed S`: N calls on any bytes between guard pages.
//! `trial --program N --seed S`: N records through ./stopblocker, its lines compared.
//! `--wrong NAME`: the same with a wrong desk or a wrong output, which the trial must detect. `--wrong list` names them.

use std::os::raw::c_long;
use std::process::exit;
use trial::beside::{Proved, Step};
use trial::filters::FILTERS;
use trial::fuzz::{self, step, unseen, Raw};
use trial::overrun::OVERRUNS;
use trial::program;
use trial::shrink::shrink;
use trial::trial::{Failure, Trial};
use trial::words;
use trial::wrong::{WrongDesk, WRONGS};

/// In a run of this many calls every count must be above zero.
const SEES_ALL: u64 = 5_000_000;

extern "C" {
    /// Processor time of this process, on Linux in millionths of a second.
    fn clock() -> c_long;
}

fn processor_seconds() -> f64 {
    // SAFETY: it takes no argument and only returns a number.
    unsafe { clock() as f64 / 1e6 }
}

#[derive(Default)]
struct Asked {
    calls: u64,
    fuzz: u64,
    program: u64,
    seed: u64,
    wrong: Option<String>,
}

const USAGE: &str = "\
usage: host/trial/run [--calls N] [--fuzz N] [--program N] [--seed S] [--wrong NAME]
    --calls N      so many calls to the desk and to the second program, compared byte for byte
    --fuzz N       so many calls on any bytes between guard pages
    --program N    so many records through ./stopblocker, its lines compared
    --seed S       where chance begins: the same calls for the same seed; 1 unless said
    --wrong NAME   on a desk or an output that is wrong, which has to fail; --wrong list names them
";

fn usage(text: &str) -> ! {
    eprint!("trial: {text}\n{USAGE}");
    exit(2)
}

fn asked() -> Asked {
    let mut asked = Asked { seed: 1, ..Asked::default() };
    let mut words = std::env::args().skip(1);
    while let Some(word) = words.next() {
        if word == "--help" || word == "-h" {
            print!("{USAGE}");
            exit(0);
        }
        let value = words.next().unwrap_or_else(|| usage(&format!("{word} wants a value")));
        let number = || value.replace('_', "").parse().unwrap_or_else(|_| usage(&format!("{value} is no number")));
        match word.as_str() {
            "--calls" => asked.calls = number(),
            "--fuzz" => asked.fuzz = number(),
            "--program" => asked.program = number(),
            "--seed" => asked.seed = number(),
            "--wrong" => asked.wrong = Some(value),
            _ => usage(&format!("what is {word}?")),
        }
    }
    if asked.calls == 0 && asked.fuzz == 0 && asked.program == 0 && asked.wrong.is_none() {
        usage("nothing to do");
    }
    asked
}

/// Makes the calls; false if anything differs, or if a count is zero in a long run.
fn compared<S: Step>(asked: &Asked, desk: &dyn Fn() -> S) -> bool {
    println!("trial: seed {}, {} calls", asked.seed, asked.calls);
    let start = processor_seconds();
    let mut trial = Trial::new(desk(), asked.seed);
    let ended = trial.run(asked.calls);
    let (calls, seconds) = (trial.beside.counts.calls, processor_seconds() - start);
    if let Err(failure) = ended {
        report(asked.seed, calls, shrink(desk, failure));
        return false;
    }
    let missing = trial.beside.counts.print();
    let rate = calls as f64 / seconds / 1e6;
    println!("trial: seed {}, {calls} calls compared, no difference, {rate:.2} million a second of a core", asked.seed);
    for name in &missing {
        println!("trial: not seen: {name}");
    }
    missing.is_empty() || asked.calls < SEES_ALL
}

fn report(seed: u64, calls: u64, failure: Failure) {
    println!("trial: seed {seed}, call {calls} differs; the shortest list from the empty board:");
    words::print(&failure.events);
    println!("trial: seed {seed}: after event {}: {}", failure.events.len(), failure.wrong);
}

fn fuzzed(asked: &Asked, desk: Raw) -> bool {
    println!("fuzz: seed {}, {} runs", asked.seed, asked.fuzz);
    match fuzz::fuzz(asked.fuzz, asked.seed, desk) {
        Err(wrong) => {
            println!("fuzz: seed {}, {wrong}", asked.seed);
            false
        }
        Ok(codes) => {
            for (code, count) in codes.iter().enumerate().filter(|(code, _)| *code < 4 || *code > 8) {
                println!("{count:>12}  {code}");
            }
            println!("fuzz: seed {}, {} runs, nothing read or written outside, no difference", asked.seed, asked.fuzz);
            let missing = unseen(&codes);
            missing.iter().for_each(|code| println!("fuzz: not seen: code {code}"));
            missing.is_empty() || asked.fuzz < fuzz::SEES_ALL
        }
    }
}

/// Sends the records through the program; false if a line differs, or if a count is zero in a long run.
fn program_compared(asked: &Asked, filter: Option<&str>) -> bool {
    println!("program: seed {}, {} records", asked.seed, asked.program);
    match program::compare(&|| program::program(filter), asked.program, asked.seed) {
        Err(difference) => {
            println!("program: {difference}");
            false
        }
        Ok(counts) => {
            let missing = counts.print();
            println!("program: seed {}, {} records compared, no difference", asked.seed, counts.records);
            missing.iter().for_each(|name| println!("program: not seen: {name}"));
            missing.is_empty() || asked.program < program::SEES_ALL
        }
    }
}

fn main() {
    let asked = asked();
    let mut well = true;
    match asked.wrong.as_deref() {
        None => {
            if asked.calls > 0 {
                well &= compared(&asked, &|| Proved);
            }
            if asked.fuzz > 0 {
                well &= fuzzed(&asked, step);
            }
            if asked.program > 0 {
                well &= program_compared(&asked, None);
            }
        }
        Some("list") => {
            WRONGS.iter().for_each(|(name, _)| println!("{name} (--calls)"));
            OVERRUNS.iter().for_each(|(name, _)| println!("{name} (--fuzz)"));
            FILTERS.iter().for_each(|(name, _)| println!("{name} (--program)"));
        }
        Some(name) => {
            let wrong = WRONGS.iter().find(|(known, _)| *known == name);
            let overrun = OVERRUNS.iter().find(|(known, _)| *known == name);
            let filter = FILTERS.iter().find(|(known, _)| *known == name);
            match (wrong, overrun, filter) {
                (Some((_, wrong)), _, _) => well = compared(&asked, &|| WrongDesk(*wrong)),
                (_, Some((_, overrun)), _) => well = fuzzed(&asked, *overrun),
                (_, _, Some((_, filter))) => well = program_compared(&asked, Some(filter)),
                _ => usage(&format!("nothing wrong is named {name}")),
            }
        }
    }
    exit(i32::from(!well));
}
