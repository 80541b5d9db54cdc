//! The command line: help, wrong words, closed outputs.

mod common;
use common::*;
use std::fs::OpenOptions;
use std::io::Write;
use std::process::Stdio;

const COMMANDS: [&str; 5] = ["encode", "decode", "explain", "run", "show"];

#[test]
fn help_and_version() {
    let help = sb(&["--help"], "").text();
    assert_eq!(sb(&["-h"], "").text(), help);
    assert_eq!(sb(&["help"], "").text(), help);
    for command in COMMANDS {
        assert!(help.contains(&format!("\n    sb {command} ")), "{help}");
        let own = sb(&[command, "--help"], "").text();
        assert!(own.starts_with(&format!("sb {command} ")) && own.ends_with(".\n"), "{own}");
        assert_eq!(sb(&[command, "-h"], "").text(), own);
        assert!(own.lines().chain(help.lines()).all(|line| line.chars().count() <= 120), "{own}");
    }
    assert_eq!(sb(&["--version"], "").text(), format!("sb {}\n", env!("CARGO_PKG_VERSION")));
}

/// Every line that help shows as an example is one.
#[test]
fn examples_of_help() {
    let help = sb(&["encode", "--help"], "").text();
    let examples: Vec<&str> = help
        .lines()
        .filter_map(|line| line.strip_prefix("    "))
        .filter(|line| ["open ", "claim ", "release "].iter().any(|kind| line.starts_with(kind)))
        .collect();
    assert_eq!(examples.len(), 9);
    assert_eq!(sb(&["encode"], examples.join("\n")).fine().len(), 9 * 24);
}

#[test]
fn wrong_usage() {
    let known = "expected encode, decode, explain, run, show; see sb --help\n";
    for (words, err) in [
        (&[][..], format!("sb: no command; {known}")),
        (&["draw"], format!("sb: no command \"draw\"; {known}")),
        (&["--board"], format!("sb: no command \"--board\"; {known}")),
        (&["encode", "a", "b"], "sb encode: \"b\" is one word too many; see sb encode --help\n".into()),
        (&["encode", "--board", "a"], "sb encode: no option \"--board\"; see sb encode --help\n".into()),
        (&["run", "--board"], "sb run: --board has no value; see sb run --help\n".into()),
        (&["run", "--board=a", "--board", "b"], "sb run: --board is given twice; see sb run --help\n".into()),
        (&["show"], "sb show: --board FILE is missing; see sb show --help\n".into()),
        (&["show", "a"], "sb show: \"a\" is one word too many; see sb show --help\n".into()),
        (
            &["show", "--board", "a", "--disk", "64"],
            "sb show: --disk \"64\": expected a disk, 0 to 63; see sb show --help\n".into(),
        ),
        (&["decode", "--", "--skip", "b"], "sb decode: \"b\" is one word too many; see sb decode --help\n".into()),
    ] {
        assert_eq!(sb(words, "").refused(2), err);
    }
    let err = sb(&["decode", "--", "--skip"], "").refused(1);
    assert!(err.starts_with("sb decode: cannot read --skip: "), "{err}");
}

/// Whoever reads the output may stop: no complaint, exit code 0, and more is written than a pipe holds.
#[test]
fn a_closed_output_ends_quietly() {
    for (name, input) in [
        ("encode", PRINTED_TEXT.repeat(2_000).into_bytes()),
        ("decode", printed_records().repeat(2_000)),
        ("explain", PRINTED_LINES.repeat(2_000).into_bytes()),
        ("run", PRINTED_TEXT.repeat(2_000).into_bytes()),
        ("--help", Vec::new()),
    ] {
        let mut child = command(&[name])
            .stdin(Stdio::piped())
            .stdout(Stdio::piped())
            .stderr(Stdio::piped())
            .spawn()
            .expect("sb can be run");
        drop(child.stdout.take());
        let mut stdin = child.stdin.take().unwrap();
        let _ = stdin.write_all(&input);
        drop(stdin);
        let output = child.wait_with_output().unwrap();
        assert_eq!((output.status.code(), output.stderr.as_slice()), (Some(0), &b""[..]), "{name}");
    }
}

/// An output that takes nothing is told of, and is no good end.
#[test]
fn a_full_output() {
    let full = match OpenOptions::new().write(true).open("/dev/full") {
        Ok(full) => full,
        Err(_) => return,
    };
    let output = command(&["--help"]).stdout(full).output().unwrap();
    assert_eq!(output.status.code(), Some(1));
    assert!(output.stderr.starts_with(b"sb: cannot write to standard output: "));
}
