//! The day that docs/SB.md shows, and the run in README.md, are what the commands say.

mod common;
use common::*;

const PAGE: &str = include_str!("../../../docs/SB.md");

/// What the page shows behind a command, up to the next empty line before a command or the end of the block.
fn shown(command: &str) -> String {
    let after = PAGE.split_once(&format!("$ {command}\n")).expect("the page shows it").1;
    let block = after.split("```").next().unwrap();
    let text = block.split("\n\n$ ").next().unwrap();
    format!("{}\n", text.trim_end())
}

#[test]
fn the_day_on_the_page() {
    let folder = Folder::new("docs");
    let (day, board) = (folder.with("day", shown("cat day")), folder.file("board"));
    assert_eq!(sb(&["run", "--board", &board, &day], "").text(), shown("sb run --board board day"));
    assert_eq!(sb(&["show", "--board", &board], "").text(), shown("sb show --board board"));
    assert_eq!(sb(&["show", "--board", &board, "--disk", "3"], "").text(), shown("sb show --board board --disk 3"));
    let more = folder.with("more", shown("cat more"));
    assert_eq!(sb(&["run", "--board", &board, &more], "").text(), shown("sb run --board board more"));
}

/// The rows of the table in README.md: request and line, which may stand alone.
#[test]
fn the_run_in_the_readme() {
    let readme = include_str!("../../../README.md");
    let table = readme.split_once("\n| request | line | in words |\n|---|---|---|\n").expect("the table").1;
    let rows = table.lines().take_while(|line| line.starts_with('|')).map(|line| line.split('|').collect::<Vec<_>>());
    let (mut requests, mut lines) = (String::new(), String::new());
    for row in rows {
        requests += &format!("{}\n", row[1].trim_matches(&[' ', '`'][..]));
        lines += &format!("{}\n", row[2].trim_matches(&[' ', '`'][..]));
    }
    assert_eq!(sb(&["encode"], &requests).fine(), printed_records());
    assert_eq!(lines, PRINTED_LINES);
}
