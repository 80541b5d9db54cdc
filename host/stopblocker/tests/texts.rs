//! What the C header and docs/HOST.md say of each refusal is what the crate says, and the advice for 14 helps. Both name what
//! the archive asks of a C library.

mod common;
use common::*;
use stopblocker::Refusal;

const HEADER: &str = include_str!("../../include/stopblocker.h");
const PAGE: &str = include_str!("../../../docs/HOST.md");
const BUILD: &str = include_str!("../../build");

/// The texts that a function of the header returns, case by case; one may be written in several pieces.
fn returned(function: &str) -> Vec<String> {
    let body = HEADER.split_once(&format!("*{function}(")).expect("the header has it").1;
    let cases = body.split("default:").next().unwrap().split("case SB_REFUSED_").skip(1);
    cases.map(|case| case.split('"').skip(1).step_by(2).collect()).collect()
}

#[test]
fn the_header() {
    let says: Vec<String> = Refusal::ALL.iter().map(|refusal| refusal.to_string()).collect();
    let to_do: Vec<&str> = Refusal::ALL.iter().map(|refusal| refusal.what_to_do()).collect();
    assert_eq!(returned("stopblocker_refusal"), says);
    assert_eq!(returned("stopblocker_what_to_do"), to_do);
}

/// The page adds in brackets whom a refusal is for.
#[test]
fn the_page() {
    for refusal in Refusal::ALL {
        let begins = format!("| {} | {refusal}", refusal.number());
        let row = PAGE.lines().find(|line| line.starts_with(&begins)).expect("the page has a row for each");
        let whom = row[begins.len()..].strip_suffix(&format!(" | {} |", refusal.what_to_do())).expect(row);
        assert!(["", " (not for open)", " (claim)"].contains(&whom), "{row}");
    }
}

/// host/build holds the archive to its list; header and page say the same list.
#[test]
fn what_the_archive_asks_for() {
    let list = BUILD.lines().find_map(|line| line.strip_prefix("asked='")?.strip_suffix('\'')).expect("a list");
    let words = |text: &str| text.replace(['`', '*'], " ").split_whitespace().collect::<Vec<_>>().join(" ");
    let sentence = format!("it asks the C library for {} and nothing else", list.replace(' ', ", "));
    for text in [HEADER, PAGE] {
        assert!(words(text).to_lowercase().contains(&sentence.to_lowercase()), "{sentence}");
    }
}

/// A part of any bytes, its bit cleared, opens anew, and the other disks are as they were.
#[test]
fn clear_the_bit_and_open_anew() {
    let mut desk = Low::opened(1_000, 500);
    desk.board[AT..AT + PART].fill(0xa5);
    assert_eq!(desk.claim(read(READ_USED, 0)), refused(14));
    desk.board[usize::from(DISK / 8)] &= !(1 << (DISK % 8));
    let before = desk.board.clone();
    assert_eq!(desk.open(7, 1_000, 500), opened());
    assert_eq!(desk.claim(read(READ_USED, 0).at(7)), granted(1, 0, 0));
    assert!(desk.board[8..AT] == before[8..AT] && desk.board[AT + PART..] == before[AT + PART..]);
}
