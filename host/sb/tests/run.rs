//! Text through the desk, and the board in a file.

mod common;
use common::*;
use std::fs;
use stopblocker::{Board, Disk};

#[test]
fn the_printed_run() {
    assert_eq!(sb(&["run"], PRINTED_TEXT).text(), PRINTED_WORDS);
    assert_eq!(sb(&["run"], printed_records()).text(), PRINTED_WORDS);
    let folder = Folder::new("run");
    assert_eq!(sb(&["run", &folder.with("text", PRINTED_TEXT)], "").text(), PRINTED_WORDS);
    assert_eq!(folder.names(), ["text"]);
}

/// Every method granted, made to wait, granted in a pass and released.
#[test]
fn every_answer() {
    let text = "\
open 9 at 0 used-limit 10 promised-limit 10
claim 9 SetPromised 1,000 own 2 at 1
release 9 ticket 1 at 2
claim 9 AddPromised -300 own 1 at 3
claim 9 ReadLoad limit 400 at 3
claim 9 SetState 4 at 3
claim 9 ReadState at 3
claim 9 SetPromised 5 at 3
claim 9 AddPromised 1 at 3 priority 1
release 9 ticket 5 at 4
release 9 ticket 2 at 4
claim 9 ReadState at 4
release 9 ticket 4 at 5
release 9 ticket 7 at 5
release 9 ticket 3 at 5
claim 9 ReadState at 5
claim 9 ReportUsed 3 own 11 at 5
open 64 at 5 used-limit 1 promised-limit 1
";
    let words = "\
record 1, disk 9: opened, used may be off by 10 MiB at most, promised by 10 MiB
record 2, disk 9: ticket 1 granted, promised may now be off by 2 MiB
record 3, disk 9: released ticket 1, promised is now 1,000 MiB
record 4, disk 9: ticket 2 granted, promised may now be off by 3 MiB
record 5, disk 9: ticket 3 granted, told used + promised: 1,000 MiB, may be off by 303 MiB
record 6, disk 9: ticket 4 granted, state changes at its release
record 7, disk 9: ticket 5 waits, tried again at each release
record 8, disk 9: ticket 6 waits, tried again at each release
record 9, disk 9: ticket 7 granted, promised may now be off by 3 MiB
record 10, disk 9: released ticket 5, which still waited
record 11, disk 9: released ticket 2, 300 MiB taken off promised
record 12, disk 9: ticket 8 waits, tried again at each release
record 13, disk 9: released ticket 4, state is now 4
  + record 13: ticket 8 granted, told disk 9 state: 4
record 14, disk 9: released ticket 7, 1 MiB added to promised
record 15, disk 9: released ticket 3
  + record 15: ticket 6 granted, disk 9 promised may now be off by 0 MiB
record 16, disk 9: ticket 9 granted, told state: 4
record 17, disk 9: refused 18, a write whose own error exceeds its attribute's limit
    hint: the own error 11 is above the limit that the open gave used; it could never be granted: measure better, \
or open the disk with a larger limit on the next board
record 18, disk 64: refused 11, disk above 63
    hint: a board has disks 0 to 63; more disks need a second board
";
    assert_eq!(sb(&["run"], text).text(), words);
}

/// A board with disk 3 opened, on which the next ticket is another.
fn with_next_ticket(folder: &Folder, next: u32) -> String {
    let board = folder.file("opened");
    sb(&["run", "--board", &board], "open 3 at 10 used-limit 10 promised-limit 10").fine();
    let mut bytes = fs::read(board).unwrap();
    bytes[64 + 768 * 3 + 4..][..4].copy_from_slice(&next.to_le_bytes());
    folder.with(&format!("next-{next}"), bytes)
}

/// Every refusal but 9 can be tried: the last request of each row is refused so, with 01's sentence. 9 can't be, since every
/// board that `sb` lends has its length; one of another length in a file is no board to it.
#[test]
fn every_refusal() {
    let folder = Folder::new("refusals");
    let open = "open 3 at 10 used-limit 10 promised-limit 10\n";
    let full = [open, "claim 3 SetState 1 at 10\n", &"claim 3 ReadState at 10\n".repeat(9)].concat();
    let then = |last: &str| [open, last].concat().into_bytes();
    let new = folder.file("new");
    for (request, board, line) in [
        (
            b"RB\x03\x03\x00\x00\x00".to_vec(),
            &new,
            "record 1: refused 10, record not 24 bytes, wrong mark or kind, flag over 1, an unused byte or byte 7 not zero",
        ),
        (then("claim 64 ReadState at 10"), &new, "record 2, disk 64: refused 11, disk above 63"),
        (then(open), &new, "record 2, disk 3: refused 12, open of an open disk"),
        (then("claim 4 ReadState at 10"), &new, "record 2, disk 4: refused 13, claim or release on a closed disk"),
        (then("release 4 ticket 1 at 10"), &new, "record 2, disk 4: refused 13, claim or release on a closed disk"),
        (
            b"claim 3 ReadState at 10".to_vec(),
            &with_next_ticket(&folder, 0),
            "record 1, disk 3: refused 14, the disk's part isn't sound",
        ),
        (then("claim 3 ReadState at 9"), &new, "record 2, disk 3: refused 15, now below the disk's clock"),
        (then("claim 3 7 at 10"), &new, "record 2, disk 3: refused 16, method above 6"),
        (
            then("claim 3 SetState 256 at 10"),
            &new,
            "record 2, disk 3: refused 17, a field out of range: values, errors, limits; a reading with value or second \
             of measuring not 0; a write with the fresh flag, or measured after now",
        ),
        (
            then("claim 3 ReportUsed 1 own 11 at 10"),
            &new,
            "record 2, disk 3: refused 18, a write whose own error exceeds its attribute's limit",
        ),
        (
            b"claim 3 ReadState at 10\nclaim 3 ReadState at 10".to_vec(),
            &with_next_ticket(&folder, 999_999),
            "record 2, disk 3: refused 19, a claim with no ticket left",
        ),
        (full.into_bytes(), &new, "record 11, disk 3: refused 20, a claim that would wait while 8 wait"),
        (
            then("release 3 ticket 1 at 10"),
            &new,
            "record 2, disk 3: refused 21, release of a ticket neither active nor waiting",
        ),
    ] {
        let said = sb(&["run", "--board", board], request).text();
        let lines: Vec<&str> = said.lines().collect();
        let (before, last) = lines.split_at(lines.len() - 2);
        assert_eq!(last[0], line);
        assert!(last[1].starts_with("    hint: ") && !before.iter().any(|line| line.contains("refused")), "{said}");
        let _ = fs::remove_file(&new);
    }
}

/// A day cut in two: the second run knows what the first one's tickets are for.
#[test]
fn a_board_goes_on() {
    let folder = Folder::new("goes-on");
    let board = folder.file("board");
    let (first, second) = PRINTED_TEXT.split_at(PRINTED_TEXT.find("release").unwrap());
    let said = [first, second].map(|text| sb(&["run", "--board", &board], text).text());
    assert_eq!(said[0], PRINTED_WORDS[..PRINTED_WORDS.find("record 5").unwrap()]);
    assert!(
        said[1].starts_with("record 1, disk 3: released ticket 2\n  + record 1: ticket 3 granted, disk 3 used may now")
    );
    assert_eq!(folder.names(), ["board"]);

    let whole = folder.file("whole");
    sb(&["run", "--board", &whole], PRINTED_TEXT).fine();
    assert_eq!(fs::read(&board).unwrap(), fs::read(&whole).unwrap());
    let kept = Board::from_bytes(&fs::read(&board).unwrap()).unwrap();
    assert_eq!((kept.open_disks(), kept.disk(Disk::new(3).unwrap()).unwrap().next_ticket()), (1, 4));
}

/// Where anything is wrong, the board's file is as it was and nothing stands beside it.
#[test]
fn nothing_is_written_where_something_is_wrong() {
    let folder = Folder::new("wrong");
    for length in [0, 49_215, 49_217] {
        let board = folder.with("board", vec![7; length]);
        let err = sb(&["run", "--board", &board], PRINTED_TEXT).refused(1);
        assert_eq!(err, format!("sb run: {board} is no board: it has {length} bytes, a board 49216\n"));
        assert_eq!(fs::read(&board).unwrap(), vec![7; length]);
    }
    assert_eq!(folder.names(), ["board"]);

    let missing = folder.file("missing");
    let err = sb(&["run", "--board", &missing], "open 3 at 1\nclose 3\n").refused(1);
    let faults =
        ["line 1: the line ends: expected used-limit MIB", "line 2: \"close\": expected open, claim or release"];
    assert_eq!(err, faults.map(|fault| format!("sb run: {fault}\n")).concat());
    assert_eq!(folder.names(), ["board"]);

    let nowhere = folder.file("nowhere/board");
    let err = sb(&["run", "--board", &nowhere], PRINTED_TEXT).refused(1);
    assert!(err.starts_with(&format!("sb run: cannot write {nowhere}.new: ")), "{err}");
    let err = sb(&["run", &folder.file("no-text")], "").refused(1);
    assert!(err.starts_with("sb run: cannot read "), "{err}");
}

/// A board that another run is at work on is left alone.
#[test]
fn a_board_that_is_held() {
    let folder = Folder::new("held");
    let board = folder.file("board");
    sb(&["run", "--board", &board], PRINTED_TEXT).fine();
    let before = fs::read(&board).unwrap();
    folder.with("board.new", "");
    let err = sb(&["run", "--board", &board], PRINTED_TEXT).refused(1);
    assert!(err.starts_with(&format!("sb run: {board}.new is there: another run")), "{err}");
    assert_eq!(fs::read(&board).unwrap(), before);
    assert_eq!(folder.names(), ["board", "board.new"]);
}

/// Runs at once on one board come one after the other: no claim is lost.
#[test]
fn runs_at_once() {
    let folder = Folder::new("at-once");
    let board = folder.file("board");
    sb(&["run", "--board", &board], "open 3 at 1 used-limit 1 promised-limit 1").fine();
    let runs: Vec<_> = (0..4)
        .map(|_| {
            let board = board.clone();
            std::thread::spawn(move || sb(&["run", "--board", &board], "claim 3 ReadState at 1").text())
        })
        .collect();
    let mut said: Vec<String> = runs.into_iter().map(|run| run.join().unwrap()).collect();
    said.sort();
    let told = |ticket| format!("record 1, disk 3: ticket {ticket} granted, told state: 0\n");
    assert_eq!(said, [told(1), told(2), told(3), told(4)]);
    let kept = Board::from_bytes(&fs::read(&board).unwrap()).unwrap();
    assert_eq!(kept.disk(Disk::new(3).unwrap()).unwrap().active().count(), 4);
}

/// A link to a board stays a link, and a board keeps who may read it.
#[cfg(unix)]
#[test]
fn links_and_permissions() {
    use std::os::unix::fs::{symlink, PermissionsExt};
    let folder = Folder::new("links");
    let (board, link) = (folder.file("board"), folder.file("link"));
    sb(&["run", "--board", &board], "").fine();
    assert_eq!(fs::read(&board).unwrap(), vec![0; 49_216]);
    fs::set_permissions(&board, fs::Permissions::from_mode(0o600)).unwrap();
    symlink(&board, &link).unwrap();
    sb(&["run", "--board", &link], PRINTED_TEXT).fine();
    assert!(fs::symlink_metadata(&link).unwrap().file_type().is_symlink());
    assert_eq!(fs::metadata(&board).unwrap().permissions().mode() & 0o777, 0o600);
    assert_ne!(fs::read(&board).unwrap(), vec![0; 49_216]);
}
