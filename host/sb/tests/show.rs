//! The board drawn, compared with drawings worked out by hand.

mod common;
use common::*;
use std::fs;

/// Disk 3: used 40,000 give or take 20, promised -300; a reading of its load with an add and two claims that wait.
/// Disk 10: used 15,000, promised 150. Disk 40: nothing.
const DAY: &str = "\
open 3 at 100 used-limit 1,000 promised-limit 500
claim 3 ReportUsed 40,000 own 20 measured 90 at 101
claim 3 SetPromised -300 at 101
claim 3 SetState 2 at 101
release 3 ticket 1 at 102
release 3 ticket 2 at 102
release 3 ticket 3 at 102
claim 3 ReadLoad limit 1,000 at 103 priority 9 fresh
claim 3 AddPromised -250 own 5 measured 104 at 105 priority 3
claim 3 SetPromised 70 own 1 at 106
claim 3 ReadLoad limit 19 at 107 priority 255
open 10 at 5 used-limit 2,000 promised-limit 0
claim 10 ReportUsed 15,000 at 6
claim 10 AddPromised 150 at 6
release 10 ticket 1 at 7
release 10 ticket 2 at 8
open 40 at 9 used-limit 0 promised-limit 0
";

fn day(folder: &Folder) -> String {
    let board = folder.file("board");
    sb(&["run", "--board", &board], DAY).fine();
    board
}

/// The same with disk 40's next ticket 0, which is not sound.
fn damaged(folder: &Folder) -> String {
    let mut bytes = fs::read(day(folder)).unwrap();
    bytes[64 + 768 * 40 + 4] = 0;
    folder.with("damaged", bytes)
}

fn drawn(words: &[&str], columns: Option<&str>) -> String {
    let mut command = command(words);
    if let Some(columns) = columns {
        command.env("COLUMNS", columns);
    }
    ended(&mut command, b"").text()
}

/// Without bars a line is 71 wide (4 + 6 + 12 + 4 + 12 + 5 + 5 + 6 + 7 and ten spaces), so at 100 each bar has 14.
/// Used: 40,000 fills it, 15,000 is 10.5 of 28 halves, rounded up to 11. Promised: 6 on each side of zero, so 13 and
/// one left over; -300 fills the left, 150 is half of the right.
#[test]
fn the_board() {
    let folder = Folder::new("board");
    let board = day(&folder);
    let blocks = "\
3 disks are open
a full bar is 40,000 MiB used, 300 MiB promised

disk used              MiB off by/limit promised       MiB off by/limit state clock active waiting
   3 ██████████████ 40,000     20/1,000 ██████│░░░░░░ -300        5/500     2   107      2       2
  10 █████▌░░░░░░░░ 15,000      0/2,000 ░░░░░░│███░░░  150          0/0     0     8      0       0
  40 ░░░░░░░░░░░░░░      0          0/0 ░░░░░░│░░░░░░    0          0/0     0     9      0       0
";
    let ascii = "\
3 disks are open
a full bar is 40,000 MiB used, 300 MiB promised

disk used              MiB off by/limit promised       MiB off by/limit state clock active waiting
   3 ############## 40,000     20/1,000 ######|...... -300        5/500     2   107      2       2
  10 #####......... 15,000      0/2,000 ......|###...  150          0/0     0     8      0       0
  40 ..............      0          0/0 ......|......    0          0/0     0     9      0       0
";
    assert_eq!(drawn(&["show", "--board", &board], None), blocks);
    assert_eq!(drawn(&["show", "--board", &board, "--ascii"], Some("100")), ascii);
    assert!(ascii.is_ascii());
}

/// Bars take what COLUMNS leaves, and are left out where that is less than 8 for each: where the line is not 87 wide.
#[test]
fn as_wide_as_columns_says() {
    let folder = Folder::new("columns");
    let board = day(&folder);
    let wide = drawn(&["show", "--board", &board], Some("131"));
    assert!(wide.contains(&format!("\n   3 {} 40,000 ", "█".repeat(30))), "{wide}");
    assert!(wide.contains(&format!(" {}│{} ", "█".repeat(14), "░".repeat(14))), "{wide}");
    let least = drawn(&["show", "--board", &board], Some("87"));
    assert!(least.contains("   3 ████████ 40,000     20/1,000 ███│░░░  -300 "), "{least}");
    let without = "\
3 disks are open
used and promised in MiB

disk   used off by/limit promised off by/limit state clock active waiting
   3 40,000     20/1,000     -300        5/500     2   107      2       2
  10 15,000      0/2,000      150          0/0     0     8      0       0
  40      0          0/0        0          0/0     0     9      0       0
";
    for columns in ["86", "40", "1"] {
        assert_eq!(drawn(&["show", "--board", &board], Some(columns)), without);
    }
    for columns in ["", "0", "wide", "-5"] {
        assert_eq!(drawn(&["show", "--board", &board], Some(columns)), drawn(&["show", "--board", &board], None));
    }
}

/// The reading's amount: carried 20, then the add's own error and gap, 5 + 250. The add makes promised off by 5.
#[test]
fn one_disk() {
    let folder = Folder::new("disk");
    let expected = "\
disk 3: clock 107, next ticket 8
  attribute       value  may be off by  limit  stamp
  used, MiB      40,000             20  1,000     90
  promised, MiB    -300              5    500    101
  state               2              0      0    101

2 active
  ticket  method       priority  value  error        measured  fresh    told  amount
       4  ReadLoad            9      -  limit 1,000         -  fresh  39,700     275
       5  AddPromised         3   -250  own 5             104  -           -       -

2 waiting
  ticket  method       priority  value  error     measured  fresh  told  amount
       7  ReadLoad          255      -  limit 19         -  -         -       -
       6  SetPromised         0     70  own 1          106  -         -       -
";
    let board = day(&folder);
    assert_eq!(drawn(&["show", "--board", &board, "--disk", "3"], None), expected);
    assert_eq!(drawn(&["show", "--disk=4", "--board", &board], None), "disk 4 is closed\n");
    // The table of the active claims is 84 wide, the one of the waiting ones 79.
    let close = "  ticket method      priority value error       measured fresh   told amount\n";
    let narrow = drawn(&["show", "--board", &board, "--disk", "3"], Some("83"));
    assert!(narrow.contains(close) && narrow.contains("  ticket  method       priority  value  error     measured "));
    assert_eq!(drawn(&["show", "--board", &board, "--disk", "3"], Some("84")), expected);
    let none = drawn(&["show", "--board", &board, "--disk", "40"], None);
    assert!(none.ends_with("\n0 active\n\n0 waiting\n"), "{none}");
}

#[test]
fn a_part_that_is_not_sound() {
    let folder = Folder::new("unsound");
    let board = damaged(&folder);
    let all = drawn(&["show", "--board", &board], None);
    let why = "NOT SOUND: its bytes were changed from outside, claims and releases are refused 14";
    assert_eq!(all.lines().count(), 7, "{all}");
    assert!(all.starts_with("3 disks are open\n") && all.ends_with(&format!("\n  40 {why}\n")), "{all}");
    let one = drawn(&["show", "--board", &board, "--disk", "40"], None);
    assert!(one.starts_with(&format!("disk 40: clock 9, next ticket 0\n{why}; they say:\n")), "{one}");
    let sound = drawn(&["show", "--board", &board, "--disk", "10"], None);
    assert!(!sound.contains("SOUND"), "{sound}");

    let garbage = folder.with("garbage", vec![0xff; 49_216]);
    let all = drawn(&["show", "--board", &garbage], None);
    assert!(all.starts_with("64 disks are open\n") && all.matches("NOT SOUND").count() == 64, "{all}");
    let one = drawn(&["show", "--board", &garbage, "--disk", "0"], None);
    assert!(one.contains("\n4,294,967,295 active, and a part has room for 8\n"), "{one}");
    assert_eq!(one.matches("none, above 6").count(), 16, "{one}");
}

#[test]
fn boards_that_are_none() {
    let folder = Folder::new("none");
    let empty = folder.with("empty", vec![0; 49_216]);
    assert_eq!(drawn(&["show", "--board", &empty], None), "no disk is open\n");
    let short = folder.with("short", vec![0; 100]);
    let err = sb(&["show", "--board", &short], "").refused(1);
    assert_eq!(err, format!("sb show: {short} is no board: it has 100 bytes, a board 49216\n"));
    let missing = folder.file("missing");
    assert_eq!(sb(&["show", "--board", &missing], "").refused(1), format!("sb show: there is no file {missing}\n"));
    assert_eq!(folder.names(), ["empty", "short"]);
}

#[test]
fn no_colour_but_on_a_terminal() {
    let folder = Folder::new("colour");
    let board = damaged(&folder);
    for words in [&["show", "--board", &board][..], &["show", "--board", &board, "--disk", "40"]] {
        assert!(!drawn(words, None).contains('\u{1b}'));
    }
}
