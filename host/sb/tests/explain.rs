//! The program's lines in words.

mod common;
use common::*;
use stopblocker::Refusal;

/// 01's printed run: text to records, 01's lines for them, and the lines in words beside either form.
#[test]
fn the_printed_run() {
    let folder = Folder::new("explain");
    let text = folder.with("text", PRINTED_TEXT);
    let records = folder.with("records", sb(&["encode"], PRINTED_TEXT).fine());
    for asked in [&text, &records] {
        assert_eq!(sb(&["explain", "--records", asked], PRINTED_LINES).text(), PRINTED_WORDS);
    }
    let lines = folder.with("lines", PRINTED_LINES);
    assert_eq!(sb(&["explain", &format!("--records={text}"), &lines], "").text(), PRINTED_WORDS);
    let without = "\
record 1, disk 3: opened
record 2, disk 3: ticket 1 granted, told 0, may be off by 20
record 3, disk 3: ticket 2 granted, told 0, may be off by 40,020
record 4, disk 3: ticket 3 waits, tried again at each release
record 5, disk 3: released ticket 2
  + record 5: ticket 3 granted, disk 3, told 0, may be off by 600
record 6, disk 3: refused 21, release of a ticket neither active nor waiting
    hint: it was released before, or never was; nothing is held under it
record 7, disk 3: refused 15, now below the disk's clock
    hint: an accepted call was later than this one: call again with the present second; all callers need one clock
";
    assert_eq!(sb(&["explain"], PRINTED_LINES).text(), without);
}

/// Each with 01's sentence and what to do, which the crate has.
#[test]
fn every_refusal() {
    for refusal in Refusal::ALL {
        let number = refusal.number();
        let said = sb(&["explain"], format!("1 3 {number} 0 0 0\n")).text();
        let who = if number == 10 { "record 1" } else { "record 1, disk 3" };
        assert_eq!(said, format!("{who}: refused {number}, {refusal}\n    hint: {}\n", refusal.what_to_do()));
    }
}

#[test]
fn hints_that_know_the_record() {
    let folder = Folder::new("hints");
    let text = "\
open 3 at 0 used-limit 2,000,000,001 promised-limit 4,000,000,000
claim 3 ReportUsed 1,000,000,001 own 2,000,000,001 measured 8 at 7 fresh
claim 3 SetState 256 at 7
claim 3 ReadUsed limit 3,000,000,000 value -1 measured 2 at 7
claim 3 SetState 5 own 1 at 7
claim 3 SetPromised 5 own 1,001 at 7
";
    let text = folder.with("text", text);
    let lines: String = (1..=6).map(|n| format!("{n} 3 {} 0 0 0\n", if n > 4 { 18 } else { 17 })).collect();
    let said = sb(&["explain", "--records", &text], lines).text();
    let hints: Vec<&str> = said.lines().filter_map(|line| line.strip_prefix("    hint: ")).collect();
    assert_eq!(
        hints,
        [
            "the limit of used 2,000,000,001 is above 2,000,000,000; \
             the limit of promised 4,000,000,000 is above 2,000,000,000",
            "the value 1,000,000,001 is not within ±1,000,000,000; the own error 2,000,000,001 is above 2,000,000,000; \
             only a reading asks for fresh figures; measured at 8, after now, which is 7",
            "a state is 0 to 255, not 256",
            "a reading has value 0, not -1; a reading has second of measuring 0, not 2; \
             the stated limit 3,000,000,000 is above 2,000,000,000",
            "a state has no error: own is 0, not 1",
            "the own error 1,001 is above the limit that the open gave promised; it could never be granted: \
             measure better, or open the disk with a larger limit on the next board",
        ]
    );
    let records = folder.with("records", [printed_records(), vec![0x52, 0x42, 1]].concat());
    let said = sb(&["explain", "--records", &records], "8 0 10 0 0 0").text();
    assert!(said.ends_with("byte 7 not zero\n    hint: 3 bytes, expected 24\n"), "{said}");
}

/// Bad lines are reported, the others are said.
#[test]
fn every_kind_of_bad_line() {
    let code = "a code, 0 to 3, or a refusal, 9 to 21";
    let mut text = String::new();
    let mut expected = String::new();
    for (k, (line, wrong, wanted)) in [
        ("granted", "\"granted\"", "the number of a record"),
        ("0 3 3 0 0 0", "\"0\"", "the number of a record"),
        ("-1 3 3 0 0 0", "\"-1\"", "the number of a record"),
        ("++1 3 0 1 0 0", "\"+1\"", "the number of a record"),
        ("1", "the line ends", "a disk, 0 to 255"),
        ("1 256 11 0 0 0", "\"256\"", "a disk, 0 to 255"),
        ("1 3", "the line ends", code),
        ("1 3 4 0 0 0", "\"4\"", code),
        ("1 3 22 0 0 0", "\"22\"", code),
        ("+1 3 1 2 0 0", "\"1\"", "0: a pass only grants"),
        ("1 3 0", "the line ends", "a ticket"),
        ("1 3 0 -1 0 0", "\"-1\"", "a ticket"),
        ("1 3 0 0 0 0", "\"0\"", "a ticket, 1 or more"),
        ("1 3 2 0 0 0", "\"0\"", "a ticket, 1 or more"),
        ("1 3 3 1 0 0", "\"1\"", "0: neither opened nor a refusal has a ticket"),
        ("1 3 0 1", "the line ends", "told, a number"),
        ("1 3 1 1 7 0", "\"7\"", "0: only a grant is told something"),
        ("1 3 0 1 0", "the line ends", "an amount, a number"),
        ("1 3 0 1 0 4,000", "\"4,000\"", "an amount, a number"),
        ("1 3 2 1 0 9", "\"9\"", "0: only a grant has an amount"),
        ("1 3 0 1 0 4 5", "\"5\"", "the line to end: it has six numbers"),
    ]
    .into_iter()
    .enumerate()
    {
        text += &format!("{line}\n9 3 1 1 0 0\n\n");
        expected += &format!("sb explain: line {}: {wrong}: expected {wanted}\n", 3 * k + 1);
    }
    let ended = sb(&["explain"], text);
    assert_eq!((ended.code, ended.err), (1, expected));
    let said = "record 9, disk 3: ticket 1 waits, tried again at each release\n";
    assert_eq!(String::from_utf8(ended.out).unwrap(), said.repeat(21));
}

/// Lines that are no answers to these records.
#[test]
fn lines_of_other_records() {
    let folder = Folder::new("others");
    let text = "claim 70 ReadState at 1\nclaim 3 7 at 1\nclaim 3 SetState 256 at 1\n";
    let records = [printed_records(), sb(&["encode"], text).fine(), vec![0; 24]].concat();
    let records = folder.with("records", records);
    let none = ": begins with 00 00, expected the mark 52 42";
    for (line, why) in [
        ("12 3 3 0 0 0", "record 12, but only 11 were sent"),
        ("1 4 3 0 0 0", "\"open 3"),
        ("1 3 0 1 0 0", "\"open 3"),
        ("1 3 13 0 0 0", "\"open 3"),
        ("1 3 17 0 0 0", "\"open 3"),
        ("1 3 11 0 0 0", "\"open 3"),
        ("1 0 10 0 0 0", "\"open 3"),
        ("2 3 2 1 0 0", "\"claim 3"),
        ("2 3 16 0 0 0", "\"claim 3"),
        ("2 3 17 0 0 0", "\"claim 3"),
        ("+2 3 0 1 0 0", "\"claim 3"),
        ("5 3 2 3 0 0", "\"release 3"),
        ("5 3 0 2 0 0", "\"release 3"),
        ("5 3 17 0 0 0", "\"release 3"),
        ("8 70 0 1 0 0", "\"claim 70"),
        ("9 3 1 1 0 0", "\"claim 3 7"),
        ("10 3 0 1 0 0", "\"claim 3 SetState"),
        ("11 0 3 0 0 0", &none[2..]),
    ] {
        let err = sb(&["explain", "--records", &records], line).refused(1);
        assert!(err.starts_with("sb explain: line 1: ") && err.contains(why), "{line}: {err}");
    }
    let fits = "1 3 12 0 0 0\n8 70 11 0 0 0\n9 3 16 0 0 0\n10 3 17 0 0 0\n11 0 10 0 0 0\n1 3 9 0 0 0\n";
    assert_eq!(sb(&["explain", "--records", &records], fits).text().lines().count(), 12);
    let bad = folder.with("bad", "open 3\nclose 3\n");
    let err = sb(&["explain", "--records", &bad], PRINTED_LINES).refused(1);
    let faults = ["line 1: the line ends: expected at SECOND", "line 2: \"close\": expected open, claim or release"];
    assert_eq!(err, faults.map(|fault| format!("sb explain: {bad}, {fault}\n")).concat());
}
