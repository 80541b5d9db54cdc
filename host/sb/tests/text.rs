//! Text to records and back.

mod common;
use common::*;
use stopblocker::{Claim, Disk, Open, Release};

fn encoded(text: &str) -> Vec<u8> {
    sb(&["encode"], text).fine()
}

fn decoded(records: &[u8]) -> String {
    sb(&["decode"], records).text()
}

#[test]
fn the_printed_run() {
    assert_eq!(encoded(PRINTED_TEXT), printed_records());
    assert_eq!(decoded(&printed_records()), PRINTED_TEXT);
    let folder = Folder::new("printed");
    let (text, records) = (folder.with("text", PRINTED_TEXT), folder.with("records", printed_records()));
    assert_eq!(sb(&["encode", &text], "").fine(), printed_records());
    assert_eq!(sb(&["decode", &records], "").text(), PRINTED_TEXT);
    assert_eq!(sb(&["encode", "-"], PRINTED_TEXT).fine(), printed_records());
}

#[test]
fn every_kind_of_line_as_the_crate_has_it() {
    let d = Disk::new(3).unwrap();
    for (text, record) in [
        ("open 3 at 100 used-limit 1000 promised-limit 500", Open::new(d, 100, 1_000, 500).record()),
        ("claim 3 ReportUsed 7 own 2 measured 90 at 100", Claim::report_used(d, 100, 7, 2).measured(90).record()),
        ("claim 3 AddPromised -300 own 0 measured 101 at 101", Claim::add_promised(d, 101, -300, 0).record()),
        (
            "claim 3 SetPromised 8 own 1 measured 9 at 9 priority 255",
            Claim::set_promised(d, 9, 8, 1).priority(255).record(),
        ),
        ("claim 3 SetState 2 own 0 measured 7 at 9", Claim::set_state(d, 9, 2).measured(7).record()),
        (
            "claim 3 ReadUsed limit 50000 at 101 priority 5 fresh",
            Claim::read_used(d, 101, 50_000).priority(5).fresh().record(),
        ),
        ("claim 3 ReadLoad limit 10 at 101", Claim::read_load(d, 101, 10).record()),
        ("claim 3 ReadState limit 0 at 101 fresh", Claim::read_state(d, 101).fresh().record()),
        ("release 3 ticket 2 at 103", Release::new(d, 103, 2).record()),
    ] {
        assert_eq!(encoded(text), record, "{text}");
        assert_eq!(decoded(&record), format!("{text}\n"));
    }
}

/// What is left out, in another order, in other letters, with separators: the same records.
#[test]
fn many_ways_to_write_one_line() {
    for (text, same) in [
        ("claim 3 SetState 2 measured 7 at 9", "claim 3 SetState 2 own 0 measured 7 at 9 priority 0"),
        ("claim 3 ReportUsed 40,000 at 100", "claim 3 ReportUsed 40000 own 0 measured 100 at 100"),
        (
            "claim 3 ReportUsed priority 5 at 100 own 20 40_000",
            "claim 3 ReportUsed 40000 own 20 measured 100 at 100 priority 5",
        ),
        ("claim 3 ReportUsed at 100 value 40000", "claim 3 ReportUsed 40000 own 0 measured 100 at 100"),
        ("claim 3 AddPromised +300 at 1", "claim 3 AddPromised 300 own 0 measured 1 at 1"),
        ("CLAIM 3 readused FRESH Limit 1,000 AT 1", "claim 3 ReadUsed limit 1000 at 1 fresh"),
        ("claim 3 4 limit 5 at 1", "claim 3 ReadUsed limit 5 at 1"),
        ("claim 3 ReadState at 1", "claim 3 ReadState limit 0 at 1"),
        ("claim 3 7 at 6", "claim 3 7 value 0 own 0 measured 6 at 6"),
        ("open 3 promised-limit 2_000_000_000 used-limit 1 at 0", "open 3 at 0 used-limit 1 promised-limit 2000000000"),
        ("release 3 at 4,294,967,295 ticket 1", "release 3 ticket 1 at 4294967295"),
        ("  release\t3  ticket 1 at 2\r", "release 3 ticket 1 at 2"),
        ("release 3 ticket 1 at 2#done", "release 3 ticket 1 at 2"),
    ] {
        assert_eq!(encoded(text), encoded(same), "{text}");
        assert_eq!(encoded(text).len(), 24, "{text}");
    }
    assert_eq!(encoded("\u{feff}# all of it\n\n   \n\t# comments\n"), b"");
    assert_eq!(encoded(""), b"");
    assert_eq!(decoded(b""), "");
}

/// Well-formed, and the desk refuses it: text can say it all the same.
#[test]
fn records_that_the_desk_refuses() {
    for (text, bytes) in [
        ("open 200 at 1 used-limit 4294967295 promised-limit 0", record([1, 200, 0, 0, 0], [1, 0, u32::MAX, 0])),
        (
            "claim 64 9 value -5 own 1 measured 2 at 1 priority 3 fresh",
            record([2, 64, 9, 3, 1], [1, 2, 5u32.wrapping_neg(), 1]),
        ),
        ("claim 0 ReadUsed limit 4 value 1 measured 2 at 3", record([2, 0, 4, 0, 0], [3, 2, 1, 4])),
        ("claim 0 ReportUsed -2147483648 own 0 measured 9 at 1 fresh", record([2, 0, 0, 0, 1], [1, 9, 1 << 31, 0])),
        ("release 255 ticket 0 at 0", record([3, 255, 0, 0, 0], [0; 4])),
    ] {
        assert_eq!(encoded(text), bytes, "{text}");
        assert_eq!(decoded(&bytes), format!("{text}\n"));
    }
}

const METHODS: &str =
    "a method: ReportUsed, AddPromised, SetPromised, SetState, ReadUsed, ReadLoad, ReadState, or a number, 0 to 255";

#[test]
fn every_kind_of_bad_line() {
    let disk = "a disk, 0 to 255 (a board has 0 to 63)";
    let word = "0 to 4,294,967,295";
    let write = "value, own, measured, at, priority or fresh";
    let faults: Vec<(&str, &str, String)> = vec![
        ("opne 3 at 1", "\"opne\"", "open, claim or release".into()),
        ("open", "the line ends", disk.into()),
        ("open three at 1", "\"three\"", disk.into()),
        ("open 256 at 1", "\"256\"", disk.into()),
        ("open -1 at 1", "\"-1\"", disk.into()),
        ("open 3 used-limit 1 promised-limit 1", "the line ends", "at SECOND".into()),
        ("open 3 at 1 promised-limit 1", "the line ends", "used-limit MIB".into()),
        ("open 3 at 1 used-limit 1", "the line ends", "promised-limit MIB".into()),
        ("open 3 at 1 limit 1", "\"limit\"", "at, used-limit or promised-limit".into()),
        ("open 3 at", "the line ends", format!("a number for at, {word}")),
        ("open 3 at used-limit 1", "\"used-limit\"", format!("a number for at, {word}")),
        ("open 3 at 4294967296", "\"4294967296\"", format!("a number for at, {word}")),
        ("open 3 at 1 at 2", "\"at\"", "at only once".into()),
        ("open 3 at 1 used-limit 1,5", "\"1,5\"", format!("a number for used-limit, {word}")),
        ("open 3 at 1 used-limit -1", "\"-1\"", format!("a number for used-limit, {word}")),
        ("claim 3", "the line ends", METHODS.into()),
        ("claim 3 ReadFree limit 1 at 1", "\"ReadFree\"", METHODS.into()),
        ("claim 3 256 at 1", "\"256\"", METHODS.into()),
        ("claim 3 ReportUsed at 1", "the line ends", "the value of ReportUsed".into()),
        ("claim 3 ReportUsed 5", "the line ends", "at SECOND".into()),
        ("claim 3 ReportUsed 5 6 at 1", "\"6\"", "value only once".into()),
        (
            "claim 3 ReportUsed 2147483648 at 1",
            "\"2147483648\"",
            "a number for value, -2,147,483,648 to 2,147,483,647".into(),
        ),
        ("claim 3 ReportUsed 5.5 at 1", "\"5.5\"", "a number for value, -2,147,483,648 to 2,147,483,647".into()),
        ("claim 3 ReportUsed 5 limit 1 at 1", "\"limit\"", write.into()),
        ("claim 3 ReportUsed five at 1", "\"five\"", write.into()),
        ("claim 3 ReportUsed 5 at 1 prioritty 5", "\"prioritty\"", write.into()),
        ("claim 3 ReportUsed 5 at 1 priority 256", "\"256\"", "a number for priority, 0 to 255".into()),
        ("claim 3 ReadUsed limit 5 at 1 fresh fresh", "\"fresh\"", "fresh only once".into()),
        ("claim 3 ReadUsed 5 at 1", "\"5\"", "limit, at, priority, fresh, value or measured".into()),
        ("claim 3 ReadUsed own 5 at 1", "\"own\"", "limit, at, priority, fresh, value or measured".into()),
        ("claim 3 ReadLoad at 1", "the line ends", "limit MIB".into()),
        ("release 3 at 1", "the line ends", "ticket NUMBER".into()),
        ("release 3 2 at 1", "\"2\"", "ticket or at".into()),
        ("release 3 ticket 2", "the line ends", "at SECOND".into()),
    ];
    // Each stands between two good lines; all are reported, and nothing is written.
    let mut text = String::new();
    let mut expected = String::new();
    for (k, (line, wrong, wanted)) in faults.iter().enumerate() {
        text += &format!("release 3 ticket 1 at 1\n{line}\n# none\n");
        expected += &format!("sb encode: line {}: {wrong}: expected {wanted}\n", 3 * k + 2);
    }
    assert_eq!(sb(&["encode"], &text).refused(1), expected);
    assert_eq!(
        sb(&["encode"], b"open 3 at \xff").refused(1),
        format!("sb encode: line 1: \"\u{fffd}\": expected a number for at, {word}\n")
    );
}

#[test]
fn every_kind_of_bad_record() {
    let good = record([3, 3, 0, 0, 0], [103, 2, 0, 0]);
    let with = |place: usize, byte: u8| {
        let mut bytes = good.clone();
        bytes[place] = byte;
        bytes
    };
    let claim = record([2, 3, 0, 0, 2], [0; 4]);
    let records =
        [good.clone(), with(1, 0x43), with(2, 4), claim, with(7, 1), with(20, 9), good.clone(), good[..5].to_vec()];
    let faults = [
        "record 2: begins with 52 43, expected the mark 52 42",
        "record 3: kind 4, expected 1 (open), 2 (claim) or 3 (release)",
        "record 4: fresh flag 2, expected 0 or 1",
        "record 5: byte 7 is 1, expected 0",
        "record 6: byte 20 is 9, expected 0",
        "record 8: 5 bytes, expected 24",
    ];
    let expected: String = faults.iter().map(|fault| format!("sb decode: {fault}\n")).collect();
    assert_eq!(sb(&["decode"], records.concat()).refused(1), expected);

    let line = "release 3 ticket 2 at 103";
    let skipped = sb(&["decode", "--skip"], records.concat());
    assert_eq!((skipped.code, skipped.err), (1, expected));
    let text = format!("{line}\n# {}\n{line}\n# {}\n", faults[..5].join("\n# "), faults[5]);
    assert_eq!(String::from_utf8(skipped.out).unwrap(), text);
    assert_eq!(encoded(&text), [good.clone(), good].concat());
}

/// Numbers drawn again the same in every run.
struct Drawn(u64);

impl Drawn {
    fn below(&mut self, bound: u64) -> u64 {
        self.0 ^= self.0 << 13;
        self.0 ^= self.0 >> 7;
        self.0 ^= self.0 << 17;
        self.0 % bound
    }

    /// A word: any, or near an edge.
    fn word(&mut self) -> u32 {
        let edges = [0, 1, 255, 256, 1_000_000_000, 2_000_000_000, i32::MAX as u32, 1 << 31, u32::MAX];
        match self.below(3) {
            0 => self.below(1 << 32) as u32,
            1 => edges[self.below(edges.len() as u64) as usize],
            _ => self.below(2_000) as u32,
        }
    }

    fn byte(&mut self) -> u8 {
        self.below(256) as u8
    }

    fn record(&mut self) -> Vec<u8> {
        let disk = self.byte();
        match self.below(4) {
            0 => record([1, disk, 0, 0, 0], [self.word(), 0, self.word(), self.word()]),
            1 => record([3, disk, 0, 0, 0], [self.word(), self.word(), 0, 0]),
            _ => {
                let method = if self.below(8) == 0 { self.byte() } else { self.below(7) as u8 };
                let bytes = [2, disk, method, self.byte(), self.below(2) as u8];
                record(bytes, [self.word(), self.word(), self.word(), self.word()])
            }
        }
    }
}

#[test]
fn round_trip_of_random_records() {
    let mut drawn = Drawn(0x5b5b_1234_9876_0001);
    let records: Vec<u8> = (0..6_000).flat_map(|_| drawn.record()).collect();
    let text = decoded(&records);
    assert_eq!(text.lines().count(), 6_000);
    assert!(encoded(&text) == records, "the same bytes");
}

/// Text where records are wanted, and records where text is.
#[test]
fn the_wrong_way_round() {
    let err = sb(&["decode"], PRINTED_TEXT).refused(1);
    assert_eq!(err, "sb decode: the input is text, and no records; sb encode makes records of it\n");
    for input in [printed_records(), b"o\0p\0e\0n\0".to_vec()] {
        let err = sb(&["encode"], input).refused(1);
        let why = "it begins with a record's mark or holds a zero byte; sb decode reads records";
        assert_eq!(err, format!("sb encode: the input is no text: {why}\n"));
    }
}

/// What a bad word holds does not reach the terminal as it is.
#[test]
fn a_bad_word_is_shown_plainly() {
    let err = sb(&["encode"], format!("\u{1b}[31mopen\n{} 3\n", "x".repeat(41))).refused(1);
    let long = "x".repeat(40);
    let expected = "expected open, claim or release";
    let first = format!("sb encode: line 1: \"\\u{{1b}}[31mopen\": {expected}\n");
    assert_eq!(err, format!("{first}sb encode: line 2: \"{long}…\": {expected}\n"));
}
