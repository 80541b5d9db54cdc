//! The built `sb`, run as people run it.
#![allow(dead_code)]

use std::fs;
use std::io::Write;
use std::path::{Path, PathBuf};
use std::process::{Command, Stdio};

/// How a command ended: its exit code, standard output, standard error.
#[derive(PartialEq, Eq, Debug)]
pub struct Ended {
    pub code: i32,
    pub out: Vec<u8>,
    pub err: String,
}

impl Ended {
    /// Its output, where it ended well and said nothing on standard error.
    pub fn fine(self) -> Vec<u8> {
        assert_eq!((self.code, self.err.as_str()), (0, ""));
        self.out
    }

    /// The same as text.
    pub fn text(self) -> String {
        String::from_utf8(self.fine()).unwrap()
    }

    /// What it complains of, where it ended with this code and wrote nothing.
    pub fn refused(self, code: i32) -> String {
        assert_eq!((self.code, self.out.as_slice()), (code, &b""[..]), "{}", self.err);
        self.err
    }
}

/// The command, not yet run; no setting of the tests' own terminal reaches it.
pub fn command(words: &[&str]) -> Command {
    let mut command = Command::new(env!("CARGO_BIN_EXE_sb"));
    command.args(words).env_remove("COLUMNS").env_remove("NO_COLOR");
    command
}

pub fn sb(words: &[&str], input: impl AsRef<[u8]>) -> Ended {
    ended(&mut command(words), input.as_ref())
}

pub fn ended(command: &mut Command, input: &[u8]) -> Ended {
    let mut child =
        command.stdin(Stdio::piped()).stdout(Stdio::piped()).stderr(Stdio::piped()).spawn().expect("sb can be run");
    let mut stdin = child.stdin.take().unwrap();
    let input = input.to_vec();
    // A command that reads no input closes it; that is no fault.
    let writer = std::thread::spawn(move || stdin.write_all(&input));
    let output = child.wait_with_output().unwrap();
    let _ = writer.join().unwrap();
    Ended {
        code: output.status.code().expect("no signal"),
        out: output.stdout,
        err: String::from_utf8(output.stderr).unwrap(),
    }
}

/// A folder of one test's own, removed at its end.
pub struct Folder(PathBuf);

impl Folder {
    pub fn new(name: &str) -> Folder {
        let path = Path::new(env!("CARGO_TARGET_TMPDIR")).join(format!("sb-{name}-{}", std::process::id()));
        let _ = fs::remove_dir_all(&path);
        fs::create_dir_all(&path).unwrap();
        Folder(path)
    }

    pub fn file(&self, name: &str) -> String {
        self.0.join(name).to_str().unwrap().to_string()
    }

    pub fn with(&self, name: &str, bytes: impl AsRef<[u8]>) -> String {
        let file = self.file(name);
        fs::write(&file, bytes).unwrap();
        file
    }

    /// The names in it, in order.
    pub fn names(&self) -> Vec<String> {
        let mut names: Vec<String> =
            fs::read_dir(&self.0).unwrap().map(|entry| entry.unwrap().file_name().into_string().unwrap()).collect();
        names.sort();
        names
    }
}

impl Drop for Folder {
    fn drop(&mut self) {
        let _ = fs::remove_dir_all(&self.0);
    }
}

/// The input of 01's printed run, as text.
pub const PRINTED_TEXT: &str = "\
open 3 at 100 used-limit 1000 promised-limit 500
claim 3 ReportUsed 40000 own 20 measured 100 at 100 priority 5
claim 3 ReadUsed limit 50000 at 101 priority 5
claim 3 ReportUsed 40600 own 0 measured 102 at 102 priority 5
release 3 ticket 2 at 103
release 3 ticket 9 at 104
claim 3 ReadUsed limit 0 at 99 priority 5
";

/// The output of 01's printed run.
pub const PRINTED_LINES: &str = "\
1 3 3 0 0 0
2 3 0 1 0 20
3 3 0 2 0 40020
4 3 1 3 0 0
5 3 2 2 0 0
+5 3 0 3 0 600
6 3 21 0 0 0
7 3 15 0 0 0
";

/// The same in words, by one who knows the requests.
pub const PRINTED_WORDS: &str = "\
record 1, disk 3: opened, used may be off by 1,000 MiB at most, promised by 500 MiB
record 2, disk 3: ticket 1 granted, used may now be off by 20 MiB
record 3, disk 3: ticket 2 granted, told used: 0 MiB, may be off by 40,020 MiB
record 4, disk 3: ticket 3 waits, tried again at each release
record 5, disk 3: released ticket 2
  + record 5: ticket 3 granted, disk 3 used may now be off by 600 MiB
record 6, disk 3: refused 21, release of a ticket neither active nor waiting
    hint: it was released before, or never was; nothing is held under it
record 7, disk 3: refused 15, now below the disk's clock
    hint: an accepted call was later than this one: call again with the present second; all callers need one clock
";

/// A record by 01's places, written here by hand: bytes 2 to 6, then the four words.
pub fn record(bytes: [u8; 5], words: [u32; 4]) -> Vec<u8> {
    let mut record = vec![0x52, 0x42];
    record.extend(bytes);
    record.push(0);
    words.iter().for_each(|word| record.extend(word.to_le_bytes()));
    record
}

/// The input of 01's printed run, as records.
pub fn printed_records() -> Vec<u8> {
    [
        record([1, 3, 0, 0, 0], [100, 0, 1_000, 500]),
        record([2, 3, 0, 5, 0], [100, 100, 40_000, 20]),
        record([2, 3, 4, 5, 0], [101, 0, 0, 50_000]),
        record([2, 3, 0, 5, 0], [102, 102, 40_600, 0]),
        record([3, 3, 0, 0, 0], [103, 2, 0, 0]),
        record([3, 3, 0, 0, 0], [104, 9, 0, 0]),
        record([2, 3, 4, 5, 0], [99, 0, 0, 0]),
    ]
    .concat()
}
