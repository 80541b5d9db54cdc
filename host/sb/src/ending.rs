//! How a command ends, and what it writes on the way.

use std::ffi::OsStr;
use std::io::{self, ErrorKind, Write};

/// Why a command did not end well.
#[derive(Debug)]
pub enum Ending {
    /// Something is wrong with the input: each fault is a line on standard error.
    Input(Vec<String>),
    /// The words on the command line are wrong.
    Usage(String),
    /// Nobody reads the output any more.
    Closed,
}

impl Ending {
    /// One fault of the input.
    pub fn input(fault: String) -> Ending {
        Ending::Input(vec![fault])
    }

    /// The same, with the file's name before each fault, for a file that is read in addition to the input.
    pub fn of_file(self, name: &OsStr) -> Ending {
        match self {
            Ending::Input(faults) => {
                Ending::Input(faults.iter().map(|fault| format!("{}, {fault}", name.to_string_lossy())).collect())
            }
            other => other,
        }
    }
}

/// Writes to standard output, and returns an error if that fails.
pub fn print(bytes: &[u8]) -> Result<(), Ending> {
    let mut out = io::stdout().lock();
    out.write_all(bytes).and_then(|()| out.flush()).map_err(|error| match error.kind() {
        ErrorKind::BrokenPipe => Ending::Closed,
        _ => Ending::input(format!("cannot write to standard output: {error}")),
    })
}

/// Writes a line to standard error, and ignores that it may be closed.
pub fn complain(line: &str) {
    let _ = writeln!(io::stderr(), "{line}");
}
