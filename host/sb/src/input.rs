//! Files and standard input.

use crate::ending::Ending;
use std::ffi::OsStr;
use std::fs::File;
use std::io::{self, BufRead, BufReader, Read};

/// A reader of the file, or of standard input if no file is named or it is `-`.
pub fn reader(file: Option<&OsStr>) -> Result<Box<dyn BufRead>, Ending> {
    match file {
        Some(name) if name != "-" => match File::open(name) {
            Ok(opened) => Ok(Box::new(BufReader::new(opened))),
            Err(error) => Err(cannot_read(file, &error)),
        },
        _ => Ok(Box::new(io::stdin().lock())),
    }
}

/// All bytes of a file or of standard input.
pub fn all(file: Option<&OsStr>) -> Result<Vec<u8>, Ending> {
    let mut bytes = Vec::new();
    match reader(file)?.read_to_end(&mut bytes) {
        Ok(_) => Ok(bytes),
        Err(error) => Err(cannot_read(file, &error)),
    }
}

/// The error if reading fails.
pub fn cannot_read(file: Option<&OsStr>, error: &io::Error) -> Ending {
    let name = file.filter(|name| *name != "-").map(|name| name.to_string_lossy());
    Ending::input(format!("cannot read {}: {error}", name.as_deref().unwrap_or("standard input")))
}
