//! A board kept in a file: it is read as a whole, written to a file beside it, and renamed.

use crate::ending::Ending;
use std::ffi::OsString;
use std::fs::{self, File, OpenOptions};
use std::io::{ErrorKind, Write};
use std::path::{Path, PathBuf};
use std::thread::sleep;
use std::time::Duration;
use stopblocker::layout::BOARD_BYTES;

const TRIES: u32 = 250;
const BETWEEN: Duration = Duration::from_millis(20);

pub fn empty() -> Vec<u8> {
    vec![0; BOARD_BYTES]
}

/// The board of a file; none where there is no such file.
pub fn read(path: &Path) -> Result<Option<Vec<u8>>, Ending> {
    match fs::read(path) {
        Ok(bytes) if bytes.len() == BOARD_BYTES => Ok(Some(bytes)),
        Ok(bytes) => Err(Ending::input(format!(
            "{} is no board: it has {} bytes, a board {BOARD_BYTES}",
            path.display(),
            bytes.len()
        ))),
        Err(error) if error.kind() == ErrorKind::NotFound => Ok(None),
        Err(error) => Err(Ending::input(format!("cannot read {}: {error}", path.display()))),
    }
}

/// A board's file during a run. FILE.new stands beside it as a lock, so that no other run begins with a board that this one
/// will replace.
pub struct BoardFile {
    path: PathBuf,
    beside: PathBuf,
    file: File,
    renamed: bool,
}

impl BoardFile {
    pub fn hold(path: &Path) -> Result<BoardFile, Ending> {
        // If FILE is a link, the file that it leads to is locked and replaced.
        let is_link = fs::symlink_metadata(path).map_or(false, |data| data.file_type().is_symlink());
        let end = if is_link { fs::canonicalize(path).ok() } else { None };
        let path = end.unwrap_or_else(|| path.to_path_buf());
        let mut beside = OsString::from(&path);
        beside.push(".new");
        let beside = PathBuf::from(beside);
        for _ in 0..TRIES {
            match OpenOptions::new().write(true).create_new(true).open(&beside) {
                Ok(file) => return Ok(BoardFile { path, beside, file, renamed: false }),
                Err(error) if error.kind() == ErrorKind::AlreadyExists => sleep(BETWEEN),
                Err(error) => return Err(Ending::input(format!("cannot write {}: {error}", beside.display()))),
            }
        }
        Err(Ending::input(format!(
            "{} is there: another run is at work on this board; if none is, remove it",
            beside.display()
        )))
    }

    pub fn read(&self) -> Result<Option<Vec<u8>>, Ending> {
        read(&self.path)
    }

    /// Replaces the board, whole or not at all.
    pub fn write(mut self, board: &[u8]) -> Result<(), Ending> {
        let permissions = fs::metadata(&self.path).map(|data| data.permissions());
        self.file
            .write_all(board)
            .and_then(|()| permissions.map_or(Ok(()), |kept| self.file.set_permissions(kept)))
            .and_then(|()| self.file.sync_all())
            .and_then(|()| fs::rename(&self.beside, &self.path))
            .map_err(|error| Ending::input(format!("cannot write {}: {error}", self.path.display())))?;
        self.renamed = true;
        Ok(())
    }
}

impl Drop for BoardFile {
    fn drop(&mut self) {
        // After the rename a FILE.new belongs to another run.
        if !self.renamed {
            let _ = fs::remove_file(&self.beside);
        }
    }
}
