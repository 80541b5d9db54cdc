//! What is sent to the desk, as pieces of 24 bytes. The input may be text or records; its bytes tell which.

use crate::ending::Ending;
use crate::read_text::record_of;
use crate::record::Record;
use stopblocker::layout::{MARK, RECORD_BYTES};

/// One request as it is sent.
pub struct Piece {
    pub bytes: Vec<u8>,
    /// The record, or why the bytes are not one.
    pub record: Result<Record, String>,
}

/// Bytes that begin with the mark or hold a zero byte are records, all others are text.
pub fn are_records(bytes: &[u8]) -> bool {
    bytes.starts_with(&MARK) || bytes.contains(&0)
}

/// Pieces of either form.
pub fn of_either(bytes: &[u8]) -> Result<Vec<Piece>, Ending> {
    if are_records(bytes) {
        Ok(of_records(bytes))
    } else {
        of_text(bytes)
    }
}

/// Pieces of records; a short last one is a piece too.
pub fn of_records(bytes: &[u8]) -> Vec<Piece> {
    bytes.chunks(RECORD_BYTES).map(|piece| Piece { bytes: piece.to_vec(), record: Record::of(piece) }).collect()
}

/// Pieces of text, or every line that is wrong.
pub fn of_text(bytes: &[u8]) -> Result<Vec<Piece>, Ending> {
    let text = String::from_utf8_lossy(bytes);
    let mut pieces = Vec::new();
    let mut faults = Vec::new();
    for (k, line) in text.trim_start_matches('\u{feff}').lines().enumerate() {
        match record_of(line) {
            Ok(Some(record)) => pieces.push(Piece { bytes: record.bytes().to_vec(), record: Ok(record) }),
            Ok(None) => {}
            Err(fault) => faults.push(fault.on_line(k + 1)),
        }
    }
    if faults.is_empty() {
        Ok(pieces)
    } else {
        Err(Ending::Input(faults))
    }
}
