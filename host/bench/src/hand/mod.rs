//! A hand-written engine: the desk's rules on the desk's bytes, written by hand for speed. The desk is measured against
//! it. Nobody relies on it: `equal` compares it with the desk, byte by byte. It has its own numbers (`layout`), and uses
//! nothing of the desk's crate.
//!
//! What makes it fast:
//! - a lent part is read as a struct of words, so that a figure is one load and no claim is copied;
//! - the soundness test visits every claim once, collects what is wrong without a branch, and keeps what the decision
//!   needs: masks of the active and of the waiting methods, and the sum of the active adds;
//! - with these masks a decision knows at once whether any claim has an entry other than A, and walks over the claims only
//!   if one has;
//! - a pass decides nothing while eight claims are active, since nothing can be granted then.
//!
//! No check is left out. The one unsafe step is to read lent bytes as structs of bytes (`layout`).

mod calls;
mod decide;
mod figures;
mod gather;
mod layout;
mod pass;
mod sound;

use layout::{eight_at, Answer, Part, ANSWER_BYTES, BOARD_BYTES, HEAD_BYTES, PART_BYTES, RECORD_BYTES};

const MARK_AND_ZERO: u64 = 0xff00_0000_0000_ffff;
const MARK: u64 = 0x4252;

const OPEN: u64 = 1;
const CLAIM: u64 = 2;
const RELEASE: u64 = 3;

/// A record as three numbers of eight bytes.
type Record = [u64; 3];

/// One call on lent bytes, as `stopblocker::step`.
#[inline(never)]
pub fn step(board: &mut [u8], record: &[u8], answer: &mut [u8]) -> u32 {
    if board.len() != BOARD_BYTES || answer.len() != ANSWER_BYTES {
        return 9;
    }
    let answer = Answer::of(answer);
    let record = match well_formed(record) {
        Some(record) => record,
        None => return answer.refuse(10),
    };
    let disk = (record[0] >> 24 & 0xff) as usize;
    if disk > 63 {
        return answer.refuse(11);
    }
    let bit = 1 << (disk % 8);
    let open = board[disk / 8] & bit != 0;
    let at = HEAD_BYTES + PART_BYTES * disk;
    let kind = record[0] >> 16 & 0xff;
    if kind == OPEN {
        if open {
            return answer.refuse(12);
        }
        let code = calls::open(Part::of(&mut board[at..at + PART_BYTES]), &record, answer);
        if code == 3 {
            board[disk / 8] |= bit;
        }
        return code;
    }
    if !open {
        return answer.refuse(13);
    }
    let part = Part::of(&mut board[at..at + PART_BYTES]);
    let seen = match sound::sound(part) {
        Some(seen) => seen,
        None => return answer.refuse(14),
    };
    if kind == CLAIM {
        calls::claim(part, &seen, &record, answer)
    } else {
        calls::release(part, &seen, &record, answer)
    }
}

/// Whether a record is refused neither 10 nor 11, so that there is a disk to look at.
pub fn names_a_disk(record: &[u8]) -> bool {
    matches!(well_formed(record), Some([head, ..]) if head >> 24 & 0xff <= 63)
}

/// The record, if it is well formed: no refusal 10.
#[inline(always)]
fn well_formed(bytes: &[u8]) -> Option<Record> {
    if bytes.len() != RECORD_BYTES {
        return None;
    }
    let record = [eight_at(bytes, 0), eight_at(bytes, 8), eight_at(bytes, 16)];
    let head = record[0];
    if head & MARK_AND_ZERO != MARK {
        return None;
    }
    let fits = match head >> 16 & 0xff {
        // bytes 4 to 6 and 12 to 15
        OPEN => head >> 32 == 0 && record[1] >> 32 == 0,
        // the flag is 0 or 1
        CLAIM => head >> 48 <= 1,
        // bytes 4 to 6 and 16 to 23
        RELEASE => head >> 32 == 0 && record[2] == 0,
        _ => false,
    };
    if fits {
        Some(record)
    } else {
        None
    }
}
