//! Wrong desks: those that 01 names to try a promise against, and some that are wrong in one thing. The trial must detect each of
//! them.

use crate::beside::{Proved, Step};
use stopblocker::layout::{
    item, part, put_word, record as at, slot, word_at, ANSWER_BYTES, BOARD_BYTES, CLAIM, DISKS, HEAD_BYTES, ITEMS,
    ITEM_BYTES, MOST_TICKET, OPEN, PART_BYTES, RECORD_BYTES, RELEASE, SLOT_BYTES,
};

/// A wrong desk's call.
pub type Wrong = fn(&mut [u8], &[u8], &mut [u8]) -> u32;

pub const WRONGS: &[(&str, Wrong)] = &[
    ("refuses-all", refuses_all),
    ("granted-ticket-1", granted_ticket_1),
    ("does-nothing", does_nothing),
    ("settles-at-once", settles_at_once),
    ("amounts-invented", amounts_invented),
    ("amount-flipped", amount_flipped),
    ("part-flipped", part_flipped),
    ("other-part", other_part),
    ("head-byte", head_byte),
    ("answer-kept", answer_kept),
    ("nine-touches", nine_touches),
    ("code-only", code_only),
    ("refusal-writes", refusal_writes),
    ("equal-priority-bars-not", equal_priority_bars_not),
    ("fresh-one-second-longer", fresh_one_second_longer),
    ("spare-word-ignored", spare_word_ignored),
    ("last-ticket-lost", last_ticket_lost),
    ("opened-over-garbage", opened_over_garbage),
];

pub struct WrongDesk(pub Wrong);

impl Step for WrongDesk {
    fn step(&mut self, board: &mut [u8], record: &[u8], answer: &mut [u8]) -> u32 {
        self.0(board, record, answer)
    }
}

fn right(board: &mut [u8], record: &[u8], answer: &mut [u8]) -> u32 {
    Proved.step(board, record, answer)
}

/// True for about one record in 100,000, the same ones in every run.
fn seldom(record: &[u8]) -> bool {
    let mix = |sum: u64, byte: &u8| (sum ^ u64::from(*byte)).wrapping_mul(0x100_0000_01b3);
    (record.iter().fold(0xcbf2_9ce4_8422_2325, mix) >> 20) % 100_000 == 7
}

/// Where the part of the record's disk begins.
fn part_at(record: &[u8]) -> usize {
    stopblocker::layout::part_at(usize::from(record[at::DISK]))
}

/// Whether board and record have their lengths, and the record names a disk of the board.
fn fits(board: &[u8], record: &[u8]) -> bool {
    board.len() == BOARD_BYTES && record.len() == RECORD_BYTES && usize::from(record[at::DISK]) < DISKS
}

/// The four words of an answer's item.
fn put_item(answer: &mut [u8], k: usize, item: [u32; 4]) {
    item.iter().enumerate().for_each(|(word, &figure)| put_word(answer, ITEM_BYTES * k + 4 * word, figure));
}

// "a desk that refuses all; one that always answers granted with ticket 1, or does nothing; one that settles everything in the
// first call and then only hands out tickets; one with amounts invented"

/// Every record is refused 10.
fn refuses_all(board: &mut [u8], _: &[u8], answer: &mut [u8]) -> u32 {
    right(board, &[], answer)
}

fn granted_ticket_1(board: &mut [u8], record: &[u8], answer: &mut [u8]) -> u32 {
    if right(board, record, answer) == 9 {
        return 9;
    }
    answer.fill(0);
    put_item(answer, 0, [0, 1, 0, 0]);
    0
}

fn does_nothing(_: &mut [u8], _: &[u8], _: &mut [u8]) -> u32 {
    0
}

/// A claim that is granted ends in its own call; its release, later, is answered and does nothing more.
fn settles_at_once(board: &mut [u8], record: &[u8], answer: &mut [u8]) -> u32 {
    let code = right(board, record, answer);
    if code == 0 {
        let mut release: [u8; RECORD_BYTES] = record.try_into().expect("24 bytes");
        release[at::KIND] = RELEASE;
        release[at::METHOD..at::NOW].fill(0);
        release[at::MEASURED..].fill(0);
        put_word(&mut release, at::TICKET, word_at(answer, item::TICKET));
        right(board, &release, &mut [0; ANSWER_BYTES]);
    }
    if code == 21 && word_at(record, at::TICKET) < word_at(board, part_at(record) + part::NEXT_TICKET) {
        put_item(answer, 0, [2, word_at(record, at::TICKET), 0, 0]);
        return 2;
    }
    code
}

/// The amount of a grant is its ticket.
fn amounts_invented(board: &mut [u8], record: &[u8], answer: &mut [u8]) -> u32 {
    let code = right(board, record, answer);
    let grants = if code == 2 { 1..ITEMS } else { 0..usize::from(code == 0) };
    for start in grants.map(|k| ITEM_BYTES * k) {
        put_word(answer, start + item::AMOUNT, word_at(answer, start + item::TICKET));
    }
    code
}

// And wrong in one thing.

/// The amount of the first item is off by one bit, once in 100,000 records.
fn amount_flipped(board: &mut [u8], record: &[u8], answer: &mut [u8]) -> u32 {
    let code = right(board, record, answer);
    if code != 9 && seldom(record) {
        answer[item::AMOUNT] ^= 1;
    }
    code
}

/// One bit of the disk's part is off after an accepted call, once in 100,000 records.
fn part_flipped(board: &mut [u8], record: &[u8], answer: &mut [u8]) -> u32 {
    let code = right(board, record, answer);
    if code < 9 && seldom(record) {
        board[part_at(record) + PART_BYTES - 1] ^= 1;
    }
    code
}

/// A byte of another disk's part is written, once in 100,000 records.
fn other_part(board: &mut [u8], record: &[u8], answer: &mut [u8]) -> u32 {
    let code = right(board, record, answer);
    if code < 9 && seldom(record) {
        let other = (usize::from(record[at::DISK]) + DISKS / 2) % DISKS;
        board[stopblocker::layout::part_at(other) + 400] ^= 0x40;
    }
    code
}

/// A byte of the head that is never to be touched is cleared by an open.
fn head_byte(board: &mut [u8], record: &[u8], answer: &mut [u8]) -> u32 {
    let code = right(board, record, answer);
    if code == 3 {
        board[HEAD_BYTES - 1] = 0;
    }
    code
}

/// The last byte of the answer is left as it was.
fn answer_kept(board: &mut [u8], record: &[u8], answer: &mut [u8]) -> u32 {
    let before = answer.last().copied();
    let code = right(board, record, answer);
    if let (Some(last), Some(byte)) = (answer.last_mut(), before) {
        *last = byte;
    }
    code
}

/// Refusal 9 writes its number to the answer buffer.
fn nine_touches(board: &mut [u8], record: &[u8], answer: &mut [u8]) -> u32 {
    let code = right(board, record, answer);
    if code == 9 && answer.len() >= 4 {
        put_word(answer, 0, 9);
    }
    code
}

/// The answer is right, and another code is returned.
fn code_only(board: &mut [u8], record: &[u8], answer: &mut [u8]) -> u32 {
    match right(board, record, answer) {
        20 => 1,
        code => code,
    }
}

/// Refusal 21 sets the clock.
fn refusal_writes(board: &mut [u8], record: &[u8], answer: &mut [u8]) -> u32 {
    let code = right(board, record, answer);
    if code == 21 {
        put_word(board, part_at(record) + part::CLOCK, word_at(record, at::NOW));
    }
    code
}

/// A claim is also granted if it would be granted with a priority higher by one.
fn equal_priority_bars_not(board: &mut [u8], record: &[u8], answer: &mut [u8]) -> u32 {
    if !fits(board, record) || record[at::KIND] != CLAIM || record[at::PRIORITY] == u8::MAX {
        return right(board, record, answer);
    }
    let start = part_at(record);
    let own = start..start + PART_BYTES;
    let before = board[own.clone()].to_vec();
    let mut higher: [u8; RECORD_BYTES] = record.try_into().expect("24 bytes");
    higher[at::PRIORITY] += 1;
    if right(board, &higher, answer) != 0 {
        board[own].copy_from_slice(&before);
        return right(board, record, answer);
    }
    let last = start + part::ACTIVE + SLOT_BYTES * (word_at(board, start + part::ACTIVE_COUNT) as usize - 1);
    put_word(board, last + slot::PRIORITY, u32::from(record[at::PRIORITY]));
    0
}

/// A reading that asks for fresh figures is decided as if it came one second earlier.
fn fresh_one_second_longer(board: &mut [u8], record: &[u8], answer: &mut [u8]) -> u32 {
    let asks = fits(board, record) && record[at::KIND] == CLAIM && record[at::METHOD] >= 4 && record[at::FRESH] == 1;
    if !asks {
        return right(board, record, answer);
    }
    let (now, clock) = (word_at(record, at::NOW), part_at(record) + part::CLOCK);
    if now == 0 || word_at(board, clock) >= now {
        return right(board, record, answer);
    }
    let mut early: [u8; RECORD_BYTES] = record.try_into().expect("24 bytes");
    put_word(&mut early, at::NOW, now - 1);
    let code = right(board, &early, answer);
    if code < 9 {
        put_word(board, clock, now);
    }
    code
}

/// The spare words of a part's head may be anything.
fn spare_word_ignored(board: &mut [u8], record: &[u8], answer: &mut [u8]) -> u32 {
    if !fits(board, record) || record[at::KIND] == OPEN {
        return right(board, record, answer);
    }
    let spare = part_at(record) + part::ZERO..part_at(record) + part::ACTIVE;
    let kept = board[spare.clone()].to_vec();
    board[spare.clone()].fill(0);
    let code = right(board, record, answer);
    board[spare].copy_from_slice(&kept);
    code
}

/// Ticket 999,999 is given to nobody.
fn last_ticket_lost(board: &mut [u8], record: &[u8], answer: &mut [u8]) -> u32 {
    if !fits(board, record) || record[at::KIND] != CLAIM {
        return right(board, record, answer);
    }
    let next = part_at(record) + part::NEXT_TICKET;
    if word_at(board, next) != MOST_TICKET {
        return right(board, record, answer);
    }
    put_word(board, next, MOST_TICKET + 1);
    let code = right(board, record, answer);
    put_word(board, next, MOST_TICKET);
    code
}

/// An open leaves what the last slot holds.
fn opened_over_garbage(board: &mut [u8], record: &[u8], answer: &mut [u8]) -> u32 {
    if !fits(board, record) {
        return right(board, record, answer);
    }
    let end = part_at(record) + PART_BYTES;
    let kept = board[end - SLOT_BYTES..end].to_vec();
    let code = right(board, record, answer);
    if code == 3 {
        board[end - SLOT_BYTES..end].copy_from_slice(&kept);
    }
    code
}
