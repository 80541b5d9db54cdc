//! Random calls by the desk and the hand-written engine, on boards that are damaged now and then.

use crate::chance::Chance;
use crate::equal::Both;
use crate::making::Call;
use stopblocker::layout::{
    begun, open_bit, part, part_at, put_word, record as at, slot, word_at, ANSWER_BYTES, BOARD_BYTES, CLAIM, CLAIMS,
    MOST_ERROR, MOST_TICKET, MOST_VALUE, OPEN, PART_BYTES, RECORD_BYTES, RELEASE, SLOT_BYTES,
};

const DISKS: u8 = 5;

/// Numbers on the edges of the rules.
const EDGES: [u32; 24] = [
    0,
    1,
    2,
    3,
    6,
    7,
    8,
    9,
    10,
    255,
    256,
    299,
    300,
    500,
    3_600,
    MOST_TICKET,
    MOST_TICKET + 1,
    MOST_VALUE,
    MOST_VALUE + 1,
    MOST_ERROR,
    MOST_ERROR + 1,
    0x8000_0000,
    MOST_VALUE.wrapping_neg(),
    0xffff_ffff,
];

/// Makes random calls on five disks, most of them well formed, with values close to the limits. Now and then it changes a
/// word of a part on both boards before a call; if that would only cause refusals from then on, it puts the part back.
/// Returns how often each code came.
pub fn on_random_calls(calls: u64, seed: u64) -> Result<[u64; 22], String> {
    let mut chance = Chance::new(seed);
    let mut both = Both::new(&vec![0; BOARD_BYTES]);
    let mut now = 0;
    let mut codes = [0; 22];
    for n in 0..calls {
        // begin again now and then, before tickets run out and figures reach their ends
        if n % 5_000 == 0 {
            both = Both::new(&vec![0; BOARD_BYTES]);
            now = chance.one(&[0, 1_000, 4_294_960_000]);
        }
        now = u32::saturating_add(now, chance.one(&[0, 0, 0, 0, 1, 1, 40]));
        let disk = chance.below(DISKS.into()) as u8;
        let call = any_call(&mut chance, &both.boards[0], disk, now);
        let board_bytes = if chance.below(500) == 0 { chance.below(BOARD_BYTES as u64) as usize } else { BOARD_BYTES };
        if chance.below(8) != 0 {
            codes[both.call(&call, board_bytes)? as usize] += 1;
            continue;
        }
        let at = part_at(disk.into());
        let before = both.boards[0][at..at + PART_BYTES].to_vec();
        let (place, new) = any_damage(&mut chance, &both.boards[0], at);
        for board in &mut both.boards {
            put_word(board, at + place, new);
        }
        let code = both.call(&call, board_bytes)?;
        codes[code as usize] += 1;
        let spent = word_at(&both.boards[0], at + part::NEXT_TICKET) > 900_000;
        if code > 3 || spent || chance.below(2) == 0 {
            for board in &mut both.boards {
                board[at..at + PART_BYTES].copy_from_slice(&before);
            }
        }
    }
    Ok(codes)
}

/// The offset of a word in a part, mostly in the head or in slots that hold claims.
fn any_place(chance: &mut Chance) -> usize {
    match chance.below(4) {
        0 => 4 * chance.below(16) as usize,
        1 => 4 * chance.below(192) as usize,
        of => {
            let from = if of == 2 { part::ACTIVE } else { part::WAITING };
            from + SLOT_BYTES * chance.below(4) as usize + 4 * chance.below(11) as usize
        }
    }
}

/// The offset of a word in the part, and the word to put there.
fn any_damage(chance: &mut Chance, board: &[u8], part_at: usize) -> (usize, u32) {
    let word = |at: usize| word_at(board, part_at + at);
    let place = any_place(chance);
    let new = match chance.below(8) {
        0 => word(place).wrapping_add(1),
        1 => word(place).wrapping_sub(1),
        2 => word(place) ^ 1 << chance.below(32),
        3 => word(any_place(chance)),
        4 => word(part::CLOCK).wrapping_add(chance.below(3) as u32).wrapping_sub(1),
        5 => {
            // the next ticket: the number of claims, one more, or none left
            let claims = word(part::ACTIVE_COUNT).wrapping_add(word(part::WAITING_COUNT));
            return (part::NEXT_TICKET, chance.one(&[1, claims, claims.wrapping_add(1), MOST_TICKET + 1]));
        }
        6 => {
            // the most that promised may be beside the active adds, or one more
            let slots = (0..CLAIMS).map(|k| part::ACTIVE + SLOT_BYTES * k);
            let adds = slots.filter(|at| word(at + slot::METHOD) == 1);
            let sum = adds.fold(0, |sum, at| u32::wrapping_add(sum, (word(at + slot::VALUE) as i32).unsigned_abs()));
            let left = MOST_VALUE.wrapping_sub(sum).wrapping_add(chance.below(2) as u32);
            return (part::PROMISED, chance.one(&[left, left.wrapping_neg()]));
        }
        _ => chance.one(&EDGES),
    };
    (place, new)
}

/// A ticket that is held on a disk, or was, or will be.
fn any_ticket(chance: &mut Chance, board: &[u8], at: usize) -> u32 {
    let slots = if chance.below(3) == 0 { part::WAITING } else { part::ACTIVE };
    match chance.below(16) {
        0 => chance.one(&EDGES),
        1 => chance.below(u64::from(word_at(board, at + part::NEXT_TICKET)) + 2) as u32,
        _ => word_at(board, at + slots + SLOT_BYTES * chance.below(6) as usize + slot::TICKET),
    }
}

fn any_call(chance: &mut Chance, board: &[u8], disk: u8, now: u32) -> Call {
    let (byte, mask) = open_bit(disk.into());
    let kind = if board[byte] & mask != 0 {
        if chance.below(50) == 0 {
            OPEN
        } else {
            chance.one(&[CLAIM, CLAIM, CLAIM, RELEASE, RELEASE])
        }
    } else {
        chance.one(&[OPEN, OPEN, OPEN, CLAIM, RELEASE])
    };
    let second =
        if chance.below(40) == 0 { chance.one(&[0, now.saturating_sub(1), now.saturating_add(5)]) } else { now };
    let mut record = begun(kind, disk, second);
    match kind {
        OPEN => {
            put_word(&mut record, at::USED_LIMIT, chance.one(&[10, 100, 1_000, MOST_ERROR]));
            put_word(&mut record, at::PROMISED_LIMIT, chance.one(&[10, 100, 1_000, MOST_ERROR]));
        }
        CLAIM => claim(chance, &mut record, now),
        _ => put_word(&mut record, at::TICKET, any_ticket(chance, board, part_at(disk.into()))),
    }
    match chance.below(24) {
        0 => put_word(&mut record, 4 * chance.below(3) as usize + 12, chance.one(&EDGES)),
        1 => record[chance.one(&[0, 1, 2, 3, 4, 5, 6, 7, 12, 16, 20, 23])] = chance.one(&[0, 1, 2, 3, 7, 63, 64, 255]),
        _ => {}
    }
    let mut call = Call::of(record);
    if chance.below(200) == 0 {
        call.record_bytes = chance.below(RECORD_BYTES as u64 + 1) as usize;
    }
    if chance.below(200) == 0 {
        call.answer_bytes = chance.below(ANSWER_BYTES as u64 + 1) as usize;
    }
    call
}

/// The fields of a claim.
fn claim(chance: &mut Chance, record: &mut [u8; RECORD_BYTES], now: u32) {
    let method = chance.one(&[0, 0, 1, 1, 2, 3, 4, 4, 5, 5, 6]);
    record[at::METHOD] = method;
    record[at::PRIORITY] = chance.one(&[0, 4, 4, 5, 5, 255]);
    if method >= 4 {
        record[at::FRESH] = u8::from(chance.below(4) == 0);
        put_word(record, at::STATED_LIMIT, chance.one(&[0, 5, 100, 500, 5_000, MOST_ERROR]));
        return;
    }
    let value = match (method, chance.below(10)) {
        (3, _) => chance.below(256) as i32,
        (_, 0) => chance.one(&[MOST_VALUE as i32, -(MOST_VALUE as i32), MOST_VALUE as i32 - 1]),
        (1, 1..=4) => chance.one(&[500_000_000, -500_000_000, 499_999_999]),
        _ => chance.below(201) as i32 - 100,
    };
    put_word(record, at::MEASURED, now.saturating_sub(chance.one(&[0, 0, 1, 299, 300])));
    put_word(record, at::VALUE, value as u32);
    put_word(record, at::OWN_ERROR, if method == 3 { 0 } else { chance.one(&[0, 0, 1, 5, 10]) });
}
