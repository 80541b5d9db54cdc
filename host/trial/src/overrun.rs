//! Calls that read or write a byte that was not lent to them, or write the record: the fuzz run must detect each of them.

use crate::fuzz::{step, Raw};

pub const OVERRUNS: &[(&str, Raw)] = &[
    ("reads-behind-record", reads_behind_record),
    ("reads-before-board", reads_before_board),
    ("writes-behind-answer", writes_behind_answer),
    ("writes-before-answer", writes_before_answer),
    ("writes-record", writes_record),
];

unsafe extern "C" fn reads_behind_record(b: *mut u8, bl: usize, r: *const u8, rl: usize, a: *mut u8, al: usize) -> u32 {
    if !r.is_null() {
        r.add(rl).read_volatile();
    }
    step(b, bl, r, rl, a, al)
}

unsafe extern "C" fn reads_before_board(b: *mut u8, bl: usize, r: *const u8, rl: usize, a: *mut u8, al: usize) -> u32 {
    b.sub(1).read_volatile();
    step(b, bl, r, rl, a, al)
}

unsafe extern "C" fn writes_behind_answer(
    b: *mut u8,
    bl: usize,
    r: *const u8,
    rl: usize,
    a: *mut u8,
    al: usize,
) -> u32 {
    a.add(al).write_volatile(0);
    step(b, bl, r, rl, a, al)
}

unsafe extern "C" fn writes_before_answer(
    b: *mut u8,
    bl: usize,
    r: *const u8,
    rl: usize,
    a: *mut u8,
    al: usize,
) -> u32 {
    a.sub(1).write_volatile(0);
    step(b, bl, r, rl, a, al)
}

unsafe extern "C" fn writes_record(b: *mut u8, bl: usize, r: *const u8, rl: usize, a: *mut u8, al: usize) -> u32 {
    let code = step(b, bl, r, rl, a, al);
    if rl > 0 {
        let last = r.add(rl - 1) as *mut u8;
        last.write_volatile(!last.read_volatile());
    }
    code
}
