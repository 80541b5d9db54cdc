//! The call itself: the only place where the crate is unsafe.

mod c {
    extern "C" {
        pub fn step(
            board: *mut u8,
            board_len: usize,
            record: *const u8,
            record_len: usize,
            answer: *mut u8,
            answer_len: usize,
        ) -> u32;
    }
}

/// One call on lent bytes, of any length and any content. Returns the code of the answer's first item, or 9.
///
/// A refusal leaves the board as it was; 9 leaves the answer as it was too, every other call writes all of it.
///
/// ```
/// use stopblocker::{layout, step, Disk, Open};
///
/// let mut board = vec![0; layout::BOARD_BYTES];
/// let mut answer = [0xff; layout::ANSWER_BYTES];
/// let record = Open::new(Disk::new(3).unwrap(), 100, 1_000, 500).record();
/// assert_eq!(step(&mut board, &record, &mut answer), 3);
/// assert_eq!(step(&mut board, &record, &mut answer), 12);
/// assert_eq!(step(&mut board, b"no record", &mut answer), 10);
/// assert_eq!(step(&mut board[1..], &record, &mut answer), 9);
/// ```
pub fn step(board: &mut [u8], record: &[u8], answer: &mut [u8]) -> u32 {
    // SAFETY: the three slices are valid for their lengths and do not overlap, since two of them are exclusive; `step`
    // reads and writes only within them, keeps no pointer and does not unwind.
    unsafe {
        c::step(board.as_mut_ptr(), board.len(), record.as_ptr(), record.len(), answer.as_mut_ptr(), answer.len())
    }
}
