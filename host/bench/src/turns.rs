//! Runs all calls of a workload by one engine. An engine that does nothing shows what the loop itself takes.

use crate::hand;
use crate::making::Call;
use std::arch::asm;
use stopblocker::layout::ANSWER_BYTES;
use stopblocker::step;

/// Makes the calls one after the other, and returns the sum of their codes.
pub type Turns = fn(&mut [u8], &[Call], &mut [u8; ANSWER_BYTES]) -> u64;

/// The loop over the calls, a function for each engine: the counts of instructions name it.
macro_rules! turns {
    ($name:ident, $step:path) => {
        #[inline(never)]
        pub fn $name(board: &mut [u8], calls: &[Call], answer: &mut [u8; ANSWER_BYTES]) -> u64 {
            let mut sum = 0;
            for call in calls {
                let record = &call.record[..call.record_bytes];
                sum += u64::from($step(board, record, &mut answer[..call.answer_bytes]));
            }
            sum
        }
    };
}

turns!(by_desk, step);
turns!(by_hand, hand::step);
turns!(by_nothing, nothing);

#[inline(never)]
fn nothing(board: &mut [u8], record: &[u8], answer: &mut [u8]) -> u32 {
    // SAFETY: it has no instruction; it takes the three pointers so that the compiler does not leave out the call.
    unsafe { asm!("/* {0} {1} {2} */", in(reg) board.as_ptr(), in(reg) record.as_ptr(), in(reg) answer.as_ptr()) };
    0
}
