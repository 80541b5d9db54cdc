//! The processor time of this thread, without that of other threads and programs. For Linux on 64 bits.

use std::os::raw::{c_int, c_long};

#[repr(C)]
struct Moment {
    seconds: c_long,
    nanoseconds: c_long,
}

extern "C" {
    fn clock_gettime(clock: c_int, moment: *mut Moment) -> c_int;
}

const OF_THIS_THREAD: c_int = 3;

pub fn ns() -> u64 {
    let mut moment = Moment { seconds: 0, nanoseconds: 0 };
    // SAFETY: the moment has the C library's layout and is written before it is read.
    let code = unsafe { clock_gettime(OF_THIS_THREAD, &mut moment) };
    assert_eq!(code, 0, "there is a clock of this thread");
    moment.seconds as u64 * 1_000_000_000 + moment.nanoseconds as u64
}
