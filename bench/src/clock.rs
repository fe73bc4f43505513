//! The processor time of this thread: what other programs do in the meantime doesn't count.

#[repr(C)]
struct Timespec {
    seconds: i64,
    nanoseconds: i64,
}

extern "C" {
    fn clock_gettime(clock: i32, time: *mut Timespec) -> i32;
}

/// Linux's CLOCK_THREAD_CPUTIME_ID.
const THREAD_CPU_TIME: i32 = 3;

pub fn thread_nanoseconds() -> u64 {
    let mut time = Timespec {
        seconds: 0,
        nanoseconds: 0,
    };
    // Sound: the call writes one timespec, which on 64-bit Linux has this form.
    let failed = unsafe { clock_gettime(THREAD_CPU_TIME, &mut time) };
    assert_eq!(failed, 0, "no clock of the thread's processor time");
    time.seconds as u64 * 1_000_000_000 + time.nanoseconds as u64
}
