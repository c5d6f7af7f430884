//! The time that the processor has spent: on this thread, and on commands that were run and have ended.

#[repr(C)]
struct Timespec {
    seconds: i64,
    nanoseconds: i64,
}

/// The first fields of what getrusage writes, user and system, and room for the others.
#[repr(C)]
struct Usage {
    user: [i64; 2],
    system: [i64; 2],
    others: [i64; 14],
}

extern "C" {
    fn clock_gettime(clock: i32, time: *mut Timespec) -> i32;
    fn getrusage(who: i32, usage: *mut Usage) -> i32;
}

/// CLOCK_THREAD_CPUTIME_ID and RUSAGE_CHILDREN of Linux.
const THREAD: i32 = 3;
const CHILDREN: i32 = -1;

pub fn seconds() -> f64 {
    let mut time = Timespec {
        seconds: 0,
        nanoseconds: 0,
    };
    // Safety: the clock is written to a place that is lent for it, laid out as on 64-bit Linux.
    let result = unsafe { clock_gettime(THREAD, &mut time) };
    assert_eq!(result, 0, "the clock can be read");
    time.seconds as f64 + time.nanoseconds as f64 * 1e-9
}

pub fn children() -> f64 {
    let mut usage = Usage {
        user: [0; 2],
        system: [0; 2],
        others: [0; 14],
    };
    // Safety: the times are written to a place that is lent for them, laid out as on 64-bit Linux.
    let result = unsafe { getrusage(CHILDREN, &mut usage) };
    assert_eq!(result, 0, "the times can be read");
    let seconds = |[whole, micro]: [i64; 2]| whole as f64 + micro as f64 * 1e-6;
    seconds(usage.user) + seconds(usage.system)
}
