//! Processor time: on a machine with other load a long call would otherwise be
//! charged with the time of others, a short one not.

use std::time::Duration;

/// Linux's numbers for the clock of this thread and for the ended children.
const CLOCK_THREAD_CPUTIME_ID: i32 = 3;
const RUSAGE_CHILDREN: i32 = -1;

/// Seconds and nanoseconds.
#[derive(Default)]
#[repr(C)]
struct Timespec {
    seconds: i64,
    nanoseconds: i64,
}

/// Seconds and microseconds.
#[derive(Default)]
#[repr(C)]
struct Timeval {
    seconds: i64,
    microseconds: i64,
}

impl Timeval {
    fn duration(&self) -> Duration {
        Duration::from_secs(self.seconds as u64) + Duration::from_micros(self.microseconds as u64)
    }
}

#[derive(Default)]
#[repr(C)]
struct Usage {
    user: Timeval,
    system: Timeval,
    others: [i64; 14],
}

extern "C" {
    fn clock_gettime(clock: i32, time: *mut Timespec) -> i32;
    fn getrusage(who: i32, usage: *mut Usage) -> i32;
}

/// The time that this thread had the processor.
pub fn thread_time() -> Duration {
    let mut time = Timespec::default();
    let failed = unsafe { clock_gettime(CLOCK_THREAD_CPUTIME_ID, &mut time) };
    assert_eq!(failed, 0, "a thread has its clock");
    Duration::new(time.seconds as u64, time.nanoseconds as u32)
}

/// The time that the children which ended had the processor.
pub fn children_time() -> Duration {
    let mut usage = Usage::default();
    let failed = unsafe { getrusage(RUSAGE_CHILDREN, &mut usage) };
    assert_eq!(failed, 0, "a process has its usage");
    usage.user.duration() + usage.system.duration()
}
