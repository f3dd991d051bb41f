//! Processor time, user's and system's: it does not run on while another process has the
//! processor.

use std::time::Duration;

/// The processor time of this thread.
pub fn of_this_thread() -> Duration {
    let mut time = Timespec::default();
    // SAFETY: the call writes the struct, which is laid out as x86-64 Linux has it.
    let status = unsafe { clock_gettime(CLOCK_THREAD_CPUTIME_ID, &mut time) };
    assert_eq!(status, 0, "Linux has this clock");
    Duration::new(time.seconds as u64, time.nanoseconds as u32)
}

/// The processor time of all child processes that have been waited for.
pub fn of_ended_children() -> Duration {
    let mut usage = Usage::default();
    // SAFETY: the call writes the struct, which is laid out as x86-64 Linux has it.
    let status = unsafe { getrusage(RUSAGE_CHILDREN, &mut usage) };
    assert_eq!(status, 0, "Linux keeps this account");
    usage.user.duration() + usage.system.duration()
}

const CLOCK_THREAD_CPUTIME_ID: i32 = 3;
const RUSAGE_CHILDREN: i32 = -1;

#[repr(C)]
#[derive(Default)]
struct Timespec {
    seconds: i64,
    nanoseconds: i64,
}

#[repr(C)]
#[derive(Default)]
struct Timeval {
    seconds: i64,
    microseconds: i64,
}

#[repr(C)]
#[derive(Default)]
struct Usage {
    user: Timeval,
    system: Timeval,
    others: [i64; 14],
}

impl Timeval {
    fn duration(&self) -> Duration {
        Duration::new(self.seconds as u64, 1000 * self.microseconds as u32)
    }
}

unsafe extern "C" {
    fn clock_gettime(clock: i32, time: *mut Timespec) -> i32;
    fn getrusage(who: i32, usage: *mut Usage) -> i32;
}
