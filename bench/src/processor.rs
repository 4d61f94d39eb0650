//! One core for two, and the processor time of each, by the C library that std links already.

use std::ffi::{c_int, c_long, c_ulong};

/// This process, and the programs that it has run to their end.
const SELF: c_int = 0;
const CHILDREN: c_int = -1;

#[repr(C)]
#[derive(Clone, Copy, Default)]
struct Time {
    seconds: c_long,
    microseconds: c_long,
}

/// What getrusage fills on Linux: both times, and fourteen counts that aren't looked at.
#[repr(C)]
#[derive(Default)]
struct Usage {
    user: Time,
    system: Time,
    counts: [c_long; 14],
}

unsafe extern "C" {
    fn getrusage(who: c_int, usage: *mut Usage) -> c_int;
    fn sched_getcpu() -> c_int;
    fn sched_setaffinity(process: c_int, bytes: usize, cores: *const c_ulong) -> c_int;
}

/// Keeps this process, and the programs that it starts from now on, on the core it is on.
pub fn stay() {
    let mut cores = [0; 16];
    let core = unsafe { sched_getcpu() } as u32;
    cores[(core / c_ulong::BITS) as usize] = 1 << (core % c_ulong::BITS);
    assert_eq!(unsafe { sched_setaffinity(0, size_of_val(&cores), cores.as_ptr()) }, 0);
}

/// Milliseconds of processor time of this process so far.
pub fn own() -> f64 {
    spent(SELF)
}

/// Milliseconds of processor time of the programs that have ended.
pub fn ended() -> f64 {
    spent(CHILDREN)
}

fn spent(who: c_int) -> f64 {
    let mut usage = Usage::default();
    assert_eq!(unsafe { getrusage(who, &mut usage) }, 0);
    let Usage { user, system, .. } = usage;
    1e3 * (user.seconds + system.seconds) as f64
        + 1e-3 * (user.microseconds + system.microseconds) as f64
}
