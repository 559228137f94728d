//! Calls of the system that std lacks.

/// What the system counts of a child that has ended: `struct rusage` of Linux on 64 bits.
#[repr(C)]
#[derive(Default)]
struct Usage {
    times: [i64; 4],
    /// In kilobytes.
    most_memory: i64,
    rest: [i64; 13],
}

unsafe extern "C" {
    fn wait4(process: i32, status: *mut i32, options: i32, usage: *mut Usage) -> i32;
    fn waitid(kind: i32, process: i32, info: *mut [u64; 16], options: i32) -> i32;
    fn kill(process: i32, signal: i32) -> i32;
    fn sched_setaffinity(thread: i32, size: usize, set: *const u64) -> i32;
}

const ONE_PROCESS: i32 = 1;
const ENDED: i32 = 4;
const KEEP: i32 = 0x0100_0000;
const KILL: i32 = 9;

/// Waits until a child has ended. It keeps its number until [`collect`] is called.
pub fn wait(process: i32) {
    let mut info = [0; 16];
    // SAFETY: `info` has the 128 octets of a `siginfo_t`.
    while unsafe { waitid(ONE_PROCESS, process, &mut info, ENDED | KEEP) } != 0 {}
}

/// The wait status of a child that has ended, and the most memory that it held, in kilobytes.
pub fn collect(process: i32) -> (i32, u64) {
    let mut status = 0;
    let mut usage = Usage::default();
    // SAFETY: both point to a value of the type that the call wants.
    while unsafe { wait4(process, &mut status, 0, &mut usage) } != process {}
    (status, usage.most_memory.unsigned_abs())
}

/// Ends a child that hasn't been collected.
pub fn end(process: i32) {
    // SAFETY: the call takes numbers alone.
    unsafe { kill(process, KILL) };
}

/// Binds this thread, and the children that it starts, to the processors whose bits are set. Where the system refuses,
/// all stays as it was.
pub fn bind(processors: u64) {
    // SAFETY: the set has the eight octets that are named.
    unsafe { sched_setaffinity(0, size_of::<u64>(), &processors) };
}
