//! Processor time, so that what else the machine does is not in a figure; and what a program took.

use std::io;
use std::process::{Command, Stdio};
use std::time::{Duration, Instant};

/// As Linux has it on processors of 64 bits.
#[repr(C)]
#[derive(Clone, Copy, Default)]
struct Timespec {
    seconds: i64,
    /// Nanoseconds of a clock, microseconds of what a program used.
    fraction: i64,
}

/// The first five fields of what a program used, and room for the rest.
#[repr(C)]
#[derive(Default)]
struct Used {
    user: Timespec,
    system: Timespec,
    most_kibibytes: i64,
    rest: [i64; 13],
}

extern "C" {
    fn clock_gettime(clock: i32, time: *mut Timespec) -> i32;
    fn wait4(process: i32, status: *mut i32, options: i32, used: *mut Used) -> i32;
}

/// The processor time that this thread has taken so far.
pub fn taken() -> Duration {
    const CLOCK_THREAD_CPUTIME_ID: i32 = 3;
    let mut time = Timespec::default();
    // SAFETY: the clock is one that Linux has, and it writes one Timespec
    let status = unsafe { clock_gettime(CLOCK_THREAD_CPUTIME_ID, &mut time) };
    assert_eq!(status, 0, "this machine counts a thread's processor time");
    Duration::new(time.seconds as u64, time.fraction as u32)
}

const PIERCED: i32 = 4;

/// What a run of a program took.
pub struct Run {
    pub seconds: f64,
    pub processor_seconds: f64,
    pub mebibytes: f64,
}

/// Runs a program with its output thrown away.
pub fn run(program: &str, words: &[&str]) -> io::Result<Run> {
    let began = Instant::now();
    let child = Command::new(program).args(words).stdin(Stdio::null()).stdout(Stdio::null()).stderr(Stdio::null()).spawn()?;
    let (mut status, mut used) = (0, Used::default());
    // SAFETY: the process is a child of this one that nobody else waits for; a status and what it used are written
    let waited = unsafe { wait4(child.id() as i32, &mut status, 0, &mut used) };
    // a garment that is made may be pierced at the start, which is told by the status, and no failure
    if waited < 0 || ![0, PIERCED << 8].contains(&status) {
        return Err(io::Error::other(format!("{program} {words:?} ended with {status}")));
    }
    let seconds = |time: Timespec| time.seconds as f64 + time.fraction as f64 / 1e6;
    Ok(Run {
        seconds: began.elapsed().as_secs_f64(),
        processor_seconds: seconds(used.user) + seconds(used.system),
        mebibytes: used.most_kibibytes as f64 / 1024.0,
    })
}
