//! Several ways to do the same work, timed side by side: in each round every way goes once, another one first each
//! time, and the shortest time of each counts. The time is the processor's for this thread, so that what else the machine
//! does is not in it.

use std::hint::black_box;
use std::time::Duration;

/// As Linux has it on processors of 64 bits.
#[repr(C)]
struct Timespec {
    seconds: i64,
    nanoseconds: i64,
}

extern "C" {
    fn clock_gettime(clock: i32, time: *mut Timespec) -> i32;
}

/// The processor time that this thread has taken so far.
fn taken() -> Duration {
    const CLOCK_THREAD_CPUTIME_ID: i32 = 3;
    let mut time = Timespec { seconds: 0, nanoseconds: 0 };
    // SAFETY: the clock is one that Linux has, and it writes one Timespec
    let status = unsafe { clock_gettime(CLOCK_THREAD_CPUTIME_ID, &mut time) };
    assert_eq!(status, 0, "this machine counts a thread's processor time");
    Duration::new(time.seconds as u64, time.nanoseconds as u32)
}

/// A processor that did nothing may start with a low clock: half a second of work that nobody times.
pub fn warm_up() {
    let began = taken();
    while taken() - began < Duration::from_millis(500) {
        for number in 0..10_000u64 {
            black_box(black_box(number).wrapping_mul(number));
        }
    }
}

pub struct Way<'a> {
    name: &'static str,
    work: Box<dyn FnMut() -> u64 + 'a>,
}

impl<'a> Way<'a> {
    /// The work hands back a number that depends on all of it, so that none is left out.
    pub fn new(name: &'static str, work: impl FnMut() -> u64 + 'a) -> Way<'a> {
        Way { name, work: Box::new(work) }
    }
}

/// A way's name and its shortest time in seconds.
pub type Timed = (&'static str, f64);

/// In the order of the ways.
pub fn shortest(mut ways: Vec<Way>, rounds: usize) -> Vec<Timed> {
    let mut times = vec![Duration::MAX; ways.len()];
    for round in 0..rounds {
        for turn in 0..ways.len() {
            let place = (round + turn) % ways.len();
            let began = taken();
            black_box((ways[place].work)());
            times[place] = times[place].min(taken() - began);
        }
    }
    ways.iter().zip(times).map(|(way, time)| (way.name, time.as_secs_f64())).collect()
}
