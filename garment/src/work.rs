//! Work on all cores, its results taken in order.

use std::collections::BTreeMap;
use std::num::NonZero;
use std::ops::Range;
use std::panic::{catch_unwind, resume_unwind, AssertUnwindSafe};
use std::sync::mpsc::{channel, Receiver, Sender};
use std::sync::{Condvar, Mutex};
use std::thread;

/// Pieces of work that may be under way or wait to be taken, for each thread: a slow one does not make the others pile up results.
const AHEAD: usize = 2;

pub fn all_cores() -> usize {
    thread::available_parallelism().map_or(1, NonZero::get)
}

/// The rows of a piece, each of so many but for the last.
pub fn stretch(piece: usize, length: usize, rows: usize) -> Range<usize> {
    piece * length..rows.min((piece + 1) * length)
}

/// Two things, at the same time where there are threads for both.
pub fn both<A: Send, B>(threads: usize, one: impl FnOnce() -> A + Send, other: impl FnOnce() -> B) -> (A, B) {
    if threads <= 1 {
        return (one(), other());
    }
    thread::scope(|scope| {
        let one = scope.spawn(one);
        let other = other();
        (one.join().unwrap_or_else(|panic| resume_unwind(panic)), other)
    })
}

/// Does pieces 0 up to `count`, and takes the result of each in this order, on this thread. Where the taking fails, no more is begun.
pub fn in_order<T: Send, E>(
    count: usize,
    threads: usize,
    work: impl Fn(usize) -> T + Sync,
    mut take: impl FnMut(usize, T) -> Result<(), E>,
) -> Result<(), E> {
    let (mut pieces, mut taken) = (0..count, 0..count);
    in_turn(threads, || pieces.next(), work, |result| take(taken.next().expect("as many as were begun"), result))
}

/// Does pieces as they are handed out, until there are no more, each when a thread is free for it; and takes their results in the same order, on this
/// thread. Where the taking fails, no more is begun.
pub fn in_turn<P, T: Send, E>(
    threads: usize,
    mut next: impl FnMut() -> Option<P> + Send,
    work: impl Fn(P) -> T + Sync,
    mut take: impl FnMut(T) -> Result<(), E>,
) -> Result<(), E> {
    if threads <= 1 {
        while let Some(piece) = next() {
            take(work(piece))?;
        }
        return Ok(());
    }
    let turns = Turns {
        state: Mutex::new(State { next, begun: 0, taken: 0, ended: false }),
        moved: Condvar::new(),
        ahead: AHEAD * threads,
    };
    let (done, arriving) = channel();
    thread::scope(|scope| {
        for _ in 0..threads {
            let done = done.clone();
            scope.spawn(|| one_worker(&turns, done, &work));
        }
        // workers alone have it, so that their end is seen
        drop(done);
        let _ended = Ended(&turns);
        let mut early = BTreeMap::new();
        for at in 0.. {
            let Some(result) = awaited(at, &arriving, &mut early) else { break };
            turns.taken();
            take(result.unwrap_or_else(|panic| resume_unwind(panic)))?;
        }
        Ok(())
    })
}

/// Who hands out pieces, and how many were begun and taken.
struct State<N> {
    next: N,
    begun: usize,
    taken: usize,
    ended: bool,
}

struct Turns<N> {
    state: Mutex<State<N>>,
    moved: Condvar,
    /// Pieces that may be begun and not taken.
    ahead: usize,
}

impl<P, N: FnMut() -> Option<P>> Turns<N> {
    /// The next piece and its number, once it may be begun.
    fn begin(&self) -> Option<(usize, P)> {
        let state = self.state.lock().expect("nobody panics who holds it");
        let waits = |state: &mut State<N>| !state.ended && state.begun >= state.taken + self.ahead;
        let mut state = self.moved.wait_while(state, waits).expect("nobody panics who holds it");
        if state.ended {
            return None;
        }
        let piece = (state.next)()?;
        state.begun += 1;
        Some((state.begun - 1, piece))
    }

    fn taken(&self) {
        self.state.lock().expect("nobody panics who holds it").taken += 1;
        self.moved.notify_all();
    }
}

/// However the taking ends, workers begin no more.
struct Ended<'a, P, N: FnMut() -> Option<P>>(&'a Turns<N>);

impl<P, N: FnMut() -> Option<P>> Drop for Ended<'_, P, N> {
    fn drop(&mut self) {
        if let Ok(mut state) = self.0.state.lock() {
            state.ended = true;
        }
        self.0.moved.notify_all();
    }
}

/// What came of a piece: its result, or the panic that it ended in, which goes on in the thread that waits for it.
type Came<T> = thread::Result<T>;

fn one_worker<P, T>(turns: &Turns<impl FnMut() -> Option<P>>, done: Sender<(usize, Came<T>)>, work: impl Fn(P) -> T) {
    while let Some((at, piece)) = turns.begin() {
        let result = catch_unwind(AssertUnwindSafe(|| work(piece)));
        if done.send((at, result)).is_err() {
            return;
        }
    }
}

/// The result of a piece; nothing where there is no such piece.
fn awaited<T>(at: usize, arriving: &Receiver<(usize, Came<T>)>, early: &mut BTreeMap<usize, Came<T>>) -> Option<Came<T>> {
    loop {
        if let Some(result) = early.remove(&at) {
            return Some(result);
        }
        let (other, result) = arriving.recv().ok()?;
        early.insert(other, result);
    }
}
