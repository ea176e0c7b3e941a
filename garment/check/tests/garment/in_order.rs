//! Work on several threads: taken in order, each piece once; a taking that fails ends it, and a panic goes on where it is waited for.

use garment::report::Form;
use garment::work::in_order;
use garment_check::cloth::{cloth, KINDS};
use garment_check::ways::{about, made, no_bar, report};
use std::panic::catch_unwind;
use std::sync::atomic::{AtomicUsize, Ordering};
use std::time::Duration;

#[test]
fn results_come_in_order() {
    for threads in [1, 2, 7] {
        for count in [0, 1, 5, 300] {
            let mut taken = Vec::new();
            let slow_now_and_then = |piece: usize| {
                if piece % 50 == 3 {
                    std::thread::sleep(Duration::from_millis(3));
                }
                2 * piece
            };
            in_order(count, threads, slow_now_and_then, |piece, result| {
                taken.push((piece, result));
                Ok::<(), ()>(())
            })
            .expect("nothing fails");
            assert_eq!(taken, (0..count).map(|piece| (piece, 2 * piece)).collect::<Vec<_>>(), "{threads} threads");
        }
    }
}

#[test]
fn a_taking_that_fails_ends_it() {
    for threads in [1, 4] {
        let begun = AtomicUsize::new(0);
        let work = |_| begun.fetch_add(1, Ordering::Relaxed);
        let ended = in_order(100_000, threads, work, |piece, _| if piece == 10 { Err("full") } else { Ok(()) });
        assert_eq!(ended, Err("full"));
        assert!(begun.load(Ordering::Relaxed) < 100, "{} pieces were begun", begun.load(Ordering::Relaxed));
    }
}

#[test]
fn a_panic_is_not_lost() {
    for threads in [1, 4] {
        let work = |piece: usize| assert!(piece != 20, "a panic on purpose");
        assert!(catch_unwind(|| in_order(50, threads, work, |_, ()| Ok::<(), ()>(()))).is_err());
    }
}

/// The same bytes on any number of threads.
#[test]
fn threads_change_nothing() {
    let mesh = made(&cloth(KINDS[1], 3_000, 2));
    let one = report(&mesh, &Form::default(), 1);
    for threads in [2, 3, 16] {
        assert!(report(&mesh, &Form::default(), threads) == one, "{threads} threads");
    }
}

/// Takes some bytes, and then no more.
struct Full(usize);

impl std::io::Write for Full {
    fn write(&mut self, bytes: &[u8]) -> std::io::Result<usize> {
        let taken = self.0.min(bytes.len());
        self.0 -= taken;
        if taken == 0 {
            return Err(std::io::Error::other("no room on the disk"));
        }
        Ok(taken)
    }

    fn flush(&mut self) -> std::io::Result<()> {
        Ok(())
    }
}

#[test]
fn a_write_that_fails_is_told() {
    let mesh = made(&cloth(KINDS[1], 300, 2));
    let whole = report(&mesh, &Form::default(), 1).0.len();
    for (room, threads) in [(0, 1), (100, 2), (whole - 1, 2)] {
        let told = garment::whole::report(&mesh, &about(&mesh), &Form::default(), threads, &mut no_bar(), Full(room));
        assert_eq!(told.expect_err("it does not fit").words, "the report could not be written: no room on the disk");
    }
    assert!(garment::whole::report(&mesh, &about(&mesh), &Form::default(), 2, &mut no_bar(), Full(whole)).is_ok());
}
