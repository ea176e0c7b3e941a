//! What is only lent to be read is never written, calls at the same time do not disturb each other, and a small stack is enough.

use compare::making::generate;
use makhnodri::{report, BoxedScene, STACK};
use makhnodri_tests::*;

#[test]
fn what_is_read_is_not_written() {
    for seed in 0..130 {
        let flat = Flat::of(&generate::scene(seed));
        let before = flat.clone();
        every_answer(&flat);
        assert_eq!(flat, before);
        let text = compare::text::write(&generate::scene(seed)).into_bytes();
        let kept = text.clone();
        report(&text);
        assert_eq!(text, kept);
    }
}

/// What a thread itself takes before it calls, and to hand its answers over.
const OWN: usize = 16_384;

/// Threads with hardly more stack than a call may take, each over its own scene, all at once.
#[test]
fn threads_at_once_on_small_stacks() {
    let lent = |seed: u64| {
        let scene = generate::scene(seed);
        (Flat::of(&scene), compare::text::write(&scene).into_bytes())
    };
    let work = |(flat, text): (Flat, Vec<u8>)| {
        let boxed = BoxedScene::new(flat.scene()).map(|boxed| boxed.settled());
        (flat.scene().settled(), report(&text), boxed)
    };
    let alone: Vec<_> = (0..26).map(lent).map(work).collect();
    let thread = |lent| std::thread::Builder::new().stack_size(STACK + OWN).spawn(move || work(lent)).unwrap();
    let threads: Vec<_> = (0..26).map(lent).map(thread).collect();
    for (thread, alone) in threads.into_iter().zip(alone) {
        assert_eq!(thread.join().unwrap(), alone);
    }
}
