//! A scene saved through the wrapper: against the independent writer, read again, in buffers of every length near its own, and refused.

use compare::making::generate;
use compare::report::trials;
use compare::text;
use makhnodri::{Refusal, SaveRefusal, Scene, TEXT_LIMIT};
use makhnodri_tests::*;
use std::error::Error;

/// Round trips both ways: the scene's text is the independent program's, and what is read from it is the scene.
#[test]
fn a_saved_scene_is_read_again() {
    let mut minus = 0;
    for seed in 0..190 {
        let own = generate::scene(seed);
        let (flat, wanted) = (Flat::of(&own), text::write(&own));
        let scene = flat.scene();
        if wanted.len() > TEXT_LIMIT {
            assert_eq!(scene.saved(), Err(SaveRefusal::LongText));
            continue;
        }
        assert_eq!(scene.saved_length(), Ok(wanted.len()));
        assert_eq!(scene.saved().as_deref(), Ok(wanted.as_str()));
        assert_eq!(format!("{scene}"), wanted);
        assert_eq!(Scene::read(wanted.as_bytes()).unwrap(), scene);
        minus += wanted.contains('-') as usize;
    }
    assert!(minus > 20, "numbers below 0 were saved");
}

/// Every text of the comparison that is a scene is saved as the same bytes.
#[test]
fn a_text_that_was_read_is_saved_as_the_same_bytes() {
    let mut count = 0;
    let seeded = (0..40).flat_map(trials::seeded);
    for trial in trials::fixed().into_iter().chain(seeded) {
        if let Ok(scene) = Scene::read(&trial.text) {
            assert_eq!(scene.saved().map(String::into_bytes), Ok(trial.text));
            count += 1;
        }
    }
    assert!(count > 20, "{count} texts");
}

/// One byte too short, just long enough, and longer: the rest is unchanged, and all of it after a refusal.
#[test]
fn the_rest_is_unchanged() {
    let own =
        text::read(&std::fs::read(concat!(env!("CARGO_MANIFEST_DIR"), "/../../scenes/sleeve-sewn.scene")).unwrap()).unwrap();
    let (flat, wanted) = (Flat::of(&own), text::write(&own).into_bytes());
    let scene = flat.scene();
    for room in [0, 1, wanted.len() - 1, wanted.len(), wanted.len() + 1, wanted.len() + 300] {
        let mut buffer = vec![0xa5; room];
        let answer = scene.save_scene(&mut buffer);
        if room < wanted.len() {
            assert_eq!(answer, Err(SaveRefusal::NoRoom { needed: wanted.len() }));
            assert!(buffer.iter().all(|&byte| byte == 0xa5));
        } else {
            assert_eq!(answer, Ok(wanted.len()));
            assert_eq!(buffer[..wanted.len()], wanted);
            assert!(buffer[wanted.len()..].iter().all(|&byte| byte == 0xa5));
        }
    }
}

/// The scene's own refusals come first, then 8, whatever the room, then 7.
#[test]
fn refusals_in_their_order() {
    let far = Scene::new(&[600_000, 0, 0, 0, 0, 0], &[], &[]);
    assert_eq!(far.saved(), Err(SaveRefusal::Scene(Refusal::Coordinate)));
    assert_eq!(far.save_scene(&mut []), Err(SaveRefusal::Scene(Refusal::Coordinate)));
    for (over, wanted) in [(0, Ok(TEXT_LIMIT)), (1, Err(SaveRefusal::LongText)), (4_000, Err(SaveRefusal::LongText))] {
        let flat = Flat::of(&text::as_long_as(TEXT_LIMIT + over));
        assert_eq!(flat.scene().saved_length(), wanted);
        let mut buffer = vec![7; TEXT_LIMIT + over];
        assert_eq!(flat.scene().save_scene(&mut buffer), wanted);
        let short = if over == 0 { Err(SaveRefusal::NoRoom { needed: TEXT_LIMIT }) } else { Err(SaveRefusal::LongText) };
        assert_eq!(flat.scene().save_scene(&mut buffer[1 + over..]), short);
    }
    use std::fmt::Write;
    assert!(write!(String::new(), "{far}").is_err());
}

/// Handed on by `?`, each says what it is.
#[test]
fn a_refusal_is_an_error() {
    fn length_in(scene: &Scene, room: usize) -> Result<usize, Box<dyn Error>> {
        Ok(scene.save_scene(&mut vec![0; room])?)
    }
    let far = Scene::new(&[600_000, 0, 0, 0, 0, 0], &[], &[]);
    let near = Scene::new(&[0; 6], &[], &[]);
    let long = Flat::of(&text::as_long_as(TEXT_LIMIT + 1));
    assert_eq!(length_in(&near, 14).unwrap(), 14);
    for (scene, wanted) in [
        (far, SaveRefusal::Scene(Refusal::Coordinate)),
        (long.scene(), SaveRefusal::LongText),
        (near, SaveRefusal::NoRoom { needed: 14 }),
    ] {
        let error = length_in(&scene, 3).unwrap_err();
        assert_eq!(error.to_string(), wanted.to_string());
        assert_eq!(error.downcast_ref(), Some(&wanted));
    }
}
