//! Reports, and texts read and judged, held against the independent program; every byte behind a report is unchanged.

use compare::report::report;
use compare::report::trials::{fixed, seeded, Trial};
use compare::scene::REPORT_ROOM;
use makhnodri::{Scene, REPORT_LENGTH};
use makhnodri_tests::*;

fn hold(Trial { name, text }: &Trial) {
    let mut out: Box<[u8; REPORT_LENGTH]> = painted(REPORT_LENGTH).try_into().unwrap();
    let before = out.clone();
    let length = makhnodri::write_report(text, &mut out);
    let wanted = report(text, REPORT_ROOM);
    assert_eq!(String::from_utf8_lossy(&out[..length]), wanted, "{name}");
    assert_eq!(out[length..], before[length..], "{name}: behind the report");
}

/// The text read by the library is the scene that the independent reader reads, and is accepted.
fn hold_reading(Trial { name, text }: &Trial) {
    let got = Scene::read(text).map_err(of_text);
    let wanted = compare::text::read(text).map_err(|refusal| (refusal.number, refusal.third));
    match (&got, &wanted) {
        (Ok(got), Ok(wanted)) => {
            let wanted = Flat::of(wanted);
            assert_eq!(*got, wanted.scene(), "{name}");
            assert_eq!(got.check_scene(), Ok(()), "{name}");
        }
        _ => assert_eq!(got.map(drop), wanted.map(drop), "{name}"),
    }
}

#[test]
fn fixed_texts() {
    fixed().iter().for_each(hold);
    fixed().iter().for_each(hold_reading);
}

#[test]
fn texts_from_seeds() {
    for trial in (0..150).flat_map(seeded) {
        hold(&trial);
        hold_reading(&trial);
    }
}
