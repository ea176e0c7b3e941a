//! The texts on which a report program is held to document 01.

use crate::making::cases;
use crate::making::generate;
use crate::making::kept;
use crate::numbers::random::Random;
use crate::scene::affine::Affine;
use crate::scene::backwards::turned;
use crate::text::crossed;
use crate::text::damage::damaged;
use crate::text::faults::cells;
use crate::text::write;

pub struct Trial {
    pub name: String,
    pub text: Vec<u8>,
}

fn trial(name: impl Into<String>, text: impl Into<Vec<u8>>) -> Trial {
    Trial { name: name.into(), text: text.into() }
}

/// What document 01 shows, the edges of its rules, and the scenes that are kept.
pub fn fixed() -> Vec<Trial> {
    let shown = cases::shown().into_iter().enumerate();
    let shown = shown.map(|(place, case)| trial(format!("shown case {}", place + 1), write(&case.scene)));
    let kept = kept::scenes().into_iter();
    let kept = kept.map(|(name, path)| trial(format!("scenes/{name}.scene"), std::fs::read(path).unwrap()));
    let edges = cases::text_cases().into_iter().map(|case| trial(case.name, case.text));
    shown.chain(kept).chain(edges).collect()
}

/// A scene, its image under an affine map and the scene without its seams played backwards, one of the first two damaged, and a text for a cell of the table of faults.
pub fn seeded(seed: u64) -> Vec<Trial> {
    let mut random = Random::new(!seed);
    let scene = generate::scene(seed);
    let sent = Affine::draw(&mut random, &scene).send(&scene);
    let (made, sent) = (write(&scene), write(&sent));
    let name = |way: &str| format!("seed {seed}, {}, {way}", generate::kind_name(seed));
    let cells = cells();
    let cell = cells[seed as usize % cells.len()];
    let whole = random.pick(&[&made, &sent]);
    let harmed = damaged(&mut random, whole);
    let crossed = crossed::text(&mut random, cell);
    vec![
        trial(name("as made"), made),
        trial(name("sent on"), sent),
        trial(name("played backwards"), write(&turned(&scene.unsewn()))),
        trial(name("damaged"), harmed),
        trial(format!("seed {seed}, {cell:?}"), crossed),
    ]
}
