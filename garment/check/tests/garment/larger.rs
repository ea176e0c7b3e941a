//! Meshes that fit no scene: the independent program finds and decides the same pairs.

use compare::numbers::random::Random;
use garment::judging::settle;
use garment::mesh::Mesh;
use garment::report::{Form, WORDS};
use garment_check::cloth::{cloth, Cloth, KINDS};
use garment_check::exact;
use garment_check::grid::Finder;
use garment_check::ways::{made, mesh_of, report};

/// The whole report of a mesh of two thousand vertices, every two parts tried.
#[test]
fn every_pair_of_a_small_garment() {
    for (kind, vertices) in [(KINDS[0], 1_500), (KINDS[1], 1_000), (KINDS[2], 300)] {
        let mesh = made(&cloth(kind, vertices, 7));
        assert_eq!(report(&mesh, &Form::default(), 2).0, exact::report(&mesh), "{}", kind.name);
    }
}

/// Rows taken from seeds out of a mesh of twenty thousand vertices: each other part is tried, each pair decided.
#[test]
fn rows_of_a_garment() {
    for kind in KINDS {
        let mesh = made(&cloth(kind, 20_000, 3));
        let (finder, scene, mut random) = (Finder::new(&mesh), exact::scene(&mesh), Random::new(5));
        let mut pairs = 0;
        for _ in 0..40 {
            let row = random.below(finder.rows());
            let found = finder.in_rows(row..row + 1);
            assert_eq!(found, exact::row(&mesh, &scene, row), "{}, row {row}", kind.name);
            for pair in found {
                assert_eq!(settle(&mesh, pair), Ok(exact::settled(&scene, pair)), "{}, {pair:?}", kind.name);
                pairs += 1;
            }
        }
        assert!(pairs > 50, "{}: {pairs}", kind.name);
    }
}

/// Cloth at rest in one plane, layer on layer, but for its last vertices, which rise: nearly all is singular, and all four words come up.
#[test]
fn cloth_at_rest() {
    let mut flat = cloth(KINDS[2], 200, 9);
    flat.start.iter_mut().for_each(|place| place[2] = 0.0);
    flat.end = flat.start.clone();
    flat.end.iter_mut().skip(190).for_each(|place| place[2] += 3.0);
    let mesh = made(&flat);
    let (text, tally) = report(&mesh, &Form::default(), 2);
    assert_eq!(text, exact::report(&mesh));
    assert!(WORDS.iter().all(|&word| tally.of(word) > 0), "{tally:?}");
}

/// Boxes of very different sizes: a floor of two triangles, dust, and a vertex that flies through all of it.
#[test]
fn large_and_small_parts() {
    let mut mixed = cloth(KINDS[1], 400, 11);
    let base = mixed.start.len() as u32;
    for place in [[-500.0, -500.0, 3.0], [900.0, -500.0, 3.0], [900.0, 900.0, 3.0], [-500.0, 900.0, 3.0]] {
        mixed.start.push(place);
        mixed.end.push([place[0], place[1], 9.0]);
    }
    mixed.faces.push(vec![base, base + 1, base + 2, base + 3]);
    mixed.start.push([-1_000.0, -1_000.0, -1_000.0]);
    mixed.end.push([1_000.0, 1_000.0, 1_000.0]);
    let mesh = made(&mixed);
    assert_eq!(report(&mesh, &Form::default(), 2).0, exact::report(&mesh));
}

/// Two panels that share a border of vertices in the same places.
fn sewn(seed: u64) -> Cloth {
    let (mut whole, other) = (cloth(KINDS[1], 160, seed), cloth(KINDS[1], 160, seed));
    let base = whole.start.len() as u32;
    let shared = Random::new(seed).below(120) as u32;
    for (i, (start, end)) in other.start.iter().zip(&other.end).enumerate() {
        // from some vertex on, the second panel is the first one shifted; before it lies on the first
        let aside = if (i as u32) < shared { 0.0 } else { 4.0 };
        whole.start.push([start[0], start[1], start[2] + aside]);
        whole.end.push([end[0], end[1], end[2] + aside / 2.0]);
    }
    // its faces name their vertices from last to first, so that the order by the vertex stood for is another one
    let count = whole.start.len() as u32;
    let turned = |vertex: u32| count - 1 - vertex;
    whole.faces.extend(other.faces.iter().map(|face| face.iter().map(|corner| corner + base).collect()));
    whole.start.reverse();
    whole.end.reverse();
    whole.faces.iter_mut().flatten().for_each(|corner| *corner = turned(*corner));
    whole
}

#[test]
fn seams() {
    let mut differ = 0;
    for seed in 0..4 {
        let texts = sewn(seed).objs();
        let open: Mesh = mesh_of(&texts, None, false).expect("a mesh");
        let mesh = mesh_of(&texts, None, true).expect("a mesh");
        let text = report(&mesh, &Form::default(), 2).0;
        assert!(mesh.seams() > 0 || seed == 0, "seed {seed}");
        assert_eq!(text, exact::report(&mesh), "seed {seed}");
        differ += (text != report(&open, &Form::default(), 2).0) as usize;
    }
    assert!(differ > 1, "{differ}");
}
