//! The count of box tests of §12 of document 02, by hand where that can be, and whether wrong counts are told apart.

use compare::list::box_tests::{heap, most, of, strip, wrong, SIZES};
use compare::list::listing;
use compare::making::cases;
use compare::making::generate;
use compare::scene::Scene;
use compare::text;

fn scenes() -> Vec<Scene> {
    let seeded = (0..60).map(generate::scene);
    SIZES.into_iter().flat_map(|size| [strip(size), heap(size.min(128))]).chain(seeded).collect()
}

/// Five vertices, one run of one triangle: vertex 4 misses it, vertex 3 and the three corners meet it.
#[test]
fn the_printed_scene_has_nine() {
    assert_eq!(of(&text::read(cases::PRINTED_SCENE.as_bytes()).unwrap()), 9);
}

/// Where all stands in one place nothing is skipped, and where a vertex is far from all only the runs' boxes are tested.
#[test]
fn all_or_none_is_skipped() {
    for size in SIZES {
        assert_eq!(of(&heap(size)), most(&heap(size)), "{size} triangles");
        let mut apart = strip(size);
        let before = of(&apart);
        apart.vertices.truncate(511);
        apart.triangles.retain(|corners| corners.iter().all(|&v| v < 511));
        if apart.triangles.len() == size {
            apart.vertices.push([0, 0, 500_000, 0, 0, 500_000]);
            assert_eq!(of(&apart), before + size.div_ceil(16), "{size} triangles");
        }
    }
    assert_eq!([0, 1, 15, 16, 17, 512].map(|size| most(&heap(size)) / heap(size).vertices.len()), [0, 2, 16, 17, 19, 544]);
}

#[test]
fn never_more_than_vertices_times_triangles_and_runs() {
    for scene in scenes() {
        let listed = listing::listed(&scene);
        let pt = listed.iter().filter(|pair| pair.kind == compare::scene::Kind::PointTriangle).count();
        assert!(pt <= of(&scene) && of(&scene) <= most(&scene));
    }
}

#[test]
fn each_wrong_count_is_noticed_and_told_from_the_others() {
    let (scenes, wrong) = (scenes(), wrong());
    let right: Vec<usize> = scenes.iter().map(of).collect();
    let counts: Vec<Vec<usize>> = wrong.iter().map(|wrong| scenes.iter().map(wrong.count).collect()).collect();
    for (place, wrong) in wrong.iter().enumerate() {
        assert!(counts[place] != right, "{}", wrong.name);
        assert!(counts[place + 1..].iter().all(|other| *other != counts[place]), "{}", wrong.name);
    }
}
