//! Meshes that fit one scene: the program's report is the library's, byte for byte.

use compare::making::generate;
use compare::numbers::random::Random;
use compare::scene::{EDGE_LIMIT, REPORT_ROOM, TEXT_LIMIT, TRIANGLE_LIMIT, VERTEX_LIMIT};
use garment::mesh::Mesh;
use garment::report::Form;
use garment::scene_text;
use garment_check::cloth::{cloth, KINDS};
use garment_check::ways::{as_it_is, made, mesh_of, objs_of, report};

/// The library's own report of the mesh as one scene, where it fits one.
fn library(mesh: &Mesh) -> Option<String> {
    let fits = mesh.positions.len() <= VERTEX_LIMIT && mesh.edges.len() <= EDGE_LIMIT && mesh.triangles.len() <= TRIANGLE_LIMIT;
    let text = scene_text::of_mesh(mesh);
    if !fits || text.len() > TEXT_LIMIT {
        return None;
    }
    let report = String::from_utf8(makhnodri::report(text.as_bytes())).expect("plain letters");
    let more_than_room = report.starts_with("refused\t7\t");
    assert!(more_than_room || report.contains("total\t"), "{report}");
    (!more_than_room).then_some(report)
}

fn words_in(report: &str) -> [usize; 4] {
    ["\thit\n", "\tmiss\n", "\ttouch\n", "\tapart\n"].map(|word| report.matches(word).count())
}

#[test]
fn scenes_from_seeds() {
    let (mut same, mut sewn, mut words) = (0, 0, [0; 4]);
    for seed in 0..1_000 {
        let scene = generate::scene(seed);
        let of_faces = mesh_of(&objs_of(&scene, &mut Random::new(seed)), Some(1.0), false).expect("a scene is a mesh");
        // the scene's own edges, some of them twice and some of no face, and its own seams
        let of_scene = as_it_is(&scene);
        for mesh in [of_faces, of_scene] {
            let Some(wanted) = library(&mesh) else { continue };
            for threads in [1, 3] {
                assert_eq!(report(&mesh, &Form::default(), threads).0, wanted, "seed {seed}");
            }
            same += 1;
            sewn += (mesh.seams() > 0) as usize;
            words_in(&wanted).iter().zip(&mut words).for_each(|(&more, all)| *all += more);
        }
    }
    println!("{same} meshes, {sewn} of them sewn, words {words:?}");
    assert!(same > 800 && sewn > 200 && words.iter().all(|&count| count > 500), "{same} meshes, {sewn} sewn, words {words:?}");
}

#[test]
fn cloth_in_folds() {
    let mut same = 0;
    for kind in KINDS {
        for seed in 0..20 {
            let mesh = made(&cloth(kind, 40 + 12 * seed as usize, seed));
            let Some(wanted) = library(&mesh) else { continue };
            assert_eq!(report(&mesh, &Form::default(), 2).0, wanted, "{} {seed}", kind.name);
            assert!(words_in(&wanted)[1] > 0);
            same += 1;
        }
    }
    println!("{same} sheets, of at most {REPORT_ROOM} pairs");
    assert!(same > 20, "{same}");
}
