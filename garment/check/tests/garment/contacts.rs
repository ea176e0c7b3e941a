//! Contacts: those of the library over the whole scene, and of the independent program; and the range that they hold the whole mesh to.

use compare::making::generate;
use garment::mesh::Mesh;
use garment::report::Form;
use garment::rounding::least_step_for;
use garment_check::cloth::{cloth, KINDS};
use garment_check::exact;
use garment_check::ways::{as_it_is, contact_lines, mesh_within, report};
use makhnodri::{Scene, CONTACT_LIMIT};

fn contacts(mesh: &Mesh, threads: usize) -> String {
    report(mesh, &Form { contacts: true, ..Form::default() }, threads).0
}

/// The library's own contacts of the mesh as one scene, where it is one.
fn library(mesh: &Mesh) -> Option<String> {
    let numbers = |vertex: u32| vertex as u16;
    let positions: Vec<i32> = mesh.positions.concat();
    let edges: Vec<u16> = mesh.edges.concat().into_iter().map(numbers).collect();
    let triangles: Vec<u16> = mesh.triangles.concat().into_iter().map(numbers).collect();
    let seams: Vec<u16> = mesh.sewn().flatten().map(numbers).collect();
    contact_lines(&Scene::new(positions, edges, triangles).sewn(seams))
}

#[test]
fn of_scenes_from_seeds() {
    let (mut same, mut lines, mut sewn) = (0, 0, 0);
    for seed in 0..400 {
        let mesh = as_it_is(&generate::scene(seed));
        let exact = exact::contacts(&mesh);
        if exact.starts_with("refused\t16") {
            continue;
        }
        assert_eq!(contacts(&mesh, 1 + seed as usize % 3), exact, "seed {seed}");
        if let Some(library) = library(&mesh) {
            assert_eq!(exact, library, "seed {seed}");
        }
        same += 1;
        lines += exact.lines().count() - 1;
        sewn += (mesh.seams() > 0) as usize;
    }
    println!("{same} meshes, {sewn} of them sewn, {lines} contacts");
    assert!(same > 200 && sewn > 50 && lines > 500, "{same} meshes, {sewn} sewn, {lines} contacts");
}

#[test]
fn of_a_small_garment() {
    let mut lines = 0;
    for (kind, vertices) in [(KINDS[0], 1_000), (KINDS[1], 800), (KINDS[2], 300)] {
        let mesh = mesh_within(CONTACT_LIMIT, &cloth(kind, vertices, 7).objs(), None, false).expect("a mesh");
        let exact = exact::contacts(&mesh);
        assert_eq!(contacts(&mesh, 2), exact, "{}", kind.name);
        lines += exact.lines().count() - 1;
    }
    println!("{lines} contacts");
    assert!(lines > 100, "{lines} contacts");
}

/// The room for contacts is half of that for words; a step that is chosen fits it, and one that is given must.
#[test]
fn the_range_is_the_whole_meshs() {
    let texts = |x: i64| [0, 1].map(|y| format!("v {} {y} 0\nv {x} {y} 0\nv 0 5 0\n", -262_143));
    let held = |x: i64, step: Option<f64>| mesh_within(CONTACT_LIMIT, &texts(x), step, false);
    let beyond = |mesh: &Mesh| mesh.positions.iter().flatten().any(|n| n.abs() > CONTACT_LIMIT);
    assert!(!beyond(&held(262_143, Some(1.0)).expect("it fits")));
    let fault = held(262_145, Some(1.0)).expect_err("it is too wide");
    assert!(fault.words.contains("the room is 524286 steps of 1: take a larger --step; 2 is enough"), "{fault}");
    for x in [262_143, 262_145, 900_000, 5_000_000] {
        assert!(!beyond(&held(x, None).expect("a step is chosen")));
    }
    for (width, step) in [(0.0, 1.0), (1.0, 2e-6), (524_284.0, 1.0), (524_285.0, 2.0)] {
        assert_eq!(least_step_for(width, CONTACT_LIMIT), Some(step), "{width}");
    }
}
