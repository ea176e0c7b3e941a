//! From two files to a mesh: edges, the grid, seams, and files that do not belong together.

use compare::numbers::random::Random;
use garment::edges;
use garment::mesh::Mesh;
use garment::rounding::{least_step_for, onto_grid, parting_step};
use garment::seams;
use garment_check::former;
use garment_check::ways::mesh_of;
use makhnodri::COORDINATE_LIMIT;

fn texts(start: &str, end: &str) -> [String; 2] {
    [start.to_string(), end.to_string()]
}

#[test]
fn each_edge_once_as_it_first_appears() {
    let mesh = Mesh::new(vec![[0; 6]; 5], vec![[2, 1, 0], [1, 2, 3], [0, 4, 2]]);
    assert_eq!(mesh.edges, [[2, 1], [1, 0], [0, 2], [2, 3], [3, 1], [0, 4], [4, 2]]);
    assert!(Mesh::new(vec![[0; 6]; 5], vec![]).edges.is_empty());
}

/// Triangles of few vertices, so that many share a side, and one vertex that most have: edges, the edge of each side and the order of the ends.
#[test]
fn edges_with_what_shows_that_they_are_all() {
    for seed in 0..300 {
        let mut random = Random::new(seed);
        let vertices = 3 + random.below(40);
        let triangles: Vec<[u32; 3]> = (0..random.below(120)).map(|_| a_triangle(&mut random, vertices)).collect();
        let edges = edges::of(vertices, &triangles);
        assert_eq!(edges.ends, former::edges_of(&triangles), "seed {seed}");
        let rising = |[a, b]: [u32; 2]| [a.min(b), a.max(b)];
        let sides = triangles.iter().flat_map(|&triangle| edges::sides_of(triangle));
        assert_eq!(edges.sides.len(), 3 * triangles.len());
        for (&edge, side) in edges.sides.iter().zip(sides) {
            assert_eq!(rising(edges.ends[edge as usize]), rising(side), "seed {seed}");
        }
        let ends: Vec<[u32; 2]> = edges.order.iter().map(|&edge| rising(edges.ends[edge as usize])).collect();
        assert!(ends.len() == edges.ends.len() && ends.is_sorted_by(|one, other| one < other), "seed {seed}");
    }
}

fn a_triangle(random: &mut Random, vertices: usize) -> [u32; 3] {
    loop {
        let mut corner = || if random.chance(4) { 1 } else { random.below(vertices) as u32 };
        let [a, b, c] = [corner(), corner(), corner()];
        if a != b && b != c && c != a {
            return [a, b, c];
        }
    }
}

#[test]
fn vertices_in_one_place_by_numbers_of_their_positions() {
    for seed in 0..200 {
        let mut random = Random::new(seed);
        let wide = random.pick(&[1, 2, 1_000_000]);
        let mut positions: Vec<[i32; 6]> =
            (0..random.below(300)).map(|_| [(); 6].map(|()| random.between(-wide, wide) as i32)).collect();
        let twice: Vec<[i32; 6]> = positions.iter().copied().filter(|_| random.chance(3)).collect();
        positions.extend(twice);
        assert_eq!(seams::by_position(&positions), former::by_position(&positions), "seed {seed}");
    }
}

#[test]
fn a_step_is_chosen_so_that_it_fits() {
    for (width, step) in [
        (0.0, 1.0),
        (1.0, 1e-6),
        (1.04, 1e-6),
        (1.05, 2e-6),
        (2.0, 2e-6),
        (2.1, 5e-6),
        (1_048_572.0, 1.0),
        (1_048_573.0, 2.0),
        (1e12, 1e6),
    ] {
        assert_eq!(least_step_for(width, COORDINATE_LIMIT), Some(step), "{width}");
    }
    // at every width it fits, and the next smaller one would not
    for i in 0..2_000 {
        let width = 1.5f64.powi(i % 200 - 100) * (1.0 + i as f64 / 700.0);
        let step = least_step_for(width, COORDINATE_LIMIT).expect("there is one");
        let rounded = onto_grid(&[[0.0; 3], [width, 0.0, 0.0]], &[[0.0; 3], [0.0, width, 0.0]], None, COORDINATE_LIMIT);
        assert_eq!(rounded.expect("it fits").step, step);
        let smaller = onto_grid(&[[0.0; 3], [width, 0.0, 0.0]], &[[0.0; 3]; 2], Some(step / 2.6), COORDINATE_LIMIT);
        assert!(smaller.is_err(), "{width} would fit with {}", step / 2.6);
    }
}

/// What lies on the grid stays on it, wherever the mesh lies; what does not goes to the nearest step.
#[test]
fn rounding_is_to_the_nearest_step() {
    for far in [0.0, 12.34, -1_000.0, 5_000.05] {
        let place = |x: f64| [far + x, far, far];
        let rounded =
            onto_grid(&[place(0.0), place(0.03)], &[place(-0.01), place(0.02)], Some(0.01), COORDINATE_LIMIT).expect("it fits");
        let xs: Vec<[i32; 2]> = rounded.positions.iter().map(|p| [p[0], p[3]]).collect();
        assert_eq!([xs[0][1] - xs[0][0], xs[1][0] - xs[0][0], xs[1][1] - xs[0][0]], [-1, 3, 2], "{far}");
        assert_eq!(rounded.moved, 0, "{far}");
    }
    let rounded = onto_grid(&[[0.0, 0.4, 0.6]], &[[1.0, 1.4, 1.6]], Some(1.0), COORDINATE_LIMIT).expect("it fits");
    assert_eq!((rounded.moved, (rounded.farthest * 10.0).round()), (4, 4.0));
    let [a, b, c, d, e, f] = rounded.positions[0];
    assert_eq!([d - a, e - b, f - c], [1, 1, 1]);
    assert_eq!(rounded.fallen, 0);
    // two fall together, one is there already, one moves apart
    let start = [[0.0; 3], [0.2, 0.0, 0.0], [0.0; 3], [0.3, 0.0, 0.0], [3.0; 3]];
    let end = [[0.0; 3], [0.2, 0.0, 0.0], [0.0; 3], [0.9, 0.0, 0.0], [3.0; 3]];
    assert_eq!(onto_grid(&start, &end, Some(1.0), COORDINATE_LIMIT).expect("it fits").fallen, 1);
    // the whole room, and not a step more
    let ends = |high: f64| onto_grid(&[[-524_287.0, 0.0, 0.0]], &[[high, 0.0, 0.0]], Some(1.0), COORDINATE_LIMIT);
    assert_eq!(ends(524_287.0).expect("it fits").positions, [[-524_287, 0, 0, 524_287, 0, 0]]);
    assert!(ends(524_289.0).expect_err("it is too wide").words.ends_with("take a larger --step; 2 is enough"));
    assert!(onto_grid(&[[1e18, 0.0, 0.0]], &[[1e18, 0.0, 0.0]], Some(0.01), COORDINATE_LIMIT)
        .expect_err("it is far")
        .words
        .contains("too far from 0"));
    assert!(onto_grid(&[[1e308, 0.0, 0.0]], &[[-1e308, 0.0, 0.0]], None, COORDINATE_LIMIT).is_err());
}

#[test]
fn vertices_in_one_place_are_sewn_to_the_lowest() {
    let flat = "v 5 0 0\nv 0 0 0\nv 5 0 0\nv 0 0 0\nv 5 0 0\nv 0 5 0\nv 9 9 9\n";
    // vertex 4 stands with 0 and 2 at the start, and elsewhere at the end
    let moved = "v 5 0 1\nv 0 0 0\nv 5 0 1\nv 0 0 0\nv 5 0 2\nv 0 5 0\nv 9 9 9\n";
    let mesh = mesh_of(&texts(flat, moved), Some(1.0), true).expect("a mesh");
    assert_eq!(mesh.stands, [0, 1, 0, 1, 4, 5, 6]);
    assert_eq!(mesh.seams(), 2);
    // edges stay those of the faces: two panels along a seam have an edge each
    let faces = "f 1 2 6\nf 3 4 7\n";
    let mesh = mesh_of(&texts(&format!("{flat}{faces}"), &format!("{moved}{faces}")), Some(1.0), true).expect("a mesh");
    assert_eq!(mesh.edges, [[0, 1], [1, 5], [5, 0], [2, 3], [3, 6], [6, 2]]);
    assert_eq!((mesh.ends(0), mesh.ends(3)), ([0, 1], [0, 1]));
    let face = "f 1 2 6\nf 1 3 6\n";
    let fault =
        mesh_of(&texts(&format!("{flat}{face}"), &format!("{moved}{face}")), Some(1.0), true).expect_err("two corners are one");
    assert!(
        fault.words.starts_with("start.obj:9: two corners of this face, vertices 1 and 3 of the file, are in one place"),
        "{fault}"
    );
}

/// Two corners of one face, so far apart, in a mesh so wide, on a grid of such steps: what is told.
fn of_near_corners(apart: f64, wide: f64, step: Option<f64>) -> String {
    let text = format!("v 0 0 0\nv {apart} 0 0\nv 0 1 0\nv {wide} 0 0\nf 1 2 3\n");
    mesh_of(&texts(&text, &text), step, true).expect_err("two corners are one").words
}

/// In the file itself no step parts them; else the step that is named is taken, and where there is none nobody is sent for one.
#[test]
fn who_sews_a_face_to_itself_is_sent_to_a_step_that_is_taken() {
    let told = of_near_corners(0.0, 10.0, Some(0.1));
    assert!(told.starts_with("start.obj:5: ") && told.contains("vertices 1 and 2") && told.contains("with any step"), "{told}");
    assert!(!told.contains("--step"), "{told}");
    for (apart, wide, given) in [(0.03, 10.0, Some(0.1)), (0.0499, 1_000.0, Some(1.0)), (0.001, 900.0, Some(0.01))] {
        let told = of_near_corners(apart, wide, given);
        let named = told.split("take a smaller --step; ").nth(1).and_then(|rest| rest.strip_suffix(" is enough"));
        let step: f64 = named.unwrap_or_else(|| panic!("no step: {told}")).parse().expect("a number");
        let text = format!("v 0 0 0\nv {apart} 0 0\nv 0 1 0\nv {wide} 0 0\nf 1 2 3\n");
        assert!(mesh_of(&texts(&text, &text), Some(step), true).is_ok(), "{step}");
    }
    for given in [None, Some(1.0)] {
        let told = of_near_corners(1e-7, 1_000.0, given);
        assert!(told.contains("the mesh does not fit") && !told.contains("--step"), "{told}");
    }
}

#[test]
fn a_step_that_parts_is_the_largest_that_does() {
    for (length, step) in [(1.0, 1.0), (1.9, 1.0), (2.0, 2.0), (4.99, 2.0), (5.0, 5.0), (9.99, 5.0), (0.03, 0.02), (1e-6, 1e-6)] {
        assert_eq!(parting_step(length), Some(step), "{length}");
    }
    assert_eq!(parting_step(0.0), None);
}

#[test]
fn files_of_two_meshes_are_told() {
    let vertices = "v 0 0 0\nv 1 0 0\nv 0 1 0\nv 0 0 1\n";
    let told = |start: &str, end: &str| mesh_of(&texts(start, end), None, false).expect_err("two meshes").words;
    let one = |faces: &str| format!("{vertices}{faces}");
    assert!(told(&one(""), "v 0 0 0\n").starts_with("start.obj has 4 vertices and end.obj has 1"));
    assert!(
        told(&one("f 1 2 3\nf 1 2 4\n"), &one("f 1 2 3\n\nf 1 4 2\n")).starts_with("start.obj:6 and end.obj:7: the faces differ")
    );
    assert!(told(&one("f 1 2 3\n"), &one("f 1 3 2\n")).ends_with("export quads, which are cut alike here"));
    assert!(told(&one("f 1 2 3\n"), &one("f 1 2 3\nf 1 2 4\n")).starts_with("start.obj has 1 triangles and end.obj has 2"));
    // the same faces, counted otherwise
    assert!(mesh_of(&[one("f 1 2 3\n"), one("f -4/1 -3/1 -2/1\n")], None, false).is_ok());
}
