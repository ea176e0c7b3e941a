//! An edge through a triangle at the start: found among all, and decided as the volumes say.

use compare::numbers::random::Random;
use garment::choice::Choice;
use garment::clean::{at_start, Found, Pierced, Told};
use garment::judge::{Judge, Through};
use garment::mesh::Mesh;
use garment::report::Form;
use garment::whereabouts::{of_through, Whereabouts};
use garment_check::cloth::{cloth, KINDS};
use garment_check::ways::{about, made, named, no_bar};
use makhnodri::CONTACT_UNIT;

type Place = [i64; 3];

fn volume(a: Place, b: Place, c: Place, d: Place) -> i64 {
    let [u, v, w] = [b, c, d].map(|end| [0, 1, 2].map(|axis| end[axis] - a[axis]));
    u[0] * (v[1] * w[2] - v[2] * w[1]) - u[1] * (v[0] * w[2] - v[2] * w[0]) + u[2] * (v[0] * w[1] - v[1] * w[0])
}

/// Whether an edge is through a triangle, where none of five volumes is 0; nothing where one is.
fn by_volumes(mesh: &Mesh, at: Through) -> Option<bool> {
    let place = |vertex: u32| {
        let [x, y, z, ..] = mesh.positions[vertex as usize].map(i64::from);
        [x, y, z]
    };
    let ([a, b], [c, d, e]) = (mesh.ends(at.edge).map(place), mesh.corners(at.triangle).map(place));
    let ends = [volume(c, d, e, a), volume(c, d, e, b)];
    let sides = [volume(a, b, c, d), volume(a, b, d, e), volume(a, b, e, c)];
    if ends.iter().chain(&sides).any(|&volume| volume == 0) {
        return None;
    }
    let alike = |signs: &[i64]| signs.iter().all(|sign| sign.signum() == signs[0].signum());
    Some(!alike(&ends) && alike(&sides))
}

fn every(mesh: &Mesh) -> impl Iterator<Item = Through> + '_ {
    let (edges, triangles) = (mesh.edges.len() as u32, mesh.triangles.len() as u32);
    let both = (0..edges).flat_map(move |edge| (0..triangles).map(move |triangle| Through { edge, triangle }));
    both.filter(|at| !mesh.corners(at.triangle).iter().any(|corner| mesh.ends(at.edge).contains(corner)))
}

fn pierced(mesh: &Mesh, threads: usize) -> (Vec<Through>, Pierced) {
    let mut found = Vec::new();
    let told = at_start(&Judge::new(mesh).expect("a mesh"), None, threads, &mut no_bar(), |some| {
        found.extend_from_slice(some);
        Ok(())
    });
    (found, told.expect("it is decided"))
}

/// Twenty triangles anywhere, many through each other.
fn strewn(seed: u64) -> Mesh {
    let mut random = Random::new(seed);
    let wide = random.pick(&[3, 40, 5_000, 500_000]);
    let positions: Vec<[i32; 6]> = (0..60).map(|_| [(); 6].map(|()| random.between(-wide, wide) as i32)).collect();
    Mesh::new(positions, (0..20).map(|at| [3 * at, 3 * at + 1, 3 * at + 2]).collect())
}

/// What they do at the end does not count.
#[test]
fn every_edge_against_every_triangle() {
    let (mut yes, mut no) = (0, 0);
    for seed in 0..40 {
        let mesh = strewn(seed);
        let (found, told) = pierced(&mesh, 2);
        assert_eq!((told.count, told.first), (found.len() as u64, found.first().copied()));
        assert!(found.is_sorted_by(|one, other| one < other));
        for at in every(&mesh) {
            let is = found.binary_search(&at).is_ok();
            if let Some(wanted) = by_volumes(&mesh, at) {
                assert_eq!(is, wanted, "seed {seed}, {at:?}");
                *if is { &mut yes } else { &mut no } += 1;
            }
        }
    }
    assert!(yes > 1_000 && no > 10_000, "{yes} {no}");
}

/// An edge and a triangle at rest that only touch are through each other too; what ends before it or goes by is not.
#[test]
fn borders() {
    let is = |from: [i32; 3], to: [i32; 3]| {
        let rest = |[x, y, z]: [i32; 3]| [x, y, z, x, y, z + 900];
        let places = [[0, 0, 0], [8, 0, 0], [0, 8, 0], from, to, [900, 900, 900]].map(rest).to_vec();
        let (found, _) = pierced(&Mesh::new(places, vec![[0, 1, 2], [3, 4, 5]]), 1);
        found.contains(&Through { edge: 3, triangle: 0 })
    };
    assert!(is([1, 1, 5], [1, 1, -5]), "through");
    assert!(is([1, 1, 5], [1, 1, 0]), "its end is on the face");
    assert!(is([4, 4, 5], [4, 4, -5]), "through a side");
    assert!(is([0, 0, 5], [0, 0, -5]), "through a corner");
    assert!(is([-2, 1, 0], [9, 1, 0]), "in the plane, across");
    assert!(is([1, 1, 0], [2, 2, 0]), "in the plane, within");
    assert!(is([8, 0, 0], [9, 0, 0]), "in the plane, at a corner");
    assert!(!is([1, 1, 5], [1, 1, 1]), "it ends above");
    assert!(!is([5, 5, 5], [5, 5, -5]), "it goes by");
    assert!(!is([5, 5, 0], [9, 9, 0]), "in the plane, beside");
    assert!(!is([-1, -1, 0], [9, -1, 0]), "in the plane, along a side");
}

/// Cloth in loose folds is clean at the start, whatever its motion; in folds that are nearer than their creases it is not. Rows on threads are all rows.
#[test]
fn clean_and_pierced_cloth() {
    for kind in [KINDS[0], KINDS[1]] {
        assert_eq!(pierced(&made(&cloth(kind, 2_000, 5)), 2), (Vec::new(), Pierced::default()), "{}", kind.name);
    }
    let mesh = made(&cloth(KINDS[2], 1_200, 5));
    let (found, told) = pierced(&mesh, 3);
    assert!(told.count > 10 && pierced(&mesh, 1).0 == found, "{told:?}");
    let wanted: Vec<Through> = every(&mesh).filter(|&at| by_volumes(&mesh, at) == Some(true)).collect();
    assert_eq!(found.iter().copied().filter(|&at| by_volumes(&mesh, at).is_some()).collect::<Vec<_>>(), wanted);
    let asked = Judge::new(&mesh).expect("a mesh");
    let parts: Vec<Through> = [0..100, 100..101, 101..asked.edge_rows()]
        .into_iter()
        .flat_map(|rows| asked.pierced(rows, None).expect("decided"))
        .collect();
    assert_eq!(parts, found);
}

fn apart([a, b]: [[f64; 3]; 2]) -> f64 {
    a.into_iter().zip(b).map(|(a, b)| (a - b) * (a - b)).sum::<f64>().sqrt()
}

/// Twice the area of a triangle.
fn area([a, b, c]: [[f64; 3]; 3]) -> f64 {
    let [u, v] = [b, c].map(|end| [0, 1, 2].map(|axis| end[axis] - a[axis]));
    apart([[u[1] * v[2] - u[2] * v[1], u[2] * v[0] - u[0] * v[2], u[0] * v[1] - u[1] * v[0]], [0.0; 3]])
}

/// The place that is told of an edge through a triangle is on both, but for what was cut of it; of an edge in the triangle's plane it is in both boxes.
#[test]
fn where_an_edge_is_through_a_triangle() {
    const CUT: f64 = 2.0 / CONTACT_UNIT as f64;
    let (mut crossing, mut flat) = (0, 0);
    for seed in 0..40 {
        let mesh = strewn(seed);
        let start = |vertex: u32| {
            let [x, y, z, ..] = mesh.positions[vertex as usize].map(f64::from);
            [x, y, z]
        };
        for at in pierced(&mesh, 1).0 {
            let (ends, corners) = (mesh.ends(at.edge).map(start), mesh.corners(at.triangle).map(start));
            let place = of_through(&mesh, at).map(|number| number as f64 / f64::from(CONTACT_UNIT));
            let [a, b] = ends;
            let [c, d, e] = corners;
            if by_volumes(&mesh, at).is_none() {
                let within = |part: &[[f64; 3]], axis: usize| {
                    let along = |from: f64, pick: fn(f64, f64) -> f64| part.iter().map(|place| place[axis]).fold(from, pick);
                    (along(f64::MAX, f64::min) - CUT..=along(f64::MIN, f64::max)).contains(&place[axis])
                };
                assert!((0..3).all(|axis| within(&ends, axis) && within(&corners, axis)), "seed {seed}, {at:?}: {place:?}");
                flat += 1;
                continue;
            }
            assert!(apart([a, place]) + apart([place, b]) <= apart([a, b]) + 4.0 * CUT, "seed {seed}, {at:?}: {place:?}");
            let parts = area([place, c, d]) + area([place, d, e]) + area([place, e, c]);
            let round = apart([c, d]) + apart([d, e]) + apart([e, c]);
            assert!(parts <= area([c, d, e]) + 4.0 * CUT * round, "seed {seed}, {at:?}: {place:?}");
            crossing += 1;
        }
    }
    assert!(crossing > 1_000 && flat > 100, "{crossing} {flat}");
}

/// A frame of cloth and body that are through each other and through themselves: its lines with names and places, what is left out counted, as JSON too.
#[test]
fn what_is_told_of_a_frame() {
    let blade = |x: i32, first: usize, name: &str| {
        format!("o {name}\nv {x} -9 -9\nv {x} 9 -9\nv {x} 0 9\nf {first} {} {}\n", first + 1, first + 2)
    };
    let text = format!("{}{}v -9 -1 0\nv 9 -1 0\nv 0 8 0\nf 7 8 9\n", blade(0, 1, "Coat"), blade(2, 4, "Body"));
    let (mesh, names, grid) = named(&[text.clone(), text], None, false).expect("it is read");
    let choice = Choice::of(&mesh, &names, &["Body".to_string()], &[]);
    let told = |choice: Option<&Choice>, json: bool| {
        let found = Found::of(&Judge::new(&mesh).expect("a mesh"), choice, 2, &mut no_bar()).expect("it is decided");
        let whereabouts = Whereabouts::new(&mesh, names.clone(), grid);
        let (about, chosen) = (about(&mesh), choice.is_some());
        let (mut out, told) = (Vec::new(), Told { mesh: &mesh, about: &about, chosen, whereabouts: Some(&whereabouts) });
        told.write(&found, &Form { json, ..Form::default() }, &mut out).expect("it is written");
        (found, String::from_utf8(out).expect("text"))
    };
    let (all, text) = told(None, false);
    assert!(all.left == 0 && !text.contains("left\t") && text.ends_with(&format!("\ntotal\t{}\n", all.kept.len())), "{text}");
    let (some, text) = told(choice.as_ref(), false);
    assert!(some.left > 0 && some.left as usize + some.kept.len() == all.kept.len(), "{some:?}");
    let ending = format!("names\tCoat\tBody\t{0}\nleft\t{1}\ntotal\t{0}\n", some.kept.len(), some.left);
    assert!(text.ends_with(&ending), "{text}");
    let line = "pierced\t6\t0\t7,8\t1,2,3\tBody\tCoat\t0.0000000\t-1.0000000\t0.0000000\n";
    assert!(text.contains(line), "{text}");
    assert_eq!(some.pierced(), Pierced { count: some.kept.len() as u64, first: some.kept.first().copied() });
    let json = told(choice.as_ref(), true).1;
    let line = "{\"edge\":6,\"triangle\":0,\"vertices\":[[7,8],[1,2,3]],\"names\":[[\"Body\"],[\"Coat\"]],\
                \"place\":[0.0000000,-1.0000000,0.0000000]}";
    assert!(json.contains(line), "{json}");
    let ending = format!(
        "\"names\":[\n{{\"names\":[[\"Coat\"],[\"Body\"]],\"pierced\":{0}}}\n],\n\"left\":{1},\n\"total\":{{\"pierced\":{0}}}}}\n",
        some.kept.len(),
        some.left
    );
    assert!(json.ends_with(&ending), "{json}");
}

#[test]
fn what_is_said_of_a_start() {
    let clean = Pierced::default().words("the start", false);
    assert_eq!(clean, "the start is clean: no edge is through a triangle there");
    let first = Some(Through { edge: 7, triangle: 3 });
    let told = Pierced { count: 2, first }.words("the start", false);
    assert!(
        told.starts_with("the start is pierced: 2 times an edge is through a triangle there, first edge 7 through triangle 3"),
        "{told}"
    );
    let some = Pierced::default().words("the start", true);
    assert_eq!(some, "the start is clean: no edge is through a triangle there, of what is not left out");
}
