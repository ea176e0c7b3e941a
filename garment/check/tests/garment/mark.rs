//! A marked mesh, parsed back: its places, its colours and its groups.

use garment::clean::Found;
use garment::judge::Judge;
use garment::mark;
use garment::mesh::Mesh;
use garment::obj;
use garment::report::Form;
use garment::rounding::Grid;
use garment::whole::Beside;
use garment_check::cloth::{cloth, KINDS};
use garment_check::dressed::parts;
use garment_check::exact;
use garment_check::ways::{named, no_bar, told};
use makhnodri::{Settled, CONTACT_UNIT};
use std::fs;
use std::path::PathBuf;

/// What the independent program says: the time of the first hit, and of each vertex and each triangle whether it is concerned, 2 by a hit, 1 by a touch.
fn concerned(mesh: &Mesh) -> (u32, Vec<u8>, Vec<u8>) {
    let (scene, mut first) = (exact::scene(mesh), CONTACT_UNIT);
    let (mut vertices, mut triangles) = (vec![0; mesh.positions.len()], vec![0; mesh.triangles.len()]);
    for pair in exact::listed(mesh) {
        let rank = match exact::settled(&scene, pair) {
            Settled::Hit => 2,
            Settled::Touch => 1,
            _ => continue,
        };
        if let Some(contact) = exact::contact(&scene, pair) {
            first = first.min(contact.k.to_string().parse().expect("a time"));
        }
        for part in parts(mesh, pair) {
            part.iter().for_each(|&vertex| vertices[vertex as usize] = rank.max(vertices[vertex as usize]));
            for (triangle, corners) in triangles.iter_mut().zip(&mesh.triangles) {
                if part.iter().all(|vertex| corners.contains(vertex)) {
                    *triangle = rank.max(*triangle);
                }
            }
        }
    }
    (first, vertices, triangles)
}

fn at(mesh: &Mesh, grid: &Grid, vertex: usize, k: u32) -> [f64; 3] {
    let time = f64::from(k) / f64::from(CONTACT_UNIT);
    [0, 1, 2].map(|axis| {
        let [from, to] = [axis, axis + 3].map(|at| f64::from(mesh.positions[vertex][at]));
        (from + (to - from) * time + grid.middle[axis] as f64) * grid.step
    })
}

struct File(PathBuf);

impl File {
    fn new(name: &str) -> File {
        File(std::env::temp_dir().join(format!("garment-mark-{}-{name}", std::process::id())))
    }

    fn name(&self) -> &str {
        self.0.to_str().expect("a name")
    }
}

impl Drop for File {
    fn drop(&mut self) {
        let _ = fs::remove_file(&self.0);
    }
}

const COLOURS: [[u8; 3]; 3] = [[192, 192, 192], [255, 204, 0], [255, 0, 0]];

fn same_places(mesh: &Mesh, grid: &Grid, k: u32, places: &[[f64; 3]]) {
    assert_eq!(places.len(), mesh.positions.len());
    for (vertex, place) in places.iter().enumerate() {
        let near = place.iter().zip(at(mesh, grid, vertex, k)).all(|(one, other)| (one - other).abs() <= 0.0051 * grid.step);
        assert!(near, "vertex {vertex}: {place:?}");
    }
}

fn ply_is_right(mesh: &Mesh, grid: &Grid, text: &str) {
    let (k, vertices, _) = concerned(mesh);
    let (head, body) = text.split_once("end_header\n").expect("a head");
    let counts = [format!("element vertex {}\n", mesh.positions.len()), format!("element face {}\n", mesh.triangles.len())];
    assert!(head.starts_with("ply\nformat ascii 1.0\n") && counts.iter().all(|count| head.contains(count)), "{head}");
    let rows: Vec<Vec<&str>> = body.lines().map(|line| line.split(' ').collect()).collect();
    assert_eq!(rows.len(), mesh.positions.len() + mesh.triangles.len());
    let (of_vertices, of_faces) = rows.split_at(mesh.positions.len());
    let number = |field: &&str| field.parse::<f64>().expect("a number");
    let places: Vec<[f64; 3]> = of_vertices.iter().map(|row| [0, 1, 2].map(|at| number(&row[at]))).collect();
    same_places(mesh, grid, k, &places);
    for (row, rank) in of_vertices.iter().zip(vertices) {
        assert_eq!(row[3..], COLOURS[rank as usize].map(|part| part.to_string()), "{row:?}");
    }
    for (row, corners) in of_faces.iter().zip(&mesh.triangles) {
        assert_eq!(row[..], [3, corners[0], corners[1], corners[2]].map(|number| number.to_string()));
    }
}

fn obj_is_right(mesh: &Mesh, grid: &Grid, text: &str) {
    let (k, vertices, triangles) = concerned(mesh);
    let written = obj::read("marked.obj", text.as_bytes()).expect("it is read again");
    same_places(mesh, grid, k, &written.places);
    let lines = text.lines().filter(|line| line.starts_with("v "));
    for (line, rank) in lines.zip(vertices) {
        let colour: Vec<f64> = line.split(' ').skip(4).map(|field| field.parse().expect("a number")).collect();
        let wanted = COLOURS[rank as usize].map(|part| f64::from(part) / 255.0);
        assert!(colour.len() == 3 && colour.iter().zip(wanted).all(|(one, other)| (one - other).abs() < 0.001), "{line}");
    }
    let groups = ["clear", "touch", "hit"];
    let mut wanted: Vec<(usize, [u32; 3])> =
        triangles.iter().map(|&rank| rank as usize).zip(mesh.triangles.iter().copied()).collect();
    wanted.sort_by_key(|(rank, _)| *rank);
    let found: Vec<(String, [u32; 3])> = written
        .names
        .of_triangles
        .iter()
        .zip(&written.triangles)
        .map(|(&set, &corners)| (written.names.of_set(set).collect(), corners))
        .collect();
    let wanted: Vec<(String, [u32; 3])> = wanted.into_iter().map(|(rank, corners)| (groups[rank].to_string(), corners)).collect();
    assert_eq!(found, wanted);
}

/// The mesh in folds has hits and clear parts; a sheet that slides along another in its plane has touches; one that rests has neither.
#[test]
fn files_parsed_back() {
    let slide = |x: i32| {
        format!("v 0 0 0\nv 4 0 0\nv 0 4 0\nv {} 1 0\nv {} 1 0\nv {} 5 0\nv 90 90 9\nv 91 90 9\nv 90 91 9\nf 1 2 3\nf 4 5 6\nf 7 8 9\n", x, x + 4, x)
    };
    let still = "v 0 0 0\nv 4 0 0\nv 0 4 0\nf 1 2 3\n".to_string();
    let meshes = [("folds", cloth(KINDS[1], 200, 5).objs()), ("slide", [slide(1), slide(2)]), ("still", [still.clone(), still])];
    let mut ranks = [0; 3];
    for (name, texts) in meshes {
        let (mesh, _, grid) = named(&texts, None, false).expect("it is read");
        let beside = Beside { marked: true, ..Beside::default() };
        let marked = told(&mesh, &Form::default(), &beside, 2).1.marked;
        for ending in ["ply", "PLY", "obj"] {
            let file = File::new(&format!("{name}.{ending}"));
            let k = mark::write(file.name(), &mesh, &grid, &marked).expect("it is written");
            assert_eq!(k, concerned(&mesh).0, "{name}");
            let text = fs::read_to_string(&file.0).expect("it is there");
            if ending == "obj" {
                obj_is_right(&mesh, &grid, &text);
            } else {
                ply_is_right(&mesh, &grid, &text);
            }
        }
        concerned(&mesh).2.iter().for_each(|&rank| ranks[rank as usize] += 1);
    }
    println!("faces clear, of touches, of hits: {ranks:?}");
    assert!(ranks.iter().all(|&count| count > 0), "{ranks:?}");
}

/// A frame in tight folds, with every edge that is through a triangle by the independent program: their vertices are red, and each face that is such a
/// triangle or has such an edge is in a group.
#[test]
fn what_is_pierced_is_marked() {
    let text = cloth(KINDS[2], 300, 5).objs()[0].clone();
    let (mesh, _, grid) = named(&[text.clone(), text], None, false).expect("it is read");
    let scene = exact::scene(&mesh);
    let (mut vertices, mut faces) = (vec![false; mesh.positions.len()], vec![false; mesh.triangles.len()]);
    for (at, edge) in mesh.edges.iter().enumerate() {
        for triangle in (0..mesh.triangles.len()).filter(|&triangle| exact::pierced(&scene, at, triangle)) {
            edge.iter().chain(&mesh.triangles[triangle]).for_each(|&vertex| vertices[vertex as usize] = true);
            let has = |corners: &[u32; 3]| edge.iter().all(|end| corners.contains(end));
            faces.iter_mut().zip(&mesh.triangles).for_each(|(face, corners)| *face |= has(corners));
            faces[triangle] = true;
        }
    }
    let found = Found::of(&Judge::new(&mesh).expect("a mesh"), None, 2, &mut no_bar()).expect("it is decided");
    let [obj_file, ply_file] = ["pierced.obj", "pierced.ply"].map(File::new);
    for file in [&obj_file, &ply_file] {
        mark::write_pierced(file.name(), &mesh, &grid, &found.kept).expect("it is written");
    }
    let text = fs::read_to_string(&obj_file.0).expect("it is there");
    let written = obj::read("marked.obj", text.as_bytes()).expect("it is read again");
    same_places(&mesh, &grid, 0, &written.places);
    let red: Vec<bool> =
        text.lines().filter(|line| line.starts_with("v ")).map(|line| line.ends_with(" 1.000 0.000 0.000")).collect();
    assert_eq!(red, vertices);
    let mut groups: Vec<(String, [u32; 3])> = faces
        .iter()
        .zip(&mesh.triangles)
        .map(|(&face, &corners)| (if face { "pierced" } else { "clear" }.to_string(), corners))
        .collect();
    groups.sort_by(|one, other| one.0.cmp(&other.0));
    let sets = written.names.of_triangles.iter().zip(&written.triangles);
    assert_eq!(sets.map(|(&set, &corners)| (written.names.of_set(set).collect(), corners)).collect::<Vec<_>>(), groups);
    let text = fs::read_to_string(&ply_file.0).expect("it is there");
    let (_, body) = text.split_once("end_header\n").expect("a head");
    let red: Vec<bool> = body.lines().take(vertices.len()).map(|line| line.ends_with(" 255 0 0")).collect();
    assert_eq!(red, vertices);
    let count = |all: &[bool]| all.iter().filter(|is| **is).count();
    assert!((10..vertices.len() - 10).contains(&count(&vertices)) && count(&faces) > 10, "{}", count(&vertices));
}

/// Marking changes nothing of a report.
#[test]
fn the_report_is_the_same() {
    let (mesh, ..) = named(&cloth(KINDS[1], 200, 6).objs(), None, false).expect("it is read");
    let marking = Beside { marked: true, ..Beside::default() };
    for form in [Form::default(), Form { json: true, ..Form::default() }, Form { contacts: true, ..Form::default() }] {
        assert_eq!(told(&mesh, &form, &marking, 2).0, told(&mesh, &form, &Beside::default(), 1).0);
    }
}

#[test]
fn a_file_that_cannot_be_written_is_told() {
    let fault =
        mark::write("/no/such/folder/a.ply", &Mesh::default(), &Grid { step: 1.0, middle: [0; 3] }, &[]).expect_err("no folder");
    assert!(fault.words.starts_with("/no/such/folder/a.ply: "), "{fault}");
    for (name, taken) in [("a.ply", true), ("a.OBJ", true), (".ply", false), ("a.stl", false), ("ply", false), ("", false)] {
        assert_eq!(mark::is_taken(name), taken, "{name}");
    }
}
