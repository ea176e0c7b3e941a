//! Pairs of files: those of the proved reader's own cases, a pair for each fault and each two at once, meshes from seeds in every spelling of their
//! numbers, and the same damaged.

use super::faults::{alone, fine, in_one_line, in_two_lines, with_two};
use super::*;
use crate::making::generate;
use crate::making::kept;
use crate::numbers::random::Random;

#[derive(Clone, Debug)]
pub struct Trial {
    pub name: String,
    pub start: Vec<u8>,
    pub end: Vec<u8>,
}

fn trial(name: impl Into<String>, start: impl Into<Vec<u8>>, end: impl Into<Vec<u8>>) -> Trial {
    Trial { name: name.into(), start: start.into(), end: end.into() }
}

fn same(name: &str, file: &str) -> Trial {
    trial(name, file, file)
}

const THREE: &str = "v 0 0 0\nv 1 0 0\nv 0 1 0\nf 1 2 3\n";
const TWO_FACES: &str = "# two faces\nv 0 0 0\nv 1 0 0\nv 0 1 0\n\nvn 0 0 1\nv 1 1 -0.00\nvt 0 0\nf 1 2 3\nf 3 2 4\n";
const THEIR_END: &str = "v 0 0 0.5\nv 1 0 0.05\nv 0 1 -0.5\nv 01.00 1.0 5\nf 1 2 3\nf 3 2 4\n";

/// The pairs whose answers were written by hand, under the names that they have in bindings/tests/cases/imports.told. Their lengths are
/// numbers of their own, so that a limit that moves is told.
pub fn cases() -> Vec<Trial> {
    let feeds = |count: usize| "\n".repeat(count);
    let mut out = vec![
        same("nothing", ""),
        same("skipped lines", "\n#\nvt 1\nvn \n"),
        same("two fields", "v 0 0\n"),
        same("four fields", "v 0 0 0 0\n"),
        same("two blanks", "v 0  0 0\n"),
        same("a blank at the end", "v 0 0 0 \n"),
        same("tabs", "v\t0\t0\t0\n"),
        same("CR", "v 0 0 0\r\n"),
        same("no LF", "\n# a"),
        same("vt without a blank", "vt\n"),
        same("o", "o a\n"),
        same("slashes", "v 0 0 0\nf 1/1 1/1 1/1\n"),
        same("minus nothing", "v -0 -0.0 -0.00\n"),
        same("zeros in front", "v 000000001 01.0 00.10\n"),
        same("ten digits", "v 0000000001 0 0\n"),
        same("three behind the point", "v 0.000 0 0\n"),
        same("nothing behind the point", "v 1. 0 0\n"),
        same("nothing before the point", "v .5 0 0\n"),
        same("plus", "v +1 0 0\n"),
        same("an exponent", "v 1e2 0 0\n"),
        same("the largest", "v 5242.87 -5242.87 0\n"),
        same("beyond", "\nv 5242.88 0 0\n"),
        same("far beyond", "v 0 0 999999999.99\n"),
        same("vertex 0", "v 0 0 0\nf 0 1 1\n"),
        same("vertex 01", "v 0 0 0\nf 01 1 1\n"),
        same("3 before 4", "v 0 0 0\nf 1 1 2\n"),
        same("4", "v 0 0 0\nv 0 0 0\nf 1 2 1\n"),
        same("10 before 2", "v 0 0 0\nv 1 0 0\nv 0 1 0\nf 1 2 3\n\nv 9999 0 0\n"),
    ];
    out.extend([
        trial("two files", TWO_FACES, THEIR_END),
        trial("the start file first", "\n\nx\n", "x\n"),
        trial("the end file", THREE, "# a\nv 0 0\n"),
        trial("a fault before 14", THREE, "v 0 0 0\nf 1 1 1\n"),
        trial("vertex counts", THREE, "v 0 0 0\n"),
        trial("a face fewer", TWO_FACES, THREE),
        trial("a face turned", THREE, THREE.replace("f 1 2 3", "f 2 3 1")),
        same("as long as may be", &feeds(32_768)),
        trial("a long start", feeds(32_769), "x\n"),
        trial("a long end", "x\n", feeds(32_769)),
        same("both long", &feeds(32_769)),
    ]);
    out
}

/// Numbers and lines at an edge of the rules, each beside a file that has what it needs.
fn edges_of_the_rules() -> Vec<Trial> {
    let mut out = Vec::new();
    let numbers = [
        "0", "-0", "0.0", "-0.00", "00", "000000000", "0000000000", "-000000000.00", "0.5", "0.05", "0.50", "-0.5", "1.15",
        "0.29", "-0.29", "2.3", "5242.87", "-5242.87", "5242.88", "-5242.88", "5242.870", "999999999", "-999999999.99",
        "1000000000", "99999999999", "1.", ".5", "-.5", "-", "--1", "+1", "1e2", "1E-2", "0x1", "1,5", "1.2.3", "1.-2", "nan",
        "inf", "", "1\t", "٣", "1_0",
    ];
    out.extend(numbers.map(|number| same("a number", &format!("v {number} 1 2\nv 1 {number} 2\nv 1 2 {number}\nf 1 2 3\n"))));
    let behind = ["0", "00", "01", "1", "3", "4", "-1", "+1", "1.0", "999999999", "1000000000", "1/1", "1//1", "1/1/1", "", "x"];
    out.extend(behind.map(|corner| same("a corner", &format!("{THREE}f 1 2 {corner}\n"))));
    let lines = [
        "v", "v ", "v 0", "v 0 0 0 1", " v 0 0 0", "V 0 0 0", "vt", "vt ", "vtx", "vn", "vn ", "vn 0 0 1\r", "vp 0 0", "#",
        "# \u{e9}", " #", "", " ", "\r", "\t", "f", "f 1 2", "f 1 2 3 1", "f  1 2 3", "f 1 2 3 ", "f\t1\t2\t3", "F 1 2 3",
        "f 1/1 2/2 3/3", "f 1//1 2//2 3//3", "f -3 -2 -1", "o cloth", "g sleeve", "s off", "s 1", "usemtl wool",
        "mtllib wool.mtl", "l 1 2", "p 1", "v 1.5e-3 0 0", "v 0.125 0 0", "\u{feff}# a", "x", "fo 1 2 3", "v\u{a0}0 0 0",
        "e 1 2", "t 0 1 2", "w 1 0",
    ];
    for line in lines {
        out.push(same("a line above", &format!("{line}\n{THREE}")));
        out.push(trial("a line below, in the end file", THREE, format!("{THREE}{line}\n")));
        out.push(trial("a last line without LF", format!("{THREE}{line}"), THREE));
    }
    out.push(same("a vertex below", "v 0 0 0\nv 1 0 0\nf 1 2 3\nv 0 1 0\n"));
    out
}

/// A pair for each cell of the table.
fn for_cells() -> Vec<Trial> {
    let mut out = Vec::new();
    let mut beside = |name: String, text: String| {
        out.push(trial(format!("{name} in the start file"), text.clone(), fine()));
        out.push(trial(format!("{name} in the end file"), fine(), text.clone()));
        out.push(trial(format!("{name} in both"), text.clone(), text));
    };
    for fault in FAULTS {
        beside(format!("{fault:?}"), alone(fault));
        FAULTS.iter().for_each(|&other| beside(format!("{fault:?}, later {other:?}"), in_two_lines(fault, other)));
    }
    in_one_line().into_iter().for_each(|pair| beside(format!("{pair:?} in one line"), with_two(pair)));
    for fault in FAULTS {
        let both = |other: Fault| trial(format!("{fault:?}, then {other:?}"), alone(fault), alone(other));
        out.extend(FAULTS.map(both));
    }
    let long = |text: &str| {
        let mut text = text.as_bytes().to_vec();
        text.resize(TEXT_LIMIT + 1, b'\n');
        text
    };
    out.push(trial("a long start file", long(&fine()), fine()));
    out.push(trial("a long end file", fine(), long(&fine())));
    out.push(trial("both long, and at fault", long("x\n"), long("x\n")));
    out.push(trial("a long start file beside a fault", long(&fine()), "x\n"));
    out.push(trial("a long end file beside a fault", "x\n", long(&fine())));
    out.push(trial("a long start file at fault", long("x\n"), fine()));
    out.push(trial("a long end file at fault", fine(), long("x\n")));
    out.extend(differing());
    out.extend(large());
    out
}

fn mesh_text(vertices: usize, faces: &[[usize; 3]]) -> String {
    let vertices: String = (0..vertices).map(|i| format!("v {} {} 0\n", i % 7, i / 7)).collect();
    vertices + &faces.iter().map(|[a, b, c]| format!("f {a} {b} {c}\n")).collect::<String>()
}

/// Files that differ in one respect.
fn differing() -> Vec<Trial> {
    let (faces, text) = ([[1, 2, 3], [2, 4, 3], [5, 6, 7]], mesh_text(8, &[[1, 2, 3], [2, 4, 3], [5, 6, 7]]));
    let with = |place: usize, face: [usize; 3]| {
        let mut other = faces;
        other[place] = face;
        mesh_text(8, &other)
    };
    let mut others = vec![mesh_text(7, &faces), mesh_text(9, &faces), mesh_text(8, &faces[..2])];
    others.extend([with(0, [2, 3, 1]), with(2, [7, 5, 6]), with(0, [1, 3, 2]), with(1, [3, 4, 2]), with(2, [5, 6, 8])]);
    others.push(mesh_text(8, &[faces[1], faces[0], faces[2]]));
    others.push(mesh_text(8, &[faces[0], faces[2], faces[1]]));
    others.push(mesh_text(8, &[faces[0], faces[1], faces[2], faces[2]]));
    let both = |other: String| {
        [trial("files that differ", text.clone(), other.clone()), trial("and the other way", other, text.clone())]
    };
    others.into_iter().flat_map(both).collect()
}

/// More pairs than a report has room for, and a scene whose text is too long; each beside a file that differs too.
fn large() -> Vec<Trial> {
    let strip = |faces: usize| (0..faces).map(|i| format!("f {} {} {}\n", i + 1, i + 2, i + 3)).collect::<String>();
    let crowd = "v 1 2.5 -3\n".repeat(90) + &strip(88);
    let far = |minus: &str| {
        let vertices: String =
            (0..VERTEX_LIMIT).map(|i| format!("v {minus}4{:03} {minus}5{:03}.5 {minus}1\n", i, i % 200)).collect();
        vertices + &strip(500)
    };
    let most = |text: String| {
        let rest = TEXT_LIMIT - text.len();
        format!("{text}#{}\n", "x".repeat(rest - 2))
    };
    vec![
        same("a crowd", &crowd),
        trial("a crowd that differs", crowd.clone(), format!("{crowd}f 1 2 3\n")),
        trial("a long scene", far("-"), far("")),
        trial("a long scene that differs", far("-"), format!("{}f 1 2 4\n", far(""))),
        trial("as long as files may be", most(TWO_FACES.into()), most(THEIR_END.into())),
    ]
}

/// The pairs in scenes/obj, by name; each start file has an end file beside it.
pub fn kept_pairs() -> Vec<Trial> {
    let folder = kept::folder().join("obj");
    let entries = std::fs::read_dir(&folder).unwrap_or_else(|error| panic!("{}: {error}", folder.display()));
    let names = entries.map(|entry| entry.unwrap().file_name().into_string().unwrap());
    let mut names: Vec<String> = names.filter_map(|name| Some(name.strip_suffix("-start.obj")?.to_string())).collect();
    names.sort();
    let read = |name: &str, end: &str| std::fs::read(folder.join(format!("{name}-{end}.obj"))).unwrap();
    names.iter().map(|name| trial(name.as_str(), read(name, "start"), read(name, "end"))).collect()
}

pub fn fixed() -> Vec<Trial> {
    let mut out = cases();
    out.extend(kept_pairs());
    out.extend(edges_of_the_rules());
    out.extend(for_cells());
    out
}

/// A number of hundredths in one of its spellings.
fn spelt(random: &mut Random, n: i64) -> String {
    let (whole, part) = (n.abs() / 100, n.abs() % 100);
    let minus = if n < 0 || (n == 0 && random.chance(3)) { "-" } else { "" };
    let whole = whole.to_string();
    let zeros = if random.chance(4) { random.below(10 - whole.len()) } else { 0 };
    let part = match (part, random.below(3)) {
        (0, 0) => String::new(),
        (0, 1) => ".0".into(),
        (_, 1 | 2) if part % 10 == 0 && part > 0 => format!(".{}", part / 10),
        _ => format!(".{part:02}"),
    };
    format!("{minus}{}{whole}{part}", "0".repeat(zeros))
}

const SKIPPED: [&str; 8] = ["", "#", "# a comment", "vt 0.5 0.25", "vn 0.0 0.0 1.0", "vt ", "#v 1 2 3", "vn nonsense\r"];

/// A file of this mesh, with lines between that are skipped.
fn written(random: &mut Random, places: &[[i64; 3]], faces: &[[usize; 3]]) -> String {
    let mut out = String::new();
    let often = random.pick(&[3, 12, 1_000]);
    let mut add = |random: &mut Random, line: String| {
        if random.chance(often) {
            out.push_str(&format!("{}\n", random.pick(&SKIPPED)));
        }
        out.push_str(&line);
    };
    for place in places {
        let [x, y, z] = place.map(|n| spelt(random, n));
        add(random, format!("v {x} {y} {z}\n"));
    }
    for face in faces {
        let [a, b, c] = face.map(|corner| corner + 1);
        add(random, format!("f {a} {b} {c}\n"));
    }
    out
}

/// Something that a reader may overlook, in one of the lines or in the whole.
pub fn damaged(random: &mut Random, text: &str) -> Vec<u8> {
    let mut lines: Vec<Vec<u8>> = text.split_inclusive('\n').map(|line| line.as_bytes().to_vec()).collect();
    for _ in 0..random.pick(&[1, 1, 2]) {
        if lines.is_empty() {
            lines.push(b"v 0 0 0\n".to_vec());
        }
        let at = random.below(lines.len());
        match random.below(4) {
            0 => damage_lines(random, &mut lines, at),
            1 => damage_bytes(random, &mut lines[at]),
            _ => damage_field(random, &mut lines[at]),
        }
    }
    let mut out = lines.concat();
    match random.below(16) {
        0 => out.truncate(random.below(out.len() + 1)),
        1 => drop(out.pop()),
        2 => out.splice(0..0, *b"\xef\xbb\xbf").for_each(drop),
        _ => {}
    }
    out
}

fn damage_lines(random: &mut Random, lines: &mut Vec<Vec<u8>>, at: usize) {
    let other = random.below(lines.len());
    match random.below(7) {
        0 => lines.swap(at, other),
        1 => lines.insert(other, lines[at].clone()),
        2 => drop(lines.remove(at)),
        3 => lines.insert(at, format!("{}\n", random.pick(&SKIPPED)).into_bytes()),
        4 => lines[at] = random.pick(&["f 1 1 2\n", "f 1 2 3\n", "v 0 0 0\n", "f 3 2 1\n", "o a\n"]).into(),
        5 => lines.insert(at, random.pick(&["f 1 2 600\n", "v 6000 0 0\n", "x\n", "\r\n"]).into()),
        _ => {
            let line = lines[at].clone();
            lines.splice(at..at, std::iter::repeat_n(line, random.pick(&[511, 512, 513])));
        }
    }
}

fn damage_bytes(random: &mut Random, line: &mut Vec<u8>) {
    if line.is_empty() {
        return;
    }
    let at = random.below(line.len());
    match random.below(5) {
        0 => line[at] ^= 1 << random.below(8),
        1 => line[at] = random.next() as u8,
        2 => drop(line.remove(at)),
        3 => line.insert(at, random.pick(b"\t\n\r\0 -.0/#vf\xff")),
        _ => drop(line.pop()),
    }
}

fn damage_field(random: &mut Random, line: &mut Vec<u8>) {
    let ended = line.last() == Some(&b'\n');
    let body = if ended { &line[..line.len() - 1] } else { &line[..] };
    let mut fields: Vec<Vec<u8>> = body.split(|&byte| byte == b' ').map(<[u8]>::to_vec).collect();
    let at = random.below(fields.len());
    match random.below(8) {
        0 => fields[at] = random.pick(&["-0.00", "0.5", "01", "0", "1", "2", "600", "5242.88", "0.000", "1e3", "-1"]).into(),
        1 => fields[at].insert(0, random.pick(b"-0+1")),
        2 => fields[at].extend_from_slice(random.pick(&[b".5", b".0", b"/1", b"00"])),
        3 => drop(fields.remove(at)),
        4 => fields.insert(at, fields[at].clone()),
        5 => {
            let other = random.below(fields.len());
            fields.swap(at, other);
        }
        6 => fields[at] = fields[random.below(fields.len())].clone(),
        _ => fields[0] = random.pick(&["v", "f", "vt", "vn", "V", "F", "fv", ""]).into(),
    }
    *line = fields.join(&b' ');
    if ended {
        line.push(b'\n');
    }
}

/// The faces in another order, a face begun at another corner or turned over, one more or fewer, a vertex more or fewer.
fn changed(random: &mut Random, places: &mut Vec<[i64; 3]>, faces: &mut Vec<[usize; 3]>) {
    if faces.is_empty() || random.chance(6) {
        places.push([0; 3]);
        return;
    }
    let (at, other) = (random.below(faces.len()), random.below(faces.len()));
    match random.below(6) {
        0 => faces.swap(at, other),
        1 => faces[at].rotate_left(1),
        2 => faces[at].swap(0, 2),
        3 => drop(faces.remove(at)),
        4 => faces.push(faces[at]),
        _ => faces[at][random.below(3)] = random.below(places.len()),
    }
}

/// The mesh of a scene from a seed, as two files; the same with each file damaged, with both, and with a mesh that differs.
pub fn seeded(seed: u64) -> Vec<Trial> {
    let mut random = Random::new(seed ^ 0x0b1);
    let scene = generate::scene(seed);
    let [mut starts, mut ends] =
        [0, 3].map(|from| scene.vertices.iter().map(|v| [v[from], v[from + 1], v[from + 2]]).collect::<Vec<[i64; 3]>>());
    // sides of a face in a later one, which most meshes have
    let mut faces = scene.triangles;
    for place in 1..faces.len() {
        let [a, b, c] = faces[place - 1];
        let third = faces[place].into_iter().find(|corner| ![a, b, c].contains(corner));
        if let (Some(third), true) = (third, random.chance(2)) {
            faces[place] = random.pick(&[[b, a, third], [third, c, b], [a, third, b], [c, a, third]]);
        }
    }
    if random.chance(2) {
        let mut mesh = Mesh::default();
        faces.retain(|face| {
            let fits = mesh.edges.len() + mesh.new_edges(*face, Wrong::Nothing).len() <= EDGE_LIMIT;
            if fits {
                mesh.add(Line::Face(face.map(|corner| corner + 1)), Wrong::Nothing);
            }
            fits
        });
    }
    let (start, end) = (written(&mut random, &starts, &faces), written(&mut random, &ends, &faces));
    let mut out = vec![trial(format!("seed {seed}"), start.clone(), end.clone())];
    out.push(trial(format!("seed {seed}, start damaged"), damaged(&mut random, &start), end.clone()));
    out.push(trial(format!("seed {seed}, end damaged"), start.clone(), damaged(&mut random, &end)));
    let [first, second] = [&start, &end].map(|text| damaged(&mut random, text));
    out.push(trial(format!("seed {seed}, both damaged"), first, second));
    let mut others = faces.clone();
    let other_places = if random.chance(2) { &mut starts } else { &mut ends };
    changed(&mut random, other_places, &mut others);
    let other = written(&mut random, other_places, &others);
    out.push(if random.chance(2) {
        trial(format!("seed {seed}, another mesh at the end"), start, other)
    } else {
        trial(format!("seed {seed}, another mesh at the start"), other, end)
    });
    out
}
