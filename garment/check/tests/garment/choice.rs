//! Pairs that are left out: each pair of the independent list against the faces of its parts.

use garment::choice::Choice;
use garment::mesh::Mesh;
use garment::pairs::Pair;
use garment::report::Form;
use garment::whereabouts::Whereabouts;
use garment::whole::Beside;
use garment_check::cloth::{cloth, Cloth, KINDS};
use garment_check::dressed::{dressed, parts, vertex_lines, Dressed};
use garment_check::exact;
use garment_check::ways::{named, told};

/// The lines of the pairs that are to be kept, and how many are not.
fn kept(mesh: &Mesh, keeps: impl Fn(Pair) -> bool) -> (String, u64) {
    let (scene, mut left, mut text) = (exact::scene(mesh), 0, String::new());
    for pair in exact::listed(mesh) {
        if keeps(pair) {
            text += &format!("{}\t{}\t{}\t{}\n", pair.kind, pair.first, pair.second, exact::settled(&scene, pair));
        } else {
            left += 1;
        }
    }
    (text, left)
}

fn words(all: &[&str]) -> Vec<String> {
    all.iter().map(|word| word.to_string()).collect()
}

/// How many of the faces of a part have one of the names, and how many it has.
fn counted(dressed: &Dressed, part: &[u32], names: &[&str]) -> (usize, usize) {
    let faces = dressed.of_part(part);
    (faces.iter().filter(|face| names.iter().any(|name| face.contains(*name))).count(), faces.len())
}

fn all_of(dressed: &Dressed, part: &[u32], names: &[&str]) -> bool {
    let (of, all) = counted(dressed, part, names);
    all > 0 && of == all
}

fn some_of(dressed: &Dressed, part: &[u32], name: &str) -> bool {
    counted(dressed, part, &[name]).0 > 0
}

type Two<'a> = [&'a str; 2];

fn is_kept(dressed: &Dressed, mesh: &Mesh, pair: Pair, body: &[&str], between: &[Two]) -> bool {
    let [one, other] = parts(mesh, pair);
    let within = !body.is_empty() && all_of(dressed, &one, body) && all_of(dressed, &other, body);
    let joins = |[a, b]: &Two| {
        let some = |part: &[u32], name: &str| some_of(dressed, part, name);
        (some(&one, a) && some(&other, b)) || (some(&one, b) && some(&other, a))
    };
    !within && (between.is_empty() || between.iter().any(joins))
}

#[test]
fn against_the_faces_of_the_parts() {
    let asked: [(&[&str], &[Two]); 8] = [
        (&["Coat"], &[]),
        // an object and a group of this name
        (&["Body"], &[]),
        (&["Coat", "Button", "lining"], &[]),
        (&[], &[["Coat", "Body"]]),
        (&[], &[["Left sleeve", "Left sleeve"]]),
        (&[], &[["front", "back"], ["Coat", "Button"]]),
        (&["Body"], &[["Coat", "Body"]]),
        (&["Body", "Coat"], &[["Coat", "Body"]]),
    ];
    let (mut all_kept, mut all_left) = (0, 0);
    for seed in 0..3 {
        let dressed = dressed(20 + seed, 220);
        let (mesh, names, _) = named(&dressed.texts, None, false).expect("it is read");
        for (body, between) in asked {
            let choice = Choice::of(&mesh, &names, &words(body), &between.map_two());
            let beside = Beside { choice, ..Beside::default() };
            let (wanted, left) = kept(&mesh, |pair| is_kept(&dressed, &mesh, pair, body, between));
            let (text, told) = told(&mesh, &Form::default(), &beside, 1 + seed as usize);
            let (lines, foot) = text.split_at(text.find("left\t").expect("what is left out is told"));
            assert_eq!(lines, wanted, "{body:?} {between:?}");
            assert!(foot.starts_with(&format!("left\t{left}\ntotal\t{}\t", wanted.lines().count())), "{foot}");
            assert_eq!(told.left, left);
            all_kept += wanted.lines().count();
            all_left += left;
        }
    }
    println!("{all_kept} kept, {all_left} left out");
    assert!(all_kept > 2_000 && all_left > 2_000);
}

trait MapTwo {
    fn map_two(&self) -> Vec<[String; 2]>;
}

impl MapTwo for &[Two<'_>] {
    fn map_two(&self) -> Vec<[String; 2]> {
        self.iter().map(|two| two.map(str::to_string)).collect()
    }
}

/// What stands in the way of a simpler rule: a part is not the body's alone where one of its faces is another's.
#[test]
fn a_part_of_cloth_and_body_is_judged() {
    let dressed = dressed(21, 220);
    let (mesh, _, _) = named(&dressed.texts, None, false).expect("it is read");
    let shared = |pair: &Pair| {
        let [one, other] = parts(&mesh, *pair);
        some_of(&dressed, &one, "Coat") && some_of(&dressed, &other, "Coat") && is_kept(&dressed, &mesh, *pair, &["Coat"], &[])
    };
    assert!(exact::listed(&mesh).iter().filter(|pair| shared(pair)).count() > 20);
}

/// Without a choice all pairs are judged, and no line tells of any left out; contacts and JSON tell it too.
#[test]
fn how_it_is_told() {
    let dressed = dressed(22, 220);
    let (mesh, names, _) = named(&dressed.texts, None, false).expect("it is read");
    assert_eq!(Choice::of(&mesh, &names, &[], &[]), None);
    let plain = told(&mesh, &Form::default(), &Beside::default(), 1).0;
    assert_eq!(plain, exact::report(&mesh));
    let choice = Choice::of(&mesh, &names, &words(&["Coat"]), &[]);
    let beside = Beside { choice, ..Beside::default() };
    for (json, contacts) in [(false, true), (true, false), (true, true)] {
        let (text, told) = told(&mesh, &Form { json, contacts, ..Form::default() }, &beside, 1);
        let line =
            if json { format!("\n\"left\":{},\n\"total\":", told.left) } else { format!("\nleft\t{}\ntotal\t", told.left) };
        assert!(told.left > 20 && text.contains(&line), "{text}");
    }
}

/// The sheet below a cloth, in files of its own: `z` lower, or through it at the end.
fn below(cloth: &Cloth, by: [f64; 2]) -> Cloth {
    let moved = |places: &[[f64; 3]], by: f64| places.iter().map(|[x, y, z]| [*x, *y, z - by]).collect();
    Cloth { start: moved(&cloth.start, by[0]), end: moved(&cloth.end, by[1]), faces: cloth.faces.clone() }
}

fn face_lines(faces: &[Vec<u32>], before: u32) -> String {
    let corners = |face: &Vec<u32>| face.iter().map(|corner| format!(" {}", corner + 1 + before)).collect::<String>();
    faces.iter().map(|face| format!("f{}\n", corners(face))).collect()
}

/// A sheet and a body below it: in four files, and in two.
struct Worn {
    cloth: [String; 2],
    body: [String; 2],
    in_one: [String; 2],
    /// How many vertices are the cloth's.
    count: u32,
}

fn worn() -> Worn {
    let cloth = cloth(KINDS[0], 150, 3);
    let body = below(&cloth, [3.0, -3.0]);
    let count = cloth.start.len() as u32;
    // a vertex without a face is the body's too, as a part of its file
    let skin = |places: &[[f64; 3]]| vertex_lines(places) + "v 20 20 -1\n";
    let of_cloth = "o Coat\n".to_string() + &face_lines(&cloth.faces, 0);
    let of_body = |before: u32| "o Skin\n".to_string() + &face_lines(&body.faces, before);
    let times = [[&cloth.start, &body.start], [&cloth.end, &body.end]];
    Worn {
        cloth: times.map(|[coat, _]| vertex_lines(coat) + &of_cloth),
        body: times.map(|[_, under]| skin(under) + &of_body(0)),
        in_one: times.map(|[coat, under]| vertex_lines(coat) + &skin(under) + &of_cloth + &of_body(count)),
        count,
    }
}

impl Worn {
    fn is_body(&self, part: &[u32]) -> bool {
        part.iter().all(|&vertex| vertex >= self.count)
    }

    /// The vertices of a part as its file numbers them, and its names.
    fn told(&self, part: &[u32]) -> (String, &str) {
        let before = if self.is_body(part) { self.count } else { 0 };
        let names = match part {
            [loose] if *loose == 2 * self.count => "body",
            _ if self.is_body(part) => "body,Skin",
            _ => "Coat",
        };
        (part.iter().map(|vertex| (vertex - before + 1).to_string()).collect::<Vec<_>>().join(","), names)
    }
}

/// A body from files of its own is the body of one file, behind the cloth.
#[test]
fn a_body_from_files_of_its_own() {
    let worn = worn();
    let (mesh, names, grid) = named(&worn.cloth, Some(&worn.body), false).expect("it is read");
    let (same, _, same_grid) = named(&worn.in_one, None, false).expect("it is read");
    assert_eq!((&mesh, grid), (&same, same_grid));
    let (wanted, left) = kept(&mesh, |pair| !parts(&mesh, pair).iter().all(|part| worn.is_body(part)));
    let beside = Beside { choice: Choice::of(&mesh, &names, &[], &[]), ..Beside::default() };
    let text = told(&mesh, &Form::default(), &beside, 2).0;
    assert!(left > 100 && text.starts_with(&format!("{wanted}left\t{left}\ntotal\t")), "{left} left out");
    let between = Choice::of(&mesh, &names, &[], &[["Coat".into(), "body".into()]]).expect("a choice");
    let mixed = |pair: Pair| parts(&mesh, pair).iter().filter(|part| worn.is_body(part)).count() == 1;
    assert!(exact::listed(&mesh).into_iter().all(|pair| between.keeps(pair) == mixed(pair)));
}

/// Its vertices are told as its own files number them, and all of it has the name `body`.
#[test]
fn numbers_and_names_of_its_own_files() {
    let worn = worn();
    let (mesh, names, grid) = named(&worn.cloth, Some(&worn.body), false).expect("it is read");
    let beside = Beside { whereabouts: Some(Whereabouts::new(&mesh, names, grid)), ..Beside::default() };
    let text = told(&mesh, &Form::default(), &beside, 2).0;
    let mut of_body = 0;
    for line in text.lines().filter(|line| line.starts_with("pt") || line.starts_with("ee")) {
        let fields: Vec<&str> = line.split('\t').collect();
        for (part, at) in parts(&mesh, pair_of(&fields)).iter().zip([4, 5]) {
            let (numbers, names) = worn.told(part);
            assert_eq!((fields[at], fields[at + 2]), (&*numbers, names), "{line}");
            of_body += worn.is_body(part) as usize;
        }
    }
    assert!(of_body > 100, "{of_body}");
}

fn pair_of(fields: &[&str]) -> Pair {
    let number = |at: usize| fields[at].parse().expect("a number");
    Pair { kind: garment::pairs::kind_of(fields[0].as_bytes()).expect("a kind"), first: number(1), second: number(2) }
}

/// A fault in a face of the body is told by the body's file and in its numbers.
#[test]
fn a_fault_in_the_bodys_file() {
    let cloth = ["v 0 0 0\nv 4 0 0\nv 0 4 0\nf 1 2 3\n", "v 0 0 1\nv 4 0 1\nv 0 4 1\nf 1 2 3\n"].map(str::to_string);
    let body = ["v 9 9 9\nv 8 8 8\n\nv 9 9 9\nf 1 2 3\n", "v 9 9 9\nv 8 8 8\n\nv 9 9 9\nf 1 2 3\n"].map(str::to_string);
    let fault = named(&cloth, Some(&body), true).expect_err("two corners of a face are sewn").words;
    assert!(fault.starts_with("body-start.obj:5: two corners of this face, vertices 1 and 3 of the file,"), "{fault}");
}
