//! Where a pair is, against the faces, the independent program and the wrapper.

use garment::judging::{contact, Alone};
use garment::mesh::Mesh;
use garment::pairs::{kind_of, Kind, Pair};
use garment::report::Form;
use garment::rounding::Grid;
use garment::whereabouts::Whereabouts;
use garment::whole::Beside;
use garment_check::dressed::{dressed, parts, Dressed};
use garment_check::exact;
use garment_check::ways::{named, told};
use makhnodri::{Contact, Scene};
use std::collections::{BTreeMap, BTreeSet};

fn beside(texts: &[String; 2], sewn: bool) -> (Mesh, Grid, Beside) {
    let (mesh, names, grid) = named(texts, None, sewn).expect("it is read");
    let whereabouts = Some(Whereabouts::new(&mesh, names, grid));
    (mesh, grid, Beside { whereabouts, ..Beside::default() })
}

fn pair_of(fields: &[&str]) -> Pair {
    let number = |at: usize| fields[at].parse().expect("a number");
    Pair { kind: kind_of(fields[0].as_bytes()).expect("a kind"), first: number(1), second: number(2) }
}

/// All names of a part.
fn names_of(dressed: &Dressed, part: &[u32]) -> BTreeSet<String> {
    dressed.of_part(part).into_iter().flatten().cloned().collect()
}

/// A field of names, apart; none of these has a comma.
fn apart(field: &str) -> BTreeSet<String> {
    field.split(',').filter(|&name| name != "-").map(str::to_string).collect()
}

/// Numbers of the grid as the file has them.
fn in_file(grid: &Grid, steps: [f64; 3]) -> [f64; 3] {
    [0, 1, 2].map(|axis| (steps[axis] + grid.middle[axis] as f64) * grid.step)
}

/// Where the wrapper says that it is hit.
fn hit_at(mesh: &Mesh, pair: Pair) -> [f64; 3] {
    let alone = Alone::of(mesh, pair);
    let (scene, first, second) = match pair.kind {
        Kind::PointTriangle => (Scene::new(&alone.positions[..], &[][..], &alone.places[1..]), alone.places[0] as usize, 0),
        Kind::EdgeEdge => (Scene::new(&alone.positions[..], &alone.places[..], &[][..]), 0, 1),
    };
    let hit = contact(mesh, pair).expect("it is asked");
    scene.contact_point(makhnodri::Pair { kind: pair.kind, first, second }, hit).expect("it is hit")
}

/// The middle of what both swept boxes have in common, vertex by vertex.
fn middle_of_boxes(mesh: &Mesh, pair: Pair) -> [f64; 3] {
    let ends = |part: &[u32], axis: usize| {
        let all = part.iter().flat_map(|&vertex| [axis, axis + 3].map(|at| mesh.positions[vertex as usize][at]));
        (all.clone().min().expect("a vertex"), all.max().expect("a vertex"))
    };
    let [one, other] = parts(mesh, pair);
    [0, 1, 2].map(|axis| {
        let ((a, b), (c, d)) = (ends(&one, axis), ends(&other, axis));
        f64::from(a.max(c) + b.min(d)) / 2.0
    })
}

fn near(grid: &Grid, fields: &[&str], wanted: [f64; 3]) -> bool {
    fields
        .iter()
        .zip(in_file(grid, wanted))
        .all(|(field, wanted)| (field.parse::<f64>().expect("a number") - wanted).abs() <= 0.0051 * grid.step)
}

fn from_one(part: &[u32]) -> String {
    part.iter().map(|vertex| (vertex + 1).to_string()).collect::<Vec<_>>().join(",")
}

#[test]
fn behind_words() {
    let (mut hits, mut others, mut several, mut nameless) = (0, 0, 0, 0);
    for seed in 0..4 {
        let dressed = dressed(seed, 260);
        let (mesh, grid, beside) = beside(&dressed.texts, false);
        let (text, _) = told(&mesh, &Form::default(), &beside, 1 + seed as usize);
        let scene = exact::scene(&mesh);
        let plain: Vec<&str> = text.lines().filter(|line| !line.starts_with("names\t")).collect();
        let cut = |line: &&str| {
            line.split('\t').take(if line.starts_with("total") { 6 } else { 4 }).collect::<Vec<_>>().join("\t") + "\n"
        };
        assert_eq!(plain.iter().map(cut).collect::<String>(), exact::report(&mesh), "seed {seed}");
        for line in &plain[..plain.len() - 1] {
            let fields: Vec<&str> = line.split('\t').collect();
            let pair = pair_of(&fields);
            let [one, other] = parts(&mesh, pair);
            assert_eq!((fields.len(), fields[4], fields[5]), (12, &*from_one(&one), &*from_one(&other)), "{line}");
            let wanted = [names_of(&dressed, &one), names_of(&dressed, &other)];
            assert_eq!([apart(fields[6]), apart(fields[7])], wanted, "{line}");
            several += (wanted[0].len() > 2) as usize;
            nameless += wanted[0].is_empty() as usize;
            match exact::contact(&scene, pair) {
                Some(contact) => {
                    assert_eq!(fields[11], contact.k.to_string(), "{line}");
                    assert!(near(&grid, &fields[8..11], hit_at(&mesh, pair)), "{line}");
                    hits += 1;
                }
                None => {
                    assert_eq!(fields[11], "-", "{line}");
                    assert!(near(&grid, &fields[8..11], middle_of_boxes(&mesh, pair)), "{line}");
                    others += 1;
                }
            }
        }
    }
    println!("{hits} hits, {others} others, {several} of several names, {nameless} of none");
    assert!(hits > 50 && others > 500 && several > 100 && nameless > 20);
}

/// Rows of totals: those of the lines, each pair of names once, either way round, and all of them the total.
#[test]
fn totals_by_names() {
    for (seed, contacts) in [(7, false), (8, true)] {
        let dressed = dressed(seed, 260);
        let (mesh, _, beside) = beside(&dressed.texts, false);
        let text = told(&mesh, &Form { contacts, ..Form::default() }, &beside, 2).0;
        let mut wanted: BTreeMap<BTreeSet<BTreeSet<String>>, [u64; 2]> = BTreeMap::new();
        let scene = exact::scene(&mesh);
        for pair in exact::listed(&mesh) {
            let sets = parts(&mesh, pair).map(|part| names_of(&dressed, &part));
            let [listed, hit] = wanted.entry(sets.into_iter().collect()).or_default();
            *listed += 1;
            *hit += exact::contact(&scene, pair).is_some() as u64;
        }
        let mut found = BTreeMap::new();
        let rows: Vec<Vec<&str>> =
            text.lines().filter(|line| line.starts_with("names\t")).map(|line| line.split('\t').collect()).collect();
        for row in &rows {
            assert_eq!(row.len(), if contacts { 5 } else { 8 }, "{row:?}");
            let sets: BTreeSet<BTreeSet<String>> = [apart(row[1]), apart(row[2])].into();
            let counts = [row[3], row[4]].map(|count| count.parse::<u64>().expect("a count"));
            assert_eq!(found.insert(sets, counts), None, "{row:?}");
        }
        assert_eq!(found, wanted);
        assert!(rows.len() > 20, "{}", rows.len());
        let total: Vec<&str> = text.lines().last().expect("a total").split('\t').collect();
        let sum = |at: usize| found.values().map(|counts| counts[at]).sum::<u64>().to_string();
        assert_eq!((total[0], total[1], total[2]), ("total", &*sum(0), &*sum(1)));
    }
}

/// Behind a line of contacts stand the same fields, without the time, which the line has.
#[test]
fn behind_contacts() {
    let dressed = dressed(9, 260);
    let (mesh, _, beside) = beside(&dressed.texts, true);
    let words = told(&mesh, &Form::default(), &beside, 1).0;
    let contacts = told(&mesh, &Form { contacts: true, ..Form::default() }, &beside, 2).0;
    let hits: Vec<Vec<&str>> =
        words.lines().map(|line| line.split('\t').collect()).filter(|fields: &Vec<&str>| fields[3] == "hit").collect();
    let lines: Vec<Vec<&str>> = contacts.lines().map(|line| line.split('\t').collect()).take(hits.len()).collect();
    assert!(!hits.is_empty());
    for (hit, line) in hits.iter().zip(&lines) {
        let length = if line[0] == "pt" { 8 } else { 7 };
        assert_eq!((&hit[..3], hit[11], &hit[4..11]), (&line[..3], line[4], &line[length..]));
    }
}

/// JSON has what the lines have, names apart and as strings of JSON.
#[test]
fn as_json() {
    let text = |z: i32| {
        format!("o a\"b\\c\nv 0 0 0\nv 4 0 0\nv 0 4 0\nf 1 2 3\no Big, bad\ng x \u{1}y\nv 1 1 {z}\nv 9 1 9\nv 1 9 9\nf 4 5 6\n")
    };
    let (mesh, _, mut beside) = beside(&[text(1), text(-1)], false);
    beside.marked = true;
    let json = |contacts: bool| told(&mesh, &Form { json: true, contacts, shown: vec![makhnodri::Settled::Hit] }, &beside, 1);
    let (words, contacts) = (json(false), json(true).0);
    let one = "\"vertices\":[[4],[1,2,3]],\"names\":[[\"Big, bad\",\"x\",\"\\u0001y\"],[\"a\\\"b\\\\c\"]],\"place\":[1.0000000,1.0000000,0.0000000]";
    let line = format!("{{\"kind\":\"pt\",\"first\":3,\"second\":0,\"word\":\"hit\",{one},\"k\":524288}}");
    assert!(words.0.contains(&line), "{}", words.0);
    let line = format!("\"k\":524288,\"shares\":[524288,262144,262144],{one}}}");
    assert!(contacts.contains(&line), "{contacts}");
    let names = "\"names\":[[\"a\\\"b\\\\c\"],[\"Big, bad\",\"x\",\"\\u0001y\"]]";
    assert!(words.0.contains(&format!("\n\"names\":[\n{{{names},\"listed\":")), "{}", words.0);
    assert_eq!(words.1.marked.iter().filter_map(|marked| marked.time).min(), Some(524_288));
    let Ok(Contact::PointHit { k: 524_288, .. }) = contact(&mesh, Pair { kind: Kind::PointTriangle, first: 3, second: 0 }) else {
        panic!("the point is hit half-way")
    };
}
