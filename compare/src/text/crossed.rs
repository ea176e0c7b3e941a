//! A text for each cell of the table of faults: one number must be given, and another lies in wait.

use crate::numbers::random::Random;
use crate::scene::refusal::*;
use crate::scene::*;
use crate::text::faults::Cell;

const KINDS: [char; 4] = ['v', 'e', 't', 'w'];

/// The lines of a text by kind, vertices first.
type Sections = [Vec<String>; 4];

pub fn text(random: &mut Random, cell: Cell) -> Vec<u8> {
    match cell {
        Cell::Given(TEXT_TOO_LONG) => long(random).concat().concat(),
        Cell::Given(NO_ROOM) => crowded(random).concat().concat(),
        Cell::Given(number) => with_line(random, &[number], &[]),
        Cell::InOneLine(given, other) => with_line(random, &[given, other], &[]),
        Cell::InTwoLines(given, other) => with_line(random, &[given], &[other]),
        Cell::InTheWhole(TEXT_TOO_LONG, NO_ROOM) => crowded_and_long(random).concat().concat(),
        Cell::InTheWhole(TEXT_TOO_LONG, other) => {
            let sections = long(random);
            with_line_in(random, sections, &[other], &[])
        }
        Cell::InTheWhole(given, _) => {
            let sections = crowded(random);
            with_line_in(random, sections, &[given], &[])
        }
    }
    .into_bytes()
}

fn with_line(random: &mut Random, faults: &[u64], later: &[u64]) -> String {
    let sections = few(random);
    with_line_in(random, sections, faults, later)
}

/// The sections with a line that has the faults; and, where some are wanted later, a last line with those.
fn with_line_in(random: &mut Random, mut sections: Sections, faults: &[u64], later: &[u64]) -> String {
    let (kind, last_kind) = (kind_for(random, &sections, faults), kind_for(random, &sections, later));
    let made = sections[0].len();
    for (kind, faults) in [(kind, faults), (last_kind, later)] {
        if faults.contains(&ONE_TOO_MANY) {
            fill(&mut sections, kind);
        }
    }
    let vertices = sections[0].len();
    // in its own section, or in a later one where it is to be out of order; at the end where it is to be one too many
    let section = if faults.contains(&OUT_OF_ORDER) { random.between(kind as i64 + 1, 3) as usize } else { kind };
    let at = match section {
        _ if faults.contains(&ONE_TOO_MANY) => sections[section].len(),
        // behind those that parts go by, so that these keep their numbers
        0 => made,
        // behind those that it may break with
        3 => sections[3].len(),
        _ => 1,
    };
    let line = faulty(random, kind, &sections, vertices, faults);
    sections[section].insert(at, line);
    if !later.is_empty() {
        let vertices = vertices + (kind == 0) as usize;
        let line = faulty(random, last_kind, &sections, vertices, later);
        sections[3].push(line);
    }
    sections.concat().concat()
}

/// A kind that a line with these faults can have.
fn kind_for(random: &mut Random, sections: &Sections, faults: &[u64]) -> usize {
    let no_twins = twins(sections).is_empty() || faults.contains(&NO_SUCH_VERTEX);
    let mut kinds = vec![0, 1, 2, 3];
    kinds.retain(|&kind| {
        faults.iter().all(|&fault| match fault {
            OUT_OF_RANGE => kind == 0,
            NO_SUCH_VERTEX => kind > 0,
            VERTEX_TWICE => kind > 0 && (kind < 3 || !no_twins),
            OUT_OF_ORDER | ONE_TOO_MANY => kind < 3,
            BROKEN_SEAM => kind == 3,
            _ => true,
        })
    });
    random.pick(&kinds)
}

/// Seams of two vertices that stand in one place and in one part, or of which one is sewn to a vertex of the part.
fn twins(sections: &Sections) -> Vec<[usize; 2]> {
    let numbers = |line: &String| -> Vec<usize> { line.split_whitespace().skip(1).filter_map(|n| n.parse().ok()).collect() };
    let seams: Vec<Vec<usize>> = sections[3].iter().map(numbers).collect();
    let stands_for = |v: usize| seams.iter().find(|seam| seam.first() == Some(&v)).and_then(|seam| seam.get(1)).map_or(v, |&j| j);
    let place = |v: usize| sections[0].get(v);
    let mut out = Vec::new();
    for part in sections[1].iter().chain(&sections[2]).map(numbers) {
        let pairs = part.iter().flat_map(|&i| part.iter().map(move |&j| [i, stands_for(j)]));
        out.extend(pairs.filter(|&[i, j]| j < i && stands_for(i) == i && place(i).is_some() && place(i) == place(j)));
    }
    // those that rise first
    let highest = seams.iter().filter_map(|seam| seam.first()).max().copied();
    out.sort_by_key(|&[i, j]| (Some(i) < highest, i, j));
    out
}

/// A seam with a fault that is no matter of form, or with none.
fn faulty_seam(random: &mut Random, sections: &Sections, faults: &[u64]) -> [usize; 2] {
    let sewn = sections[3].len() > 1;
    match (faults.contains(&BROKEN_SEAM), faults.contains(&VERTEX_TWICE)) {
        // the first edge of every text here
        (true, true) => [1, 0],
        // each rule broken alone: j below i, j not replaced, each i once, rising i, the start, the end, both
        (true, false) if sewn => random.pick(&[[7, 7], [7, 12], [11, 4], [5, 3], [4, 0], [8, 2], [9, 2], [10, 2]]),
        (true, false) => random.pick(&[[1, 1], [2, 3], [0, 0], [0, 2]]),
        (false, true) => twins(sections)[0],
        (false, false) => [7, 1],
    }
}

fn faulty(random: &mut Random, kind: usize, sections: &Sections, vertices: usize, faults: &[u64]) -> String {
    let mut fields: Vec<String> = match kind {
        0 => (0..6).map(|_| random.between(-9, 9).to_string()).collect(),
        3 => faulty_seam(random, sections, faults).map(|n| n.to_string()).into(),
        _ => (0..=kind).map(|i| i.to_string()).collect(),
    };
    // a seam's second number that is too large breaks a rule of seams too
    let at = if faults.contains(&BROKEN_SEAM) { 1 } else { random.below(fields.len()) };
    let beside = (at + 1) % fields.len();
    for fault in faults {
        match *fault {
            OUT_OF_RANGE => fields[at] = random.pick(&["524288", "-524288", "999999999"]).into(),
            NO_SUCH_VERTEX => fields[at] = random.pick(&[vertices, vertices + 1, 512, 65_536, 999_999_999]).to_string(),
            VERTEX_TWICE if kind < 3 => fields[beside] = fields[at].clone(),
            _ => {}
        }
    }
    let mut line = format!("{}\t{}\n", KINDS[kind], fields.join("\t"));
    if faults.contains(&BAD_LINE) {
        // where there is another fault, it stays to be seen
        let spoilt: &[&str] = if faults.len() > 1 { &["\t", "\t-0", "\tx"] } else { &["\t", "\t0", " ", "\r", ".", "\t01"] };
        line.insert_str(line.len() - 1, random.pick(spoilt));
    }
    line
}

/// Every section has a line. Vertices 4 and 11 stand where 0 does, 7 and 12 where 1, 5 and 6 where 3, 13 where 2; and 8, 9, 10 nearly where 2 does:
/// at the start, at the end, at neither.
fn few(random: &mut Random) -> Sections {
    let mut places: Vec<[i64; 6]> = (0..4).map(|y| [random.between(-9, 9), y, 0, random.between(-9, 9), 1, y]).collect();
    let [a, b, c, d] = [0, 1, 2, 3].map(|v| places[v]);
    places.extend([a, d, d, b, c, c, c, a, b, c]);
    places[8][5] += 9;
    places[9][1] += 9;
    (places[10][2], places[10][4]) = (1, 2);
    let vertex = |place: &[i64; 6]| format!("v\t{}\n", place.map(|n| n.to_string()).join("\t"));
    // edges with their ends in one place, which no seam may make one; of the first one end is replaced already, at times
    let mut edges = vec!["e\t0\t1\n".to_string(); 1 + random.below(3)];
    edges.extend([random.pick(&["e\t3\t6\n", "e\t6\t5\n"]).to_string(), "e\t13\t2\n".to_string()]);
    let triangles = vec!["t\t0\t1\t2\n".into(); 1 + random.below(3)];
    let seams = vec!["w\t4\t0\n".into(), "w\t5\t3\n".into()];
    [places.iter().map(vertex).collect(), edges, triangles, seams]
}

/// As many lines of a kind as there may be, behind what stands there.
fn fill(sections: &mut Sections, kind: usize) {
    let limit = [VERTEX_LIMIT, EDGE_LIMIT, TRIANGLE_LIMIT, SEAM_LIMIT][kind];
    let line = sections[kind][0].clone();
    let missing = limit.saturating_sub(sections[kind].len());
    sections[kind].extend(vec![line; missing]);
}

/// Over the length that a text may have, with no other fault.
fn long(random: &mut Random) -> Sections {
    let far = COORDINATE_LIMIT;
    let vertex = |i: usize| {
        let x = [far - i as i64, i as i64 - far][i % 2];
        format!("v\t{x}\t{}\t{}\t{x}\t-200001\t-200002\n", 100_000 + random.below(100), -100_000 - random.below(100) as i64)
    };
    let mut vertices: Vec<String> = (0..VERTEX_LIMIT).map(vertex).collect();
    vertices[511] = vertices[3].clone();
    [vertices, vec!["e\t508\t509\n".into(); EDGE_LIMIT - 1], vec!["t\t508\t509\t510\n".into()], vec!["w\t511\t3\n".into()]]
}

/// More listed pairs than the report has room for.
fn crowded(random: &mut Random) -> Sections {
    let points = 33 + random.below(4);
    let vertices = vec!["v\t0\t0\t0\t0\t0\t0\n".to_string(); points + 3];
    [vertices, vec!["e\t0\t1\n".into(), "e\t25\t24\n".into()], vec!["t\t0\t1\t2\n".into(); 96], vec!["w\t20\t3\n".into()]]
}

fn crowded_and_long(random: &mut Random) -> Sections {
    let [_, _, triangles, _] = crowded(random);
    let vertices = vec!["v\t-100000\t-100000\t-100000\t-100000\t-100000\t-100000\n".to_string(); VERTEX_LIMIT];
    [vertices, vec!["e\t510\t511\n".into(); EDGE_LIMIT], triangles, vec![]]
}
