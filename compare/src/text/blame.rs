//! What is wrong with a text that is refused, in words: the line as it stands, and each thing that could be mended in it.

use crate::scene::refusal::*;
use crate::scene::*;
use crate::text;
use crate::text::faults::place_of;

const KINDS: [(&str, usize); 4] = [("v", 6), ("e", 2), ("t", 3), ("w", 2)];
/// The longest part of a line that is shown, in characters.
const SHOWN: usize = 100;

/// Of a text that the reader refuses.
pub fn in_words(text: &[u8], refusal: Refusal) -> String {
    let mut out = format!("refused\t{}\t{}\n", refusal.number, refusal.third);
    if refusal.number == TEXT_TOO_LONG {
        return out + &format!("the text has {} bytes, and at most {TEXT_LIMIT} are taken\n", text.len());
    }
    let lines: Vec<&[u8]> = text.split_inclusive(|&byte| byte == b'\n').collect();
    let at = refusal.third as usize - 1;
    let (line, above) = (lines[at], &lines[..at]);
    let shown: String = String::from_utf8_lossy(line).chars().take(SHOWN).collect();
    out += &format!("line {}, with \\t for a tab and \\n for LF: {shown:?}\n", refusal.third);
    for reason in reasons(line, above, refusal.number) {
        out += &format!("  {reason}\n");
    }
    out
}

/// The records of a kind in lines that are of the form.
fn count(lines: &[&[u8]], kind: usize) -> usize {
    lines.iter().filter(|line| place_of(line[0]) == Some(kind)).count()
}

fn reasons(line: &[u8], above: &[&[u8]], number: u64) -> Vec<String> {
    if number == BAD_LINE {
        return of_form(line);
    }
    let kind = place_of(line[0]).expect("a line of the form");
    let fields: Vec<i64> = fields(&line[..line.len() - 1]).into_iter().filter_map(text::coordinate).collect();
    let (name, vertices) = (KINDS[kind].0, count(above, 0));
    match number {
        OUT_OF_ORDER => {
            let later = |(_, line): &(usize, &&[u8])| place_of(line[0]) > Some(kind);
            let (at, line) = above.iter().enumerate().find(later).expect("a line of a later kind");
            vec![format!(
                "a {name} line below line {}, which is {}: all v come first, then all e, then all t, then all w",
                at + 1,
                line[0] as char
            )]
        }
        ONE_TOO_MANY => {
            let limit = [VERTEX_LIMIT, EDGE_LIMIT, TRIANGLE_LIMIT, SEAM_LIMIT][kind];
            vec![format!("{limit} {name} lines stand above, and there may be {limit}")]
        }
        OUT_OF_RANGE => {
            let far = fields.iter().filter(|&&n| !in_range(n));
            far.map(|n| format!("{n}: a coordinate goes from -{COORDINATE_LIMIT} to {COORDINATE_LIMIT}")).collect()
        }
        NO_SUCH_VERTEX if vertices == 0 => vec!["no v line stands above, so there is no vertex yet".into()],
        NO_SUCH_VERTEX => {
            let unknown = fields.iter().filter(|&&n| n >= vertices as i64);
            unknown.map(|n| format!("there is no vertex {n}: the v lines above are vertices 0 to {}", vertices - 1)).collect()
        }
        BROKEN_SEAM => of_seam(&taken(above), seam(&fields)),
        _ if kind == 3 => {
            let (mut scene, [i, j]) = (taken(above), seam(&fields));
            scene.seams.push([i, j]);
            let part = scene.parts().find(|part| scene.any_twice(part)).expect("a part with a vertex twice");
            let part: Vec<String> = part.iter().map(|v| v.to_string()).collect();
            vec![format!("vertex {i} then stands for {j}, and the edge or triangle {} has one vertex twice", part.join(" "))]
        }
        _ => {
            let twice = (1..fields.len()).find(|&i| fields[..i].contains(&fields[i])).expect("a vertex that stands twice");
            vec![format!("vertex {} stands twice", fields[twice])]
        }
    }
}

fn seam(fields: &[i64]) -> [usize; 2] {
    [0, 1].map(|place| fields[place] as usize)
}

/// The scene of lines that have no fault.
fn taken(lines: &[&[u8]]) -> Scene {
    let mut scene = Scene::default();
    for line in lines {
        text::take(&mut scene, &line[..line.len() - 1]).expect("a line without a fault");
    }
    scene
}

/// Every rule that a seam breaks.
fn of_seam(scene: &Scene, [i, j]: [usize; 2]) -> Vec<String> {
    let mut out = Vec::new();
    if let Some([above, _]) = scene.seams.last().filter(|above| above[0] >= i) {
        out.push(format!("a seam of vertex {above} stands above: they stand in rising order of their first number, each once"));
    }
    if j >= i {
        out.push(format!("vertex {i} cannot stand for {j}: it stands for one of a lower number"));
    }
    if scene.stands_for(j) != j {
        out.push(format!("vertex {j} is replaced itself, and stands for {}", scene.stands_for(j)));
    }
    for (when, from) in [("start", 0), ("end", 3)] {
        let place = |v: usize| &scene.vertices[v][from..from + 3];
        if place(i) != place(j) {
            out.push(format!("at the {when} vertex {i} is at {:?} and vertex {j} at {:?}", place(i), place(j)));
        }
    }
    out
}

fn fields(line: &[u8]) -> Vec<&[u8]> {
    line.split(|&byte| byte == b'\t').skip(1).collect()
}

/// Why a line is not of the form: all that can be seen, the marks of other programs first.
fn of_form(line: &[u8]) -> Vec<String> {
    let mut out: Vec<String> = Vec::new();
    let (mut body, ended) = (line.strip_suffix(b"\n").unwrap_or(line), line.ends_with(b"\n"));
    if let Some(rest) = body.strip_prefix(b"\xef\xbb\xbf") {
        out.push("a byte-order mark stands in front: save the file without one".into());
        body = rest;
    }
    if let Some(rest) = body.strip_suffix(b"\r") {
        out.push("a CR stands before the end of the line: end lines with LF alone".into());
        body = rest;
    }
    if !ended {
        out.push("the last line has no LF behind it: every line ends with one".into());
    }
    if body.is_empty() && ended && out.is_empty() {
        out.push("the line is empty".into());
    }
    if !body.is_empty() {
        out.extend(of_body(body));
    }
    out
}

/// Without what other programs put before and behind.
fn of_body(body: &[u8]) -> Vec<String> {
    if body[0] == b'#' {
        return vec!["there are no comments".into()];
    }
    if body.contains(&b' ') && !body.contains(&b'\t') {
        return vec!["spaces part the fields: one tab goes between two".into()];
    }
    let name = body.split(|&byte| byte == b'\t').next().unwrap();
    let Some(&(name, wanted)) = KINDS.iter().find(|(kind, _)| kind.as_bytes() == name) else {
        return vec![format!(
            "it begins with {:?}, where a record begins with v, e, t or w and a tab",
            String::from_utf8_lossy(name)
        )];
    };
    let fields = fields(body);
    let mut out: Vec<String> = fields.iter().enumerate().filter_map(|(i, field)| of_field(i + 1, field, name == "v")).collect();
    if fields.len() != wanted {
        out.push(format!("{name} takes {wanted} numbers, and here are {}", fields.len()));
    }
    out
}

/// Nothing for a number of the form.
fn of_field(turn: usize, field: &[u8], signed: bool) -> Option<String> {
    let shown = String::from_utf8_lossy(field);
    let (minus, digits) = field.strip_prefix(b"-").map_or((false, field), |rest| (true, rest));
    let all_digits = digits.iter().all(u8::is_ascii_digit);
    let why = if field.is_empty() {
        "is empty: one tab goes between two numbers, and none at the end"
    } else if digits.contains(&b'.') || digits.contains(&b',') {
        "has a decimal point: numbers are whole (docs/FORMAT.md tells how to come from floating point)"
    } else if field.contains(&b' ') {
        "has a space"
    } else if field[0] == b'+' {
        "has a plus"
    } else if digits.is_empty() || !all_digits {
        "is no whole number in digits"
    } else if minus && !signed {
        "has a minus, and a vertex number has none"
    } else if minus && digits == b"0" {
        "is 0 with a minus: write 0"
    } else if digits.len() > 1 && digits[0] == b'0' {
        "has a 0 in front"
    } else if digits.len() > 9 {
        "has more than nine digits"
    } else {
        return None;
    };
    Some(format!("number {turn}, {shown:?}, {why}"))
}
