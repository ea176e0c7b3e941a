//! What is wrong with two OBJ files that are refused, in words: the line as it stands, what could be mended in it, and what mends it.

use super::{decimal, import, read, File, Line, Mesh, Refused, Wrong};
use crate::scene::refusal::*;
use crate::scene::*;

/// The longest part of a line that is shown, in characters.
const SHOWN: usize = 100;

/// Of two files that are refused; nothing where they are not.
pub fn in_words(start: &[u8], end: &[u8]) -> Option<String> {
    let Refused { number, third, file } = import(start, end).err()?;
    let Some(file) = file else {
        return Some(format!("refused\t{number}\t{third}\n{}\n", of_both(start, end)));
    };
    let text = if file == File::Start { start } else { end };
    let mut out = format!("refused\t{number}\t{third}\t{}\n", file.word());
    if number == TEXT_TOO_LONG {
        return Some(out + &format!("the {} file has {} bytes, and at most {TEXT_LIMIT} are taken\n", file.word(), text.len()));
    }
    let lines: Vec<&[u8]> = text.split_inclusive(|&byte| byte == b'\n').collect();
    let at = third as usize - 1;
    let shown: String = String::from_utf8_lossy(lines[at]).chars().take(SHOWN).collect();
    out += &format!("line {third} of the {} file, with \\n for LF: {shown:?}\n", file.word());
    for reason in reasons(lines[at], &lines[..at].concat(), number) {
        out += &format!("  {reason}\n");
    }
    Some(out)
}

/// Files that are each as they must be, and do not belong together.
fn of_both(start: &[u8], end: &[u8]) -> String {
    let [first, second] = [start, end].map(|text| read(text, Wrong::Nothing).expect("a file without a fault"));
    let (vertices, faces) = ([&first, &second].map(|mesh| mesh.places.len()), [&first, &second].map(|mesh| mesh.faces.len()));
    if vertices[0] != vertices[1] {
        return format!("the start file has {} vertices, and the end file {}", vertices[0], vertices[1]);
    }
    let one = |face: [usize; 3]| face.map(|corner| (corner + 1).to_string()).join(" ");
    match first.faces.iter().zip(&second.faces).position(|(a, b)| a != b) {
        Some(at) => format!(
            "face {} is {} in the start file, and {} in the end file: faces are compared as they are written",
            at + 1,
            one(first.faces[at]),
            one(second.faces[at])
        ),
        None => format!("the start file has {} faces, and the end file {}", faces[0], faces[1]),
    }
}

fn reasons(line: &[u8], above: &[u8], number: u64) -> Vec<String> {
    if number == BAD_LINE {
        return of_form(line);
    }
    let mesh = read(above, Wrong::Nothing).expect("the lines above have no fault");
    match super::line(line.strip_suffix(b"\n").unwrap_or(line), Wrong::Nothing).expect("a line of the form") {
        Line::Skipped => Vec::new(),
        Line::Vertex(_) => of_vertex(line, &mesh, number),
        Line::Face(corners) => of_face(corners, &mesh, number),
    }
}

fn of_vertex(line: &[u8], mesh: &Mesh, number: u64) -> Vec<String> {
    match number {
        OUT_OF_ORDER => vec![format!("a v line below {} f lines: all v come first; {PLAIN} puts them there", mesh.faces.len())],
        ONE_TOO_MANY => vec![format!("{VERTEX_LIMIT} v lines stand above, and there may be {VERTEX_LIMIT}; {GARMENT}")],
        _ => {
            let far = |field: &&[u8]| decimal(field, Wrong::Nothing).is_some_and(|hundredths| !in_range(hundredths));
            let fields = line.strip_suffix(b"\n").unwrap_or(line).split(|&byte| byte == b' ');
            let words =
                "a coordinate goes from -5242.87 to 5242.87; examples/obj/plain --times a smaller number brings it nearer";
            fields.filter(far).map(|field| format!("{}: {words}", String::from_utf8_lossy(field))).collect()
        }
    }
}

fn of_face(corners: [usize; 3], mesh: &Mesh, number: u64) -> Vec<String> {
    let vertices = mesh.places.len();
    match number {
        NO_SUCH_VERTEX => {
            let unknown = corners.into_iter().filter(|&corner| corner > vertices);
            unknown.map(|corner| format!("there is no vertex {corner}: {vertices} v lines stand above, counted from 1")).collect()
        }
        VERTEX_TWICE => vec!["a vertex stands twice in this face".into()],
        _ if mesh.faces.len() >= TRIANGLE_LIMIT => {
            vec![format!("{TRIANGLE_LIMIT} f lines stand above, and there may be {TRIANGLE_LIMIT}; {GARMENT}")]
        }
        _ => vec![format!("with this face there are more than {EDGE_LIMIT} edges; {GARMENT}")],
    }
}

const PLAIN: &str = "examples/obj/plain";
const GARMENT: &str = "./makhnodri garment takes a mesh of any size";

/// Why a line is not of the form: all that can be seen of what exporters write.
fn of_form(line: &[u8]) -> Vec<String> {
    let (body, ended) = (line.strip_suffix(b"\n").unwrap_or(line), line.ends_with(b"\n"));
    let (bare, carriage) = (body.strip_suffix(b"\r").unwrap_or(body), body.ends_with(b"\r"));
    let (bare, mark) = (bare.strip_prefix(b"\xef\xbb\xbf").unwrap_or(bare), bare.starts_with(b"\xef\xbb\xbf"));
    let mut out: Vec<String> = Vec::new();
    let mut add = |holds: bool, words: &str| out.extend(holds.then(|| words.to_string()));
    add(mark, "a byte-order mark stands in front");
    add(carriage, "a CR stands before the end of the line: lines end with LF alone");
    add(!ended, "the last line has no LF behind it: every line ends with one");
    if !bare.is_empty() {
        out.extend(of_body(bare));
    }
    out.push(format!("{PLAIN} makes a plain file of what exporters write, and {GARMENT} as they write it"));
    out
}

fn of_body(body: &[u8]) -> Vec<String> {
    if super::is_skipped(body, Wrong::Nothing) {
        return Vec::new();
    }
    if body.contains(&b'\t') || body.windows(2).any(|two| two == b"  ") || body.ends_with(b" ") {
        return vec!["one blank parts two fields, no tab, and none stands at the end".into()];
    }
    let fields: Vec<&[u8]> = body.split(|&byte| byte == b' ').collect();
    let (word, numbers) = (String::from_utf8_lossy(fields[0]), &fields[1..]);
    let kind = match fields[0] {
        b"v" => "a decimal of at most nine digits with at most two behind a point",
        b"f" => "a plain vertex number, counted from 1",
        _ => return vec![format!("it begins with {word:?}, where v, f, #, vt and vn are taken")],
    };
    let formed = |field: &[u8]| match fields[0] {
        b"v" => decimal(field, Wrong::Nothing).is_some(),
        _ => super::corner(field, Wrong::Nothing).is_some(),
    };
    let wrong = numbers.iter().filter(|field| !formed(field));
    let mut out: Vec<String> = wrong.map(|field| format!("{:?} is not {kind}", String::from_utf8_lossy(field))).collect();
    if numbers.len() != 3 {
        out.push(format!("{word} takes 3 numbers, and here are {}", numbers.len()));
    }
    out
}
