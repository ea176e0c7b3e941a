//! What document 01 shows with numbers, as document 02 leaves it, and a text at each edge of its rules with the report it must get.

use crate::scene::*;
use crate::verdicts::settled::Settled::{self, Apart as A, Hit as H, Miss as M, Touch as T};
use crate::verdicts::verdict::Verdict;

pub const PRINTED_SCENE: &str = "\
v\t0\t0\t0\t0\t0\t0\nv\t4\t0\t0\t4\t0\t0\nv\t0\t4\t0\t0\t4\t0\nv\t1\t1\t1\t1\t1\t-1\nv\t1\t-1\t1\t1\t-1\t-1\n\
e\t0\t1\ne\t3\t4\nt\t0\t1\t2\n";

pub const PRINTED_REPORT: &str = "pt\t3\t0\thit\nee\t0\t1\thit\ntotal\t2\t2\t0\t0\t0\n";

pub struct Shown {
    pub scene: Scene,
    pub pair: Pair,
    /// The four-word answers of its pieces.
    pub settled: &'static [Settled],
    /// And the three-word ones.
    pub pieces: Vec<Verdict>,
    pub listed: bool,
}

impl Shown {
    fn new(scene: Scene, pair: Pair, settled: &'static [Settled], listed: bool) -> Shown {
        let pieces = settled.iter().map(|word| word.verdict()).collect();
        Shown { scene, pair, settled, pieces, listed }
    }
}

/// The twelve shown cases, in their order; of the degenerate ones document 02 makes case 6 apart and case 7 touch.
pub fn shown() -> Vec<Shown> {
    let point = |start: [i64; 3], end: [i64; 3], settled: &'static [Settled], listed: bool| {
        let rest = |x: i64, y: i64| [x, y, 0, x, y, 0];
        let moving = [start[0], start[1], start[2], end[0], end[1], end[2]];
        let scene =
            Scene { vertices: vec![rest(0, 0), rest(4, 0), rest(0, 4), moving], triangles: vec![[0, 1, 2]], ..Scene::default() };
        Shown::new(scene, Pair::pt(3, 0), settled, listed)
    };
    let edge = |c: [i64; 2], d: [i64; 2], settled: &'static [Settled], listed: bool| {
        let (rest, falling) = (|x: i64| [x, 0, 0, x, 0, 0], |at: [i64; 2]| [at[0], at[1], 1, at[0], at[1], -1]);
        let scene =
            Scene { vertices: vec![rest(-2), rest(2), falling(c), falling(d)], edges: vec![[0, 1], [2, 3]], ..Scene::default() };
        Shown::new(scene, Pair::ee(0, 1), settled, listed)
    };
    vec![
        point([1, 1, 1], [1, 1, -1], &[M, H, H], true),
        point([3, 3, 1], [3, 3, -1], &[M, M, M], true),
        point([1, 1, 1], [1, 1, 0], &[M, M, H], true),
        point([1, 1, 0], [1, 1, 1], &[H, M, M], true),
        point([5, 5, 1], [5, 5, -1], &[M, M, M], false),
        point([1, 1, 1], [1, 1, 1], &[A, A, A], false),
        point([1, 1, 0], [2, 1, 0], &[T, T, T], true),
        point([4, 0, 1], [4, 0, -1], &[M, H, M], true),
        edge([0, -2], [0, 2], &[H, H, H, H], true),
        edge([0, 3], [3, 0], &[M, M, M, M], true),
        edge([2, -2], [2, 2], &[H, H, M, M], true),
        edge([3, -2], [3, 2], &[M, M, M, M], false),
    ]
}

/// A text, and the last line of the report it must get. (A refused report has no other.)
pub struct TextCase {
    pub name: String,
    pub text: Vec<u8>,
    pub last_line: String,
}

const V: &str = "v\t0\t0\t0\t0\t0\t0\n";

pub fn text_cases() -> Vec<TextCase> {
    let mut out = vec![case(PRINTED_SCENE, "total 2 2 0 0 0")];
    out.extend(bad_lines());
    out.extend(faulty_lines());
    out.extend(ties());
    out.extend(sizes());
    out.extend(whole_texts());
    out
}

/// The report's line with its fields parted by spaces.
fn case(text: impl Into<Vec<u8>>, last_line: &str) -> TextCase {
    let text = text.into();
    let end: Vec<u8> = text[text.len().saturating_sub(60)..].to_vec();
    let name = format!("{} bytes that end '{}'", text.len(), end.escape_ascii());
    TextCase { name, text, last_line: last_line.replace(' ', "\t") }
}

/// Lines that are not of the form, two vertices above them.
fn bad_lines() -> Vec<TextCase> {
    let coordinates =
        "-0 00 01 -01 +1 --1 - 1- 1.0 1e1 0x1 1_0 a / : \u{661} 0000000000 1234567890 -1234567890 18446744073709551616";
    let numbers = "-1 -0 -999999999 00 01 +1 1. a 1234567890 18446744073709551617";
    let lines = [
        "", "v", "e", "t", "n", "\t", " ", "-", "0", "#", "vv\t0\t0\t0\t0\t0\t0", "V\t0\t0\t0\t0\t0\t0", "0\t0\t0\t0\t0\t0\t0",
        "v\t", "v\t0\t0\t0\t0\t0", "v\t0\t0\t0\t0\t0\t0\t0", "v\t0\t0\t0\t0\t0\t0\t", "v\t0\t0\t0\t0\t0\t",
        "\tv\t0\t0\t0\t0\t0\t0", "v\t\t0\t0\t0\t0\t0\t0", "v\t0\t0\t\t0\t0\t0", "v 0 0 0 0 0 0", "v\t0\t0\t0\t0\t0\t0 ",
        "v\t 0\t0\t0\t0\t0\t0", " v\t0\t0\t0\t0\t0\t0", "v\t0\t0\t0\t0\t0\t0\r", "v\t0\t0\t0\0\t0\t0\t0",
        "\u{feff}v\t0\t0\t0\t0\t0\t0", "e\t0", "e\t0\t", "e\t0\t1\t2", "e\t0\t1\t", "e\t0\t1\u{b}", "e\t0\t1\u{c}", "E\t0\t1",
        "ee\t0\t1", "t\t0\t1", "t\t0\t1\t", "t\t0\t1\t2\t3", "T\t0\t1\t2", "w", "w\t", "w\t1", "w\t1\t", "w\t1\t0\t",
        "w\t1\t0\t0", "w 1 0", "W\t1\t0", "ww\t1\t0", "\tw\t1\t0", "w\t1\t0\r",
    ];
    let mut bad: Vec<Vec<u8>> = lines.iter().map(|line| line.as_bytes().to_vec()).collect();
    bad.extend(coordinates.split(' ').map(|field| format!("v\t0\t0\t0\t0\t0\t{field}").into_bytes()));
    bad.extend(coordinates.split(' ').map(|field| format!("v\t{field}\t0\t0\t0\t0\t0").into_bytes()));
    bad.extend(numbers.split(' ').map(|field| format!("e\t0\t{field}").into_bytes()));
    bad.extend(numbers.split(' ').map(|field| format!("t\t{field}\t0\t1").into_bytes()));
    bad.extend(numbers.split(' ').map(|field| format!("w\t1\t{field}").into_bytes()));
    bad.extend(numbers.split(' ').map(|field| format!("w\t{field}\t0").into_bytes()));
    bad.push(b"v\t0\t0\t0\t0\t0\t\xff".to_vec());
    bad.iter().map(|line| case([V.as_bytes(), V.as_bytes(), line, b"\n"].concat(), "refused 9 3")).collect()
}

/// Lines of the form, refused for what they say or just not, two vertices above them.
fn faulty_lines() -> Vec<TextCase> {
    let lines = [
        ("v\t524287\t-524287\t0\t0\t-524287\t524287", "total 0 0 0 0 0"),
        ("v\t262144\t-262144\t0\t0\t-262144\t262144", "total 0 0 0 0 0"),
        ("v\t0\t0\t0\t0\t0\t524288", "refused 2 3"),
        ("v\t-524288\t0\t0\t0\t0\t0", "refused 2 3"),
        ("v\t0\t0\t999999999\t0\t0\t0", "refused 2 3"),
        ("v\t0\t0\t0\t-999999999\t0\t0", "refused 2 3"),
        ("e\t0\t1", "total 0 0 0 0 0"),
        ("e\t0\t2", "refused 3 3"),
        ("e\t2\t0", "refused 3 3"),
        ("e\t0\t999999999", "refused 3 3"),
        ("e\t0\t65536", "refused 3 3"),
        ("t\t0\t1\t2", "refused 3 3"),
        ("e\t1\t1", "refused 4 3"),
        ("t\t0\t1\t0", "refused 4 3"),
        ("t\t1\t1\t0", "refused 4 3"),
        ("t\t0\t1\t1", "refused 4 3"),
        ("w\t1\t0", "total 0 0 0 0 0"),
        ("w\t0\t1", "refused 15 3"),
        ("w\t1\t1", "refused 15 3"),
        ("w\t2\t0", "refused 3 3"),
        ("w\t1\t2", "refused 3 3"),
        ("w\t65537\t0", "refused 3 3"),
        ("w\t1\t999999999", "refused 3 3"),
    ];
    lines.iter().map(|(line, last)| case(format!("{V}{V}{line}\n"), last)).collect()
}

/// Two faults, in one line or in two.
fn ties() -> Vec<TextCase> {
    let three = V.repeat(3);
    vec![
        case("e\t0\t1\n", "refused 3 1"),
        case("t\t0\t1\t2\n", "refused 3 1"),
        case("e\t0\t0\n", "refused 3 1"),
        case(format!("{three}t\t0\t1\t2\n"), "total 0 0 0 0 0"),
        case(format!("{three}t\t0\t1\t2\ne\t0\t1\n"), "refused 10 5"),
        case(format!("{three}t\t0\t1\t2\n{V}"), "refused 10 5"),
        case(format!("{three}e\t0\t1\n{V}"), "refused 10 5"),
        case(format!("{three}e\t0\t1\nt\t0\t1\t2\n{V}"), "refused 10 6"),
        case(format!("{three}e\t0\t1\nv\t0\t0\t0\t0\t0\t-0\n"), "refused 9 5"),
        case(format!("{three}e\t0\t1\nv\t0\t0\t0\t0\t0\t524288\n"), "refused 10 5"),
        case(format!("{three}t\t0\t1\t2\ne\t0\t3\n"), "refused 10 5"),
        case(format!("{three}t\t0\t1\t2\ne\t1\t1\n"), "refused 10 5"),
        case(format!("{three}e\t3\t3\n"), "refused 3 4"),
        case(format!("{three}t\t1\t1\t3\n"), "refused 3 4"),
        case(format!("{three}e\t1\t1\n\n"), "refused 4 4"),
        case(format!("{three}e\t1\t1\ne\t3\t3\n"), "refused 4 4"),
        case(format!("{three}e\t1\t1\nv\t0\t0\t0\t0\t0\t524288\n"), "refused 4 4"),
        case(format!("v\t0\t0\t0\t0\t0\t524288\n{V}e\t0\t0\nx\n"), "refused 2 1"),
        case(format!("{three}e\t0\t3\nv\t0\t0\t0\t0\t0\t0"), "refused 3 4"),
        case(format!("{three}e\t0\t1\nv\t0\t0\t0\t0\t0\t0"), "refused 9 5"),
        case(format!("{three}e\t0\t3"), "refused 9 4"),
        case(format!("{three}e\t0\t1"), "refused 9 4"),
        case(format!("{three}\ne\t0\t1"), "refused 9 4"),
        case(format!("{three}e"), "refused 9 4"),
        case("w\t1\t0\n", "refused 3 1"),
        case(format!("{three}w\t1\t0\nw\t2\t0\n"), "total 0 0 0 0 0"),
        case(format!("{three}w\t1\t0\nw\t2\t1\n"), "refused 15 5"),
        case(format!("{three}w\t2\t0\nw\t1\t0\n"), "refused 15 5"),
        case(format!("{three}w\t2\t1\nw\t1\t0\n"), "refused 15 5"),
        case(format!("{three}w\t2\t0\nw\t2\t0\n"), "refused 15 5"),
        case(format!("{three}w\t2\t2\nw\t3\t0\n"), "refused 15 4"),
        case(format!("{three}w\t3\t3\n"), "refused 3 4"),
        case(format!("{three}w\t1\t0\nt\t0\t1\t2\n"), "refused 10 5"),
        case(format!("{three}w\t1\t0\ne\t0\t1\n"), "refused 10 5"),
        case(format!("{three}w\t1\t0\n{V}"), "refused 10 5"),
        case(format!("{three}w\t1\t0\nt\t0\t1\n"), "refused 9 5"),
        case(format!("{three}e\t0\t1\nw\t1\t0\n"), "refused 4 5"),
        case(format!("{three}e\t0\t1\nw\t2\t0\n"), "total 0 0 0 0 0"),
        case(format!("{three}e\t0\t1\nw\t2\t0\nw\t1\t0\n"), "refused 15 6"),
        case(format!("{three}e\t1\t2\nw\t1\t0\nw\t2\t0\n"), "refused 4 6"),
        case(format!("{three}t\t2\t0\t1\nw\t2\t0\n"), "refused 4 5"),
        case(format!("{three}t\t2\t0\t1\nw\t2\t2\n"), "refused 15 5"),
        case(format!("{three}e\t0\t1\nw\t2\t0\nw\t1\t1\nx\n"), "refused 15 6"),
        case(format!("{three}e\t0\t1\nw\t1\t0\nw\t3\t0\n"), "refused 4 5"),
        case(format!("{three}w\t1\t0"), "refused 9 4"),
        case(format!("{three}w\t1\t1"), "refused 9 4"),
        case("v\t0\t0\t0\t0\t0\t1\nv\t0\t0\t0\t0\t0\t0\nw\t1\t0\n", "refused 15 3"),
        case("v\t0\t0\t1\t0\t0\t0\nv\t0\t0\t0\t0\t0\t0\nw\t1\t0\n", "refused 15 3"),
        case("v\t0\t0\t1\t0\t0\t0\nv\t0\t0\t0\t0\t0\t0\ne\t1\t0\nw\t1\t0\n", "refused 15 4"),
    ]
}

/// At and over each size, and what else such a line may be refused for.
fn sizes() -> Vec<TextCase> {
    let full = V.repeat(VERTEX_LIMIT);
    let edges = format!("{V}{V}{V}{}", "e\t0\t1\n".repeat(EDGE_LIMIT));
    let triangles = format!("{V}{V}{V}{}", "t\t0\t1\t2\n".repeat(TRIANGLE_LIMIT));
    let seams = full.clone() + &(1..VERTEX_LIMIT).map(|i| format!("w\t{i}\t0\n")).collect::<String>();
    vec![
        case(full.clone(), "total 0 0 0 0 0"),
        case(format!("{full}{V}"), "refused 11 513"),
        case(format!("{full}v\t0\t0\t0\t0\t0\t524288\n"), "refused 11 513"),
        case(format!("{full}v\t0\t0\t0\t0\t0\t-0\n"), "refused 9 513"),
        case(format!("{full}e\t0\t1\n{V}"), "refused 10 514"),
        case(format!("{full}e\t511\t512\n"), "refused 3 513"),
        case(format!("{full}e\t511\t0\n"), "total 0 0 0 0 0"),
        case(edges.clone(), "total 0 0 0 0 0"),
        case(format!("{edges}e\t0\t1\n"), "refused 11 1028"),
        case(format!("{edges}e\t0\t3\n"), "refused 11 1028"),
        case(format!("{edges}e\t0\t0\n"), "refused 11 1028"),
        case(format!("{edges}e\t0\t01\n"), "refused 9 1028"),
        case(format!("{edges}t\t0\t1\t2\ne\t0\t1\n"), "refused 10 1029"),
        case(triangles.clone(), "total 0 0 0 0 0"),
        case(format!("{triangles}t\t0\t1\t2\n"), "refused 11 516"),
        case(format!("{triangles}t\t0\t1\t3\n"), "refused 11 516"),
        case(format!("{triangles}t\t0\t1\t1\n"), "refused 11 516"),
        case(format!("{triangles}t\t0\t1\n"), "refused 9 516"),
        case(seams.clone(), "total 0 0 0 0 0"),
        case(format!("{seams}w\t512\t0\n"), "refused 3 1024"),
        case(format!("{seams}w\t511\t0\n"), "refused 15 1024"),
        case(format!("{seams}{V}"), "refused 10 1024"),
    ]
}

fn whole_texts() -> Vec<TextCase> {
    let vertex = "v\t100000\t100000\t100000\t100000\t100000\t100000\n";
    let longest = format!("{}{}", vertex.repeat(VERTEX_LIMIT), "e\t510\t511\n".repeat(EDGE_LIMIT));
    assert_eq!(longest.len(), TEXT_LIMIT);
    let too_long = longest.replacen("100000", "-100000", 1);
    let crowd = |points: usize, triangles: usize| format!("{}{}", V.repeat(points + 3), "t\t0\t1\t2\n".repeat(triangles));
    vec![
        case("", "total 0 0 0 0 0"),
        case("\n", "refused 9 1"),
        case("v", "refused 9 1"),
        case(format!("\u{feff}{V}"), "refused 9 1"),
        case(format!("\0{V}"), "refused 9 1"),
        case(V.trim_end(), "refused 9 1"),
        case(longest.clone(), "total 0 0 0 0 0"),
        case(&longest[..TEXT_LIMIT - 1], "refused 9 1536"),
        case(too_long.clone(), "refused 8 0"),
        case(format!("\n{longest}"), "refused 8 0"),
        case(format!("{longest}x"), "refused 8 0"),
        case(format!("{longest}{longest}{longest}"), "refused 8 0"),
        case("\n".repeat(TEXT_LIMIT), "refused 9 1"),
        case("\n".repeat(TEXT_LIMIT + 1), "refused 8 0"),
        case("v".repeat(TEXT_LIMIT), "refused 9 1"),
        case(crowd(32, 64), "total 2048 0 0 2048 0"),
        case(crowd(32, 64).replacen("t", "e\t0\t1\ne\t2\t3\nt", 1), "total 2049 0 0 2049 0"),
        case(crowd(32, 96), "total 3072 0 0 3072 0"),
        case(crowd(32, 96) + "x", "refused 9 132"),
        case(crowd(32, 96).replacen("t", "e\t0\t1\ne\t2\t3\nt", 1), "refused 7 3073"),
        case(crowd(32, 96).replacen("t", "e\t0\t1\ne\t1\t3\nt", 1), "total 3072 0 0 3072 0"),
        case(crowd(3, 683), "refused 11 519"),
        case(crowd(509, 512), "refused 7 260608"),
    ]
}
