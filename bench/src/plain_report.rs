//! A whole report in plain safe Rust: read, list, judge, tally, write, with every check of document 01, in the four words of document 02.

use crate::plain;
use crate::plain_rest::settle;
use crate::slices::{parts, Slices};
use compare::scene::refusal::*;
use compare::scene::{COORDINATE_LIMIT, EDGE_LIMIT, REPORT_ROOM, SEAM_LIMIT, TEXT_LIMIT, TRIANGLE_LIMIT, VERTEX_LIMIT};
use compare::verdicts::settled::Settled;

/// The report, behind what `out` holds; `list` is the room that is lent for pairs.
pub fn report(text: &[u8], list: &mut [u32; REPORT_ROOM], out: &mut Vec<u8>) {
    let slices = match read(text) {
        Ok(slices) => slices,
        Err(refusal) => return refused(out, refusal),
    };
    let count = plain::list(&slices, list);
    if count > REPORT_ROOM {
        return refused(out, Refusal::new(NO_ROOM, count as u64));
    }
    let (mut hits, mut misses, mut touch, mut apart) = (0, 0, 0, 0);
    for &entry in list.iter().take(count) {
        let (kind, first, second) = parts(entry);
        out.extend_from_slice(if kind == 0 { b"pt\t" } else { b"ee\t" });
        number(out, first as u64, b'\t');
        number(out, second as u64, b'\t');
        let (word, total): (&[u8], &mut u64) = match settle(&slices, entry) {
            Settled::Hit => (b"hit\n", &mut hits),
            Settled::Miss => (b"miss\n", &mut misses),
            Settled::Touch => (b"touch\n", &mut touch),
            Settled::Apart => (b"apart\n", &mut apart),
        };
        out.extend_from_slice(word);
        *total += 1;
    }
    out.extend_from_slice(b"total\t");
    number(out, count as u64, b'\t');
    number(out, hits, b'\t');
    number(out, misses, b'\t');
    number(out, touch, b'\t');
    number(out, apart, b'\n');
}

fn refused(out: &mut Vec<u8>, refusal: Refusal) {
    out.extend_from_slice(b"refused\t");
    number(out, refusal.number, b'\t');
    number(out, refusal.third, b'\n');
}

fn number(out: &mut Vec<u8>, mut n: u64, after: u8) {
    let mut digits = [0; 20];
    let mut at = digits.len();
    loop {
        at -= 1;
        digits[at] = b'0' + (n % 10) as u8;
        n /= 10;
        if n == 0 {
            break;
        }
    }
    out.extend_from_slice(&digits[at..]);
    out.push(after);
}

/// The scene of a text, in one pass.
pub fn read(text: &[u8]) -> Result<Slices, Refusal> {
    if text.len() > TEXT_LIMIT {
        return Err(Refusal::bare(TEXT_TOO_LONG));
    }
    let mut slices = Slices::default();
    let (mut rest, mut line) = (text, 0);
    while !rest.is_empty() {
        line += 1;
        let refuse = |number: u64| Refusal::new(number, line);
        let end = rest.iter().position(|&byte| byte == b'\n').ok_or(refuse(BAD_LINE))?;
        take(&rest[..end], &mut slices).map_err(refuse)?;
        rest = &rest[end + 1..];
    }
    Ok(slices)
}

fn take(line: &[u8], slices: &mut Slices) -> Result<(), u64> {
    match line.first() {
        Some(b'v') => {
            let vertex: [i32; 6] = numbers(&line[1..], true).ok_or(BAD_LINE)?;
            unless(!slices.edges.is_empty() || !slices.triangles.is_empty() || !slices.seams.is_empty(), OUT_OF_ORDER)?;
            unless(slices.positions.len() == 6 * VERTEX_LIMIT, ONE_TOO_MANY)?;
            unless(vertex.iter().any(|n| n.unsigned_abs() as i64 > COORDINATE_LIMIT), OUT_OF_RANGE)?;
            slices.positions.extend_from_slice(&vertex);
        }
        Some(b'e') => {
            let [a, b]: [i32; 2] = numbers(&line[1..], false).ok_or(BAD_LINE)?;
            unless(!slices.triangles.is_empty() || !slices.seams.is_empty(), OUT_OF_ORDER)?;
            unless(slices.edges.len() == 2 * EDGE_LIMIT, ONE_TOO_MANY)?;
            let vertices = slices.positions.len() as i32 / 6;
            unless(a >= vertices || b >= vertices, NO_SUCH_VERTEX)?;
            unless(a == b, VERTEX_TWICE)?;
            slices.edges.extend_from_slice(&[a as u16, b as u16]);
        }
        Some(b't') => {
            let [a, b, c]: [i32; 3] = numbers(&line[1..], false).ok_or(BAD_LINE)?;
            unless(!slices.seams.is_empty(), OUT_OF_ORDER)?;
            unless(slices.triangles.len() == 3 * TRIANGLE_LIMIT, ONE_TOO_MANY)?;
            let vertices = slices.positions.len() as i32 / 6;
            unless(a >= vertices || b >= vertices || c >= vertices, NO_SUCH_VERTEX)?;
            unless(a == b || b == c || a == c, VERTEX_TWICE)?;
            slices.triangles.extend_from_slice(&[a as u16, b as u16, c as u16]);
        }
        Some(b'w') => {
            let [i, j]: [i32; 2] = numbers(&line[1..], false).ok_or(BAD_LINE)?;
            unless(slices.seams.len() == 2 * SEAM_LIMIT, ONE_TOO_MANY)?;
            let vertices = slices.positions.len() as i32 / 6;
            unless(i >= vertices || j >= vertices, NO_SUCH_VERTEX)?;
            sew(slices, i as u16, j as u16)?;
        }
        _ => return Err(BAD_LINE),
    }
    Ok(())
}

/// A seam more: the table of vertices stood for, and only the parts of the vertex that is replaced, are looked at.
fn sew(slices: &mut Slices, i: u16, j: u16) -> Result<(), u64> {
    let rises = slices.seams.len() < 2 || slices.seams[slices.seams.len() - 2] < i;
    let place = |v: u16| &slices.positions[6 * v as usize..6 * v as usize + 6];
    unless(!rises || j >= i || slices.stands[j as usize] != j || place(i) != place(j), BROKEN_SEAM)?;
    slices.stands[i as usize] = j;
    slices.seams.extend_from_slice(&[i, j]);
    let stands = |v: u16| slices.stands[v as usize];
    let edge = slices.edges.chunks_exact(2).any(|e| (e[0] == i || e[1] == i) && stands(e[0]) == stands(e[1]));
    let triangle = slices.triangles.chunks_exact(3).any(|t| {
        let [a, b, c] = [stands(t[0]), stands(t[1]), stands(t[2])];
        (t[0] == i || t[1] == i || t[2] == i) && (a == b || b == c || a == c)
    });
    unless(edge || triangle, VERTEX_TWICE)
}

fn unless(wrong: bool, number: u64) -> Result<(), u64> {
    if wrong {
        Err(number)
    } else {
        Ok(())
    }
}

/// Exactly N fields, a tab before each.
fn numbers<const N: usize>(mut rest: &[u8], signed: bool) -> Option<[i32; N]> {
    let mut out = [0; N];
    for place in &mut out {
        rest = rest.strip_prefix(b"\t")?;
        let minus = signed && rest.first() == Some(&b'-');
        rest = if minus { &rest[1..] } else { rest };
        let digits = rest.iter().take_while(|byte| byte.is_ascii_digit()).count();
        if digits == 0 || digits > 9 || (rest[0] == b'0' && (digits > 1 || minus)) {
            return None;
        }
        let value = rest[..digits].iter().fold(0, |value, byte| 10 * value + (byte - b'0') as i32);
        *place = if minus { -value } else { value };
        rest = &rest[digits..];
    }
    rest.is_empty().then_some(out)
}
