//! Texts that are no longer a scene, or no longer the same one. Each damage is one that a reader may overlook; several
//! at once, often in one line, try the order of the checks.

use crate::numbers::random::Random;

pub fn damaged(random: &mut Random, text: &str) -> Vec<u8> {
    let mut lines: Vec<Vec<u8>> = text.split_inclusive('\n').map(|line| line.as_bytes().to_vec()).collect();
    let mut at = random.below(lines.len().max(1));
    for _ in 0..random.pick(&[1, 1, 2, 3]) {
        if lines.is_empty() {
            lines.push(b"v\t0\t0\t0\t0\t0\t0\n".to_vec());
        }
        // half the time in the line that was damaged before
        if random.chance(2) || at >= lines.len() {
            at = random.below(lines.len());
        }
        if random.chance(3) {
            damage_lines(random, &mut lines, at);
        } else if random.chance(4) {
            damage_bytes(random, &mut lines[at]);
        } else {
            damage_field(random, &mut lines[at]);
        }
    }
    let mut out = lines.concat();
    match random.below(24) {
        0 => out.splice(0..0, *b"\xef\xbb\xbf").for_each(drop),
        1 => out.truncate(random.below(out.len() + 1)),
        2 => drop(out.pop()),
        3 => out.push(b'\n'),
        _ => {}
    }
    out
}

/// Something else in the place of one field, or a field more or less.
fn damage_field(random: &mut Random, line: &mut Vec<u8>) {
    let ended = line.last() == Some(&b'\n');
    let body = if ended { &line[..line.len() - 1] } else { &line[..] };
    let mut fields: Vec<Vec<u8>> = body.split(|&byte| byte == b'\t').map(<[u8]>::to_vec).collect();
    if random.chance(3) {
        misshape(random, &mut fields);
    } else {
        misstate(random, &mut fields);
    }
    *line = fields.join(&b'\t');
    if ended {
        line.push(b'\n');
    }
}

/// Mostly against the form of a line.
fn misshape(random: &mut Random, fields: &mut Vec<Vec<u8>>) {
    let at = random.below(fields.len());
    let field = &mut fields[at];
    match random.below(14) {
        0 => *field = b"-0".to_vec(),
        1 => field.insert(0, b'0'),
        2 => field.insert(0, b'-'),
        3 => field.insert(0, b'+'),
        4 => field.push(random.pick(b" \r\0x.e")),
        5 => *field = Vec::new(),
        6 => *field = b"1234567890".to_vec(),
        7 => *field = b"-000000001".to_vec(),
        8 => *field = random.pick(&[b"v", b"e", b"t", b"w", b"V", b"W", b"n", b"0", b"-"]).to_vec(),
        9 => fields[0] = random.pick(&[b"v", b"e", b"t", b"w"]).to_vec(),
        10 => fields.push(b"0".to_vec()),
        11 => drop(fields.pop()),
        12 => fields.insert(at, b"1".to_vec()),
        _ => fields.swap(0, at),
    }
}

/// Mostly of the right form, with a number that may be refused for what it says.
fn misstate(random: &mut Random, fields: &mut [Vec<u8>]) {
    if fields.len() < 2 {
        return;
    }
    let at = 1 + random.below(fields.len() - 1);
    fields[at] = match random.below(6) {
        0 => random.pick(&["524288", "-524288", "1048575"]).into(),
        1 => random.pick(&["524287", "-524287", "262144", "-262144"]).into(),
        2 => random.pick(&["999999999", "-999999999"]).into(),
        3 => random.below(600).to_string().into(),
        4 => random.below(4).to_string().into(),
        _ => fields[1 + random.below(fields.len() - 1)].clone(),
    };
}

fn damage_bytes(random: &mut Random, line: &mut Vec<u8>) {
    if line.is_empty() {
        return;
    }
    let at = random.below(line.len());
    match random.below(6) {
        0 => line[at] ^= 1 << random.below(8),
        1 => line[at] = random.next() as u8,
        2 => drop(line.remove(at)),
        3 => line.insert(at, random.pick(b"\t\n\r\0 -0v\xff")),
        4 => drop(line.pop()),
        _ => line.insert(line.len() - 1, b'\r'),
    }
}

/// Lines swapped, doubled, dropped, empty, or so many that a size is passed.
fn damage_lines(random: &mut Random, lines: &mut Vec<Vec<u8>>, at: usize) {
    let other = random.below(lines.len());
    match random.below(10) {
        0 | 1 => lines.swap(at, other),
        2 => lines.insert(other, lines[at].clone()),
        3 => drop(lines.remove(at)),
        4 => lines.insert(at, b"\n".to_vec()),
        5 => lines[at].extend_from_within(..),
        // a seam more, of vertices near the last, or near the first
        6 | 7 => {
            let vertices = lines.iter().filter(|line| line.first() == Some(&b'v')).count();
            let base = random.pick(&[0, vertices.saturating_sub(6)]);
            lines.push(format!("w\t{}\t{}\n", base + random.below(7), random.below(6)).into_bytes());
        }
        _ => {
            let line = lines[at].clone();
            let copies = random.pick(&[511, 512, 513, 1_023, 1_024, 1_025]);
            lines.splice(at..at, std::iter::repeat_n(line, copies));
        }
    }
}
