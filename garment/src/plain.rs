//! Lines as nearly every one of an export is: plain digits, taken from the bytes of the file as they stand. Whatever is not so plain is left to
//! `fields`, which has the words for what is wrong; what is taken here is what would be taken there.

/// Where a line ends.
fn is_end(byte: Option<&u8>) -> bool {
    matches!(byte, None | Some(b'\n' | b'\r'))
}

fn past_blanks(bytes: &[u8], mut at: usize) -> usize {
    while let Some(b' ' | b'\t') = bytes.get(at) {
        at += 1;
    }
    at
}

/// Three decimals and the end of the line, and where that is.
#[inline]
pub fn place(bytes: &[u8], mut at: usize) -> Option<([f64; 3], usize)> {
    let mut place = [0.0; 3];
    for axis in &mut place {
        (*axis, at) = decimal(bytes, past_blanks(bytes, at))?;
    }
    at = past_blanks(bytes, at);
    is_end(bytes.get(at)).then_some((place, at))
}

/// A double counts up to here, and holds powers of ten up to the 22nd: a quotient of the two is rounded once, so it is the double nearest to the decimal.
const COUNTED: u64 = 1 << 53;
const POWERS: [f64; 23] = [
    1e0, 1e1, 1e2, 1e3, 1e4, 1e5, 1e6, 1e7, 1e8, 1e9, 1e10, 1e11, 1e12, 1e13, 1e14, 1e15, 1e16, 1e17, 1e18, 1e19, 1e20, 1e21,
    1e22,
];
/// So many digits fit 64 bits whatever they are.
const DIGITS: usize = 19;

/// Digits with or without a minus before and a point within them, up to a blank or the end of the line.
#[inline]
pub fn decimal(bytes: &[u8], mut at: usize) -> Option<(f64, usize)> {
    let negative = bytes.get(at) == Some(&b'-');
    at += negative as usize;
    let (whole, point) = digits(bytes, at, 0);
    let mut count = point - at;
    let (mut number, mut end, mut below) = (whole, point, 0);
    if bytes.get(point) == Some(&b'.') {
        (number, end) = digits(bytes, point + 1, whole);
        below = end - point - 1;
        count += below;
    }
    let plain =
        (1..=DIGITS).contains(&count) && number <= COUNTED && matches!(bytes.get(end), None | Some(b' ' | b'\n' | b'\r' | b'\t'));
    let size = number as f64 / *POWERS.get(below)?;
    plain.then_some((if negative { -size } else { size }, end))
}

/// What digits make behind others, and where they end. Too many are for the caller to see to.
#[inline]
fn digits(bytes: &[u8], mut at: usize, mut number: u64) -> (u64, usize) {
    while let Some(digit) = bytes.get(at).map(|byte| byte.wrapping_sub(b'0')).filter(|digit| *digit < 10) {
        number = number.wrapping_mul(10).wrapping_add(u64::from(digit));
        at += 1;
    }
    (number, at)
}

/// The vertices of three or four corners, counted from 0 and all different, how many there are, and where their line ends.
#[inline]
pub fn corners(bytes: &[u8], mut at: usize) -> Option<([u32; 4], usize, usize)> {
    let (mut corners, mut count) = ([0; 4], 0);
    loop {
        at = past_blanks(bytes, at);
        if is_end(bytes.get(at)) {
            break;
        }
        (*corners.get_mut(count)?, at) = corner(bytes, at)?;
        count += 1;
    }
    let [a, b, c, d] = corners;
    let different = a != b && a != c && b != c && (count == 3 || (a != d && b != d && c != d));
    (count >= 3 && different).then_some((corners, count, at))
}

/// `v`, `v/vt`, `v//vn` or `v/vt/vn`, each in a few plain digits.
#[inline]
fn corner(bytes: &[u8], at: usize) -> Option<(u32, usize)> {
    let (vertex, mut at) = few_digits(bytes, at)?;
    let mut slashes = 0;
    while bytes.get(at) == Some(&b'/') && slashes < 2 {
        slashes += 1;
        at = match bytes.get(at + 1) {
            Some(b'/') if slashes == 1 => at + 1,
            _ => few_digits(bytes, at + 1)?.1,
        };
    }
    let ends = matches!(bytes.get(at), None | Some(b' ' | b'\n' | b'\r' | b'\t'));
    (ends && vertex > 0).then(|| (vertex as u32 - 1, at))
}

/// At least one, and so few that 32 bits hold them.
#[inline]
fn few_digits(bytes: &[u8], at: usize) -> Option<(u64, usize)> {
    let (number, end) = digits(bytes, at, 0);
    (1..=9).contains(&(end - at)).then_some((number, end))
}
