//! Contacts in plain safe Rust: the library's way, each number cut by ten steps of long division, or at once where that fits in 64 bits; and
//! the same with one division of 128 bits.

use crate::plain::{minors, seen, with, END, START};
use crate::slices::{parts, Slices};

/// Numbers of a contact.
pub const ROW: usize = 5;

/// 2^20 times a part of a whole, cut: the digit is 4, and no number is larger than four times the whole.
#[inline]
pub fn by_steps(part: u64, whole: u64) -> u32 {
    let (mut number, mut rest) = (part / whole, part % whole);
    for _ in 0..10 {
        number = 4 * number + 4 * rest / whole;
        rest = 4 * rest % whole;
    }
    number as u32
}

/// The same at once where 2^20 times the part fits, which it does in cloth of ordinary size.
#[inline]
pub fn by_size(part: u64, whole: u64) -> u32 {
    if whole < 1 << 44 {
        (part * (1 << 20) / whole) as u32
    } else {
        by_steps(part, whole)
    }
}

#[inline]
pub fn at_once(part: u64, whole: u64) -> u32 {
    (((part as u128) << 20) / whole as u128) as u32
}

/// A piece's weights up to one factor, the whole, and what time and shares are made of.
struct Sums {
    weights: [i64; 6],
    whole: i64,
    time: i64,
    shares: [i64; 3],
}

/// The row of the hit piece with the smallest time; the first of several.
#[inline]
fn first_of<const N: usize>(pieces: [Sums; N], cut: impl Fn(u64, u64) -> u32) -> Option<[u32; ROW]> {
    let mut out: Option<[u32; ROW]> = None;
    for (piece, sums) in pieces.iter().enumerate() {
        let sign = sums.whole.signum();
        if sign == 0 || sums.weights.iter().any(|weight| weight.signum() == -sign) {
            continue;
        }
        let part = |part: i64| cut(part.unsigned_abs(), sums.whole.unsigned_abs());
        let k = part(sums.time);
        if out.is_none_or(|row| k < row[1]) {
            let [one, two, three] = sums.shares.map(part);
            out = Some([piece as u32, k, one, two, three]);
        }
    }
    out
}

#[inline]
fn point(positions: &[i32], point: usize, corners: [usize; 3]) -> [Sums; 3] {
    let [a, b, c] = corners.map(|vertex| seen(positions, vertex, point, START));
    let [d, e, f] = corners.map(|vertex| seen(positions, vertex, point, END));
    let (ab, ad, cf, ef) = (minors(a, b), minors(a, d), minors(c, f), minors(e, f));
    let (abf, aef) = (with(f, ab), -with(a, ef));
    let sums = |v: [i64; 4], time: i64, shares: [i64; 3]| Sums {
        weights: [v[0], v[1], v[2], v[3], 0, 0],
        whole: v.iter().sum(),
        time,
        shares,
    };
    let v = [with(b, cf), -with(a, cf), abf, -with(c, ab)];
    let w = [with(b, ef), aef, abf, -with(e, ab)];
    let x = [with(d, ef), aef, with(f, ad), -with(e, ad)];
    [
        sums(v, v[3], [v[0], v[1], v[2] + v[3]]),
        sums(w, w[2] + w[3], [w[0], w[1] + w[2], w[3]]),
        sums(x, x[1] + x[2] + x[3], [x[0] + x[1], x[2], x[3]]),
    ]
}

#[inline]
fn edges(positions: &[i32], first: [usize; 2], second: [usize; 2]) -> [Sums; 4] {
    let [low, high] = first;
    let [r, g, h] = [high, second[0], second[1]].map(|vertex| seen(positions, vertex, low, START));
    let [s, k, l] = [low, second[0], second[1]].map(|vertex| seen(positions, vertex, high, END));
    let (rg, sg, hl, kl) = (minors(r, g), minors(s, g), minors(h, l), minors(k, l));
    let (ghl, gkl, rgl, sgl) = (with(g, hl), with(g, kl), with(l, rg), with(l, sg));
    // the first edge's other corner is at the start in pieces 0 and 1; the second edge's middle corner in pieces 0 and 2
    let sums = |v: [i64; 4], other_at_end: bool, middle_at_end: bool| {
        let whole = v[1] + v[2] + v[3];
        let time = if middle_at_end { v[2] + v[3] } else { v[3] };
        let end = time + if other_at_end { v[0] } else { 0 };
        let first = if other_at_end { end } else { end - v[0] };
        let second = if middle_at_end { v[3] } else { v[2] + v[3] };
        Sums { weights: [-v[0], v[1], v[2], v[3], whole + v[0] - end, end], whole, time, shares: [first, second, 0] }
    };
    [
        sums([ghl, -with(r, hl), rgl, -with(h, rg)], false, false),
        sums([gkl, -with(r, kl), rgl, -with(k, rg)], false, true),
        sums([ghl, -with(s, hl), sgl, -with(h, sg)], true, false),
        sums([gkl, -with(s, kl), sgl, -with(k, sg)], true, true),
    ]
}

/// The row of an entry that is hit.
#[inline]
pub fn contact(slices: &Slices, entry: u32, cut: impl Fn(u64, u64) -> u32) -> Option<[u32; ROW]> {
    let (kind, one, other) = parts(entry);
    if kind == 0 {
        first_of(point(&slices.positions, one, slices.corners(other)), cut)
    } else {
        first_of(edges(&slices.positions, slices.ends(one), slices.ends(other)), cut)
    }
}
