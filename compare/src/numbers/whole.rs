//! Whole numbers of any size. The elimination multiplies rows by each other and never divides, so its numbers grow;
//! with no limit on their size there is no overflow to rule out, whatever range the coordinates have.

use std::cmp::Ordering;

#[derive(Clone, Debug, PartialEq, Eq)]
pub struct Whole {
    negative: bool,
    /// Lowest first, the last one not 0; 0 has none and is not negative, so that equal numbers are equal structs.
    limbs: Vec<u64>,
}

impl Whole {
    pub const ZERO: Whole = Whole { negative: false, limbs: Vec::new() };

    /// The number of this sign whose limbs are these, lowest first.
    pub fn new(negative: bool, mut limbs: Vec<u64>) -> Whole {
        while limbs.last() == Some(&0) {
            limbs.pop();
        }
        Whole { negative: negative && !limbs.is_empty(), limbs }
    }

    /// As Python reads it: -0x1f, 0x0.
    pub fn in_hex(&self) -> String {
        let sign = if self.negative { "-" } else { "" };
        let limbs = self.limbs.iter().rev().map(|limb| format!("{limb:016x}")).collect::<String>();
        let digits = limbs.trim_start_matches('0');
        format!("{sign}0x{}", if digits.is_empty() { "0" } else { digits })
    }

    /// Its value, where that is under 2^63 in size.
    fn short(&self) -> Option<i128> {
        match self.limbs[..] {
            [] => Some(0),
            [limb] if limb >> 63 == 0 => Some(if self.negative { -(limb as i128) } else { limb as i128 }),
            _ => None,
        }
    }

    /// -1, 0 or 1.
    pub fn sign(&self) -> i32 {
        match (self.limbs.is_empty(), self.negative) {
            (true, _) => 0,
            (false, false) => 1,
            (false, true) => -1,
        }
    }

    pub fn minus(&self) -> Whole {
        Whole::new(!self.negative, self.limbs.clone())
    }

    pub fn plus(&self, other: &Whole) -> Whole {
        if other.sign() == 0 {
            return self.clone();
        }
        if self.negative == other.negative {
            return Whole::new(self.negative, sum(&self.limbs, &other.limbs));
        }
        match compare(&self.limbs, &other.limbs) {
            Ordering::Less => Whole::new(other.negative, difference(&other.limbs, &self.limbs)),
            _ => Whole::new(self.negative, difference(&self.limbs, &other.limbs)),
        }
    }

    pub fn times(&self, other: &Whole) -> Whole {
        Whole::new(self.negative != other.negative, product(&self.limbs, &other.limbs))
    }
}

impl From<i128> for Whole {
    fn from(n: i128) -> Whole {
        let size = n.unsigned_abs();
        let limbs = [size as u64, (size >> 64) as u64];
        let used = limbs.iter().rposition(|&limb| limb != 0).map_or(0, |top| top + 1);
        Whole { negative: n < 0, limbs: limbs[..used].to_vec() }
    }
}

/// a b - c d, the only step that elimination needs.
pub fn cross(a: &Whole, b: &Whole, c: &Whole, d: &Whole) -> Whole {
    // most numbers are short, and then the machine's own are many times quicker: at most 2 (2^63 - 1)^2, under 2^127
    if let (Some(a), Some(b), Some(c), Some(d)) = (a.short(), b.short(), c.short(), d.short()) {
        return Whole::from(a * b - c * d);
    }
    a.times(b).plus(&c.minus().times(d))
}

fn compare(a: &[u64], b: &[u64]) -> Ordering {
    a.len().cmp(&b.len()).then_with(|| a.iter().rev().cmp(b.iter().rev()))
}

fn sum(a: &[u64], b: &[u64]) -> Vec<u64> {
    let (long, short) = if a.len() < b.len() { (b, a) } else { (a, b) };
    let mut out = Vec::with_capacity(long.len() + 1);
    let mut carry = 0u128;
    for (i, &limb) in long.iter().enumerate() {
        carry += limb as u128 + *short.get(i).unwrap_or(&0) as u128;
        out.push(carry as u64);
        carry >>= 64;
    }
    out.push(carry as u64);
    out
}

/// a - b, where a is not below b.
fn difference(a: &[u64], b: &[u64]) -> Vec<u64> {
    let mut out = Vec::with_capacity(a.len());
    let mut borrow = false;
    for (i, &limb) in a.iter().enumerate() {
        let (once, first) = limb.overflowing_sub(*b.get(i).unwrap_or(&0));
        let (twice, second) = once.overflowing_sub(borrow as u64);
        out.push(twice);
        borrow = first || second;
    }
    assert!(!borrow, "a difference below 0");
    out
}

fn product(a: &[u64], b: &[u64]) -> Vec<u64> {
    if a.is_empty() || b.is_empty() {
        return Vec::new();
    }
    let mut out = vec![0u64; a.len() + b.len()];
    for (i, &x) in a.iter().enumerate() {
        let mut carry = 0u128;
        for (j, &y) in b.iter().enumerate() {
            // at most (2^64 - 1)^2 + 2 (2^64 - 1) = 2^128 - 1
            carry += x as u128 * y as u128 + out[i + j] as u128;
            out[i + j] = carry as u64;
            carry >>= 64;
        }
        out[i + b.len()] = carry as u64;
    }
    out
}

#[cfg(test)]
mod tests {
    use super::*;
    use crate::numbers::random::Random;

    #[test]
    fn agrees_with_the_machine_where_the_machine_fits() {
        let mut random = Random::new(1);
        for _ in 0..20_000 {
            let mut draw = || (random.next() as i64 >> random.below(64)) as i128;
            let (a, b) = (draw(), draw());
            assert_eq!(Whole::from(a).plus(&Whole::from(b)), Whole::from(a + b));
            assert_eq!(Whole::from(a).times(&Whole::from(b)), Whole::from(a * b));
            assert_eq!(Whole::from(a).minus(), Whole::from(-a));
            assert_eq!(Whole::from(a).sign(), a.signum() as i32);
        }
    }

    #[test]
    fn long_numbers_follow_the_laws() {
        let mut random = Random::new(2);
        for _ in 0..5_000 {
            let mut draw = || {
                let limbs = (0..random.below(6)).map(|_| random.pick(&[0, 1, u64::MAX, random.clone().next()])).collect();
                Whole::new(random.chance(2), limbs)
            };
            let (a, b, c) = (draw(), draw(), draw());
            assert_eq!(a.plus(&b), b.plus(&a));
            assert_eq!(a.plus(&b).plus(&c), a.plus(&b.plus(&c)));
            assert_eq!(a.plus(&b).plus(&b.minus()), a);
            assert_eq!(a.times(&b), b.times(&a));
            assert_eq!(a.times(&b).times(&c), a.times(&b.times(&c)));
            assert_eq!(a.times(&b.plus(&c)), a.times(&b).plus(&a.times(&c)));
            assert_eq!(a.times(&b).sign(), a.sign() * b.sign());
            assert_eq!(cross(&a, &b, &a, &b), Whole::ZERO);
            assert_eq!(cross(&a, &b, &b, &c), a.times(&b).plus(&b.times(&c).minus()));
        }
    }
}
