//! usage: whole-numbers [SEED [CASES]]
//! What the whole numbers of any size come to, for .ci/after/22-whole to work out again: a line for each case, `OPERATION NUMBERS = RESULT`, all in
//! hexadecimal. The numbers are written from the limbs as drawn, the results by the numbers themselves.

use compare::numbers::random::Random;
use compare::numbers::whole::{cross, Whole};
use std::fmt::Write;

const CASES: u64 = 12_000;
/// Limbs of a drawn number: up to 640 bits.
const MOST_LIMBS: usize = 10;

fn main() {
    let words: Vec<String> = std::env::args().skip(1).collect();
    let number = |place: usize, otherwise: u64| match words.get(place) {
        Some(word) => word.parse().expect("SEED and CASES are numbers"),
        None => otherwise,
    };
    let (mut random, cases) = (Random::new(number(0, 1)), number(1, CASES));
    let mut out = String::new();
    for case in 0..cases {
        let (operation, how_many, of) = OPERATIONS[case as usize % OPERATIONS.len()];
        let drawn = drawn(&mut random, how_many);
        let numbers: Vec<Whole> = drawn.iter().map(|drawn| Whole::new(drawn.negative, drawn.limbs.clone())).collect();
        let words: Vec<String> = drawn.iter().map(Drawn::in_hex).collect();
        writeln!(out, "{operation} {} = {}", words.join(" "), of(&numbers)).expect("a string takes all");
    }
    (0..cases / 10).for_each(|_| of_the_machine(&mut random, &mut out));
    compare::running::streams::print(&out);
}

type Operation = (&'static str, usize, fn(&[Whole]) -> String);

/// Each with how many numbers it takes.
const OPERATIONS: [Operation; 8] = [
    ("as-it-is", 1, |n| n[0].in_hex()),
    ("sign", 1, |n| n[0].sign().to_string()),
    ("minus", 1, |n| n[0].minus().in_hex()),
    ("plus", 2, |n| n[0].plus(&n[1]).in_hex()),
    ("less", 2, |n| n[0].plus(&n[1].minus()).in_hex()),
    ("times", 2, |n| n[0].times(&n[1]).in_hex()),
    ("equal", 2, |n| ((n[0] == n[1]) as u8).to_string()),
    ("cross", 4, |n| cross(&n[0], &n[1], &n[2], &n[3]).in_hex()),
];

#[derive(Clone)]
struct Drawn {
    negative: bool,
    limbs: Vec<u64>,
}

impl Drawn {
    /// Limb by limb, with zeros in front where there are some.
    fn in_hex(&self) -> String {
        let limbs: String = self.limbs.iter().rev().map(|limb| format!("{limb:016x}")).collect();
        format!("{}0x0{limbs}", if self.negative { "-" } else { "" })
    }
}

/// So many numbers; at times one is another again, or its opposite, or a step beside it.
fn drawn(random: &mut Random, how_many: usize) -> Vec<Drawn> {
    let mut out: Vec<Drawn> = (0..how_many).map(|_| one(random)).collect();
    for place in 1..how_many {
        if random.chance(3) {
            out[place] = beside(random, &out[random.clone().below(place)]);
        }
    }
    out
}

/// Of any length, its limbs at an edge more often than not.
fn one(random: &mut Random) -> Drawn {
    let length = if random.chance(3) { 1 + random.below(2) } else { random.below(MOST_LIMBS + 1) };
    let negative = random.chance(2);
    let limbs = (0..length).map(|_| match random.below(8) {
        0 => 0,
        1 => 1,
        2 => u64::MAX,
        3 => u64::MAX - 1,
        4 => 1 << 63,
        5 => (1 << 63) - 1,
        6 => random.next() >> random.below(64),
        _ => random.next(),
    });
    Drawn { negative, limbs: limbs.collect() }
}

fn beside(random: &mut Random, other: &Drawn) -> Drawn {
    let mut out = other.clone();
    out.negative ^= random.chance(2);
    if let (Some(limb), true) = (out.limbs.first_mut(), random.chance(2)) {
        *limb = random.pick(&[limb.wrapping_add(1), limb.wrapping_sub(1)]);
    }
    out
}

/// A number of the machine's, in the machine's own digits.
fn of_the_machine(random: &mut Random, out: &mut String) {
    let wide = ((random.next() as i128) << 64 | random.next() as i128) >> random.below(128);
    let edge = random.pick(&[0, 1, -1, i128::MAX, i128::MIN, i128::MIN + 1, u64::MAX as i128, -(u64::MAX as i128), 1 << 64]);
    let machine = if random.chance(4) { edge } else { wide };
    writeln!(out, "from {machine} = {}", Whole::from(machine).in_hex()).expect("a string takes all");
}
