//! Full-size scenes at rest over the same scenes moving: what deciding every listed pair costs.

use crate::plain_rest::settle_scene;
use crate::product::Product;
use crate::scenes::{RESTING, SLIDING};
use crate::slices::{parts, Slices};
use crate::timing::{shortest, Timed, Way};
use crate::{plain, Bench};
use compare::numbers::random::Random;
use compare::scene::Scene;
use compare::verdicts::settled::{joined, Settled, WORDS};

/// A scene with room for its list and its words.
struct Lent {
    slices: Slices,
    list: Vec<u32>,
    words: Vec<u8>,
}

impl Lent {
    fn new(scene: &Scene) -> Lent {
        let slices = Slices::of(scene);
        let count = plain::list(&slices, &mut []);
        Lent { slices, list: vec![0; count], words: vec![0; count] }
    }

    fn plain(&mut self) -> u64 {
        settle_scene(&self.slices, &mut self.list, &mut self.words) as u64
    }

    fn library(&mut self, product: &Product) -> u64 {
        product.settle_scene(&self.slices, &mut self.list, &mut self.words).expect("there is room") as u64
    }

    fn plain_list(&mut self) -> u64 {
        plain::list(&self.slices, &mut self.list) as u64
    }

    fn library_list(&mut self, product: &Product) -> u64 {
        product.list(&self.slices, &mut self.list, &mut [0; 1]).expect("there is room") as u64
    }

    fn said(&self) -> String {
        let count = |word: Settled| self.words.iter().filter(|&&byte| byte == word.byte()).count();
        let counts = WORDS.map(|word| format!("{} {}", count(word), word.word()));
        format!("{} pairs: {}", self.words.len(), counts.join(", "))
    }
}

impl Bench {
    /// Each call for a whole scene: list, and a word for each pair.
    pub fn resting(&self) {
        println!("\nthe call that judges a full-size scene, at rest over moving");
        for (name, make) in RESTING {
            let [moving, rest] = make(&mut Random::new(5)).map(|scene| Lent::new(&scene));
            self.at_rest_over_moving(name, moving, rest);
        }
    }

    /// Every listed pair is searched.
    pub fn sliding(&self) {
        println!("\nthe call that judges a full-size flat scene that moves in its plane, the list left out");
        for (name, make) in SLIDING {
            let mut lent = Lent::new(&make(&mut Random::new(5)));
            let ([mut listed, mut own, mut own_listed], mut ways) = ([(); 3].map(|()| copied(&lent)), Vec::new());
            ways.push(Way::new("plain", || lent.plain()));
            ways.push(Way::new("its list", || listed.plain_list()));
            if let Some(product) = &self.product {
                ways.push(Way::new("the library", || own.library(product)));
                ways.push(Way::new("its list", || own_listed.library_list(product)));
            }
            let times = shortest(ways, self.rounds);
            let searched: Vec<f64> = times.chunks(2).map(|pair| pair[0].1 - pair[1].1).collect();
            print!("  {name:<50} plain Rust {:>10.2} us", 1e6 * searched[0]);
            if self.product.is_some() {
                assert!(lent.words == own.words && lent.list == own.list, "the library's words are plain Rust's");
                print!("   the library {:>10.2} us   over plain Rust {:>5.2}", 1e6 * searched[1], searched[1] / searched[0]);
            }
            println!("   {}", lent.said());
        }
    }

    fn at_rest_over_moving(&self, name: &str, mut moving: Lent, mut rest: Lent) {
        let [mut listed, mut own_listed] = [copied(&rest), copied(&rest)];
        let ([mut own_moving, mut own_rest], mut ways) = ([copied(&moving), copied(&rest)], Vec::new());
        ways.push(Way::new("moving", || moving.plain()));
        ways.push(Way::new("at rest", || rest.plain()));
        ways.push(Way::new("its list", || listed.plain_list()));
        if let Some(product) = &self.product {
            ways.push(Way::new("moving", || own_moving.library(product)));
            ways.push(Way::new("at rest", || own_rest.library(product)));
            ways.push(Way::new("its list", || own_listed.library_list(product)));
        }
        let times = shortest(ways, self.rounds);
        println!("  {name}\n    moving, {}\n    at rest, {}", moving.said(), rest.said());
        print_row("the same way in plain Rust", &times[..3]);
        if let Some(product) = &self.product {
            assert!(moving.words == own_moving.words && moving.list == own_moving.list, "the library's words are plain Rust's");
            assert!(rest.words == own_rest.words && rest.list == own_rest.list, "and so at rest");
            asked_alone(&rest, product);
            print_row("the library", &times[3..]);
            let [over_moving, over_rest] = [0, 1].map(|way| times[3 + way].1 / times[way].1);
            let over_search = match (searched(&times[3..]), searched(&times[..3])) {
                (Some(ours), Some(plain)) => format!("{:.2}", ours / plain),
                _ => "-".to_string(),
            };
            println!(
                "    {:<30} moving {over_moving:>13.2}      at rest {over_rest:>13.2}      without the list {over_search:>13}",
                "the library over plain Rust"
            );
        }
    }
}

fn copied(lent: &Lent) -> Lent {
    Lent { slices: lent.slices.clone(), list: vec![0; lent.list.len()], words: vec![0; lent.words.len()] }
}

/// What a scene at rest takes beside its list, unless the list is nearly all of it: then the difference of two times says nothing.
fn searched(times: &[Timed]) -> Option<f64> {
    let (rest, list) = (times[1].1, times[2].1);
    (rest > 1.25 * list).then_some(rest - list)
}

fn print_row(way: &str, times: &[Timed]) {
    let (moving, rest) = (times[0].1, times[1].1);
    let search = searched(times).map_or("-".to_string(), |time| format!("{:.2}", 1e6 * time));
    println!(
        "    {way:<30} moving {:>10.2} us      at rest {:>10.2} us      without the list {search:>10} us      at rest over moving {:>5.2}",
        1e6 * moving,
        1e6 * rest,
        rest / moving
    );
}

/// Pairs asked for by themselves have the words that the call gave them, and those are what their pieces come to.
fn asked_alone(lent: &Lent, product: &Product) {
    let word = |byte: usize| WORDS.into_iter().find(|word| usize::from(word.byte()) == byte).expect("a word");
    for (&entry, &byte) in lent.list.iter().zip(&lent.words).step_by(1 + lent.words.len() / 500) {
        assert_eq!(product.settle(&lent.slices, entry), Ok(byte.into()), "a pair asked for alone");
        let count = if parts(entry).0 == 0 { 3 } else { 4 };
        let pieces: Vec<Settled> =
            (0..count).map(|piece| word(product.settle_piece(&lent.slices, entry, piece).expect("a piece"))).collect();
        assert_eq!(joined(&pieces).byte(), byte, "the pieces of a pair");
    }
}
