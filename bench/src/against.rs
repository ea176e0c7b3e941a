//! The library against an earlier one, in one process: the same words, and how long each takes.

use crate::product::Product;
use crate::scenes::{RESTING, SLIDING};
use crate::slices::{parts, Slices};
use crate::timing::{shortest, Way};
use crate::{earlier, plain, plain_rest, Bench};
use compare::making::generate;
use compare::numbers::random::Random;
use compare::scene::Scene;
use compare::verdicts::settled::WORDS;

/// Pairs of one scene that are also asked for piece by piece.
const ASKED_ALONE: usize = 40;

impl Bench {
    pub fn against(&self, scenes: u64) {
        let product = self.product.as_ref().expect("a library to compare");
        same_words(product, scenes);
        println!("\nfull-size flat scenes, the list left out: this library over the earlier one, and over plain Rust that searches every piece");
        let at_rest = RESTING.into_iter().map(|(name, make)| (name, make(&mut Random::new(5))[1].clone()));
        let sliding = SLIDING.into_iter().map(|(name, make)| (name, make(&mut Random::new(5))));
        for (name, scene) in at_rest.chain(sliding) {
            self.times(product, name, &Slices::of(&scene));
        }
    }

    fn times(&self, product: &Product, name: &str, slices: &Slices) {
        let count = plain::list(slices, &mut []);
        let [mut a, mut b, mut c, mut d] = [(); 4].map(|()| (vec![0; count], vec![0; count]));
        let ways = vec![
            Way::new("this", || product.settle_scene(slices, &mut a.0, &mut a.1).expect("there is room") as u64),
            Way::new("its list", || product.list(slices, &mut b.0, &mut [0]).expect("there is room") as u64),
            Way::new("the earlier", || earlier::settle_scene(slices, &mut c.0, &mut c.1).expect("there is room") as u64),
            Way::new("its list", || earlier::list(slices, &mut d.0, &mut [0]).expect("there is room") as u64),
        ];
        let times = shortest(ways, self.rounds);
        assert!(a == c && b.0 == d.0, "the two give the same words");
        let [mut all, mut list] = [(vec![0; count], vec![0; count]), (vec![0; count], Vec::new())];
        let plainly = shortest(
            vec![
                Way::new("plain", || plain_rest::settle_scene(slices, &mut all.0, &mut all.1) as u64),
                Way::new("its list", || plain::list(slices, &mut list.0) as u64),
            ],
            self.rounds,
        );
        assert!(a == all, "and plain Rust the same");
        let words = WORDS.map(|word| format!("{} {}", all.1.iter().filter(|&&byte| byte == word.byte()).count(), word.word()));
        let [this, other] = [times[0].1 - times[1].1, times[2].1 - times[3].1];
        let plainly = plainly[0].1 - plainly[1].1;
        println!(
            "  {name:<48} this {:>9.2} us   over the earlier {:>5.3}   over plain Rust {:>5.3}   {count} pairs: {}",
            1e6 * this,
            this / other,
            this / plainly,
            words.join(", ")
        );
    }
}

fn same_words(product: &Product, scenes: u64) {
    let (mut pairs, mut pieces, mut seen) = (0, 0, [0u64; 5]);
    for seed in 0..scenes {
        let scene: Scene = generate::scene(seed);
        let slices = Slices::of(&scene);
        let count = plain::list(&slices, &mut []);
        let [mut ours, mut theirs] = [(); 2].map(|()| (vec![0; count], vec![9; count]));
        let said = product.settle_scene(&slices, &mut ours.0, &mut ours.1);
        assert_eq!(said, earlier::settle_scene(&slices, &mut theirs.0, &mut theirs.1), "the answer of seed {seed}");
        assert!(ours == theirs, "the list or the words of seed {seed}");
        pairs += ours.1.len();
        ours.1.iter().for_each(|&word| seen[usize::from(word)] += 1);
        for &entry in ours.0.iter().step_by(1 + count / ASKED_ALONE) {
            assert_eq!(product.settle(&slices, entry), earlier::settle(&slices, entry), "a pair of seed {seed}");
            let own = if parts(entry).0 == 0 { 3 } else { 4 };
            for piece in 0..own {
                let both = [product.settle_piece(&slices, entry, piece), earlier::settle_piece(&slices, entry, piece)];
                assert_eq!(both[0], both[1], "a piece of seed {seed}");
            }
            pieces += own;
        }
    }
    println!(
        "{scenes} seeded scenes: {pairs} pairs ({} hit, {} miss, {} touch, {} apart) and {pieces} pieces, and no word differs",
        seen[0], seen[1], seen[3], seen[4]
    );
}
