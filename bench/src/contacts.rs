//! What a contact costs over a verdict: of one hit pair, and of a scene in which one pair in ten is hit.

use crate::plain_contacts::{at_once, by_size, by_steps, contact, ROW};
use crate::product::{Product, HIT};
use crate::scenes::layers;
use crate::slices::Slices;
use crate::timing::{shortest, Way};
use crate::{plain, plain_rest, Bench};
use compare::numbers::random::Random;
use compare::scene::Scene;

/// Places far from each other, in each of which the same parts stand several times, so that every listed pair is hit, and no two places alike.
fn all_hit(random: &mut Random, with_edges: bool) -> Scene {
    let mut scene = Scene::default();
    for place in 0..46 {
        let (x, y) = (20_000 * (place % 7) - 60_000, 20_000 * (place / 7) - 60_000);
        let mut near = |x: i64, y: i64, z: i64| [x, y, z].map(|n| n + random.between(-900, 900));
        let mut moving = |x: i64, y: i64, start: i64, end: i64| -> [i64; 6] {
            [near(x, y, start), near(x, y, end)].concat().try_into().unwrap()
        };
        let base = scene.vertices.len();
        if with_edges {
            let along = [moving(x - 6_000, y, 0, 0), moving(x + 6_000, y, 0, 0)];
            let across = [moving(x, y - 6_000, 5_000, -5_000), moving(x, y + 6_000, 5_000, -5_000)];
            scene.vertices.extend(along.into_iter().chain(across));
            scene.edges.extend([[base, base + 1]; 8]);
            scene.edges.extend([[base + 3, base + 2]; 8]);
        } else {
            let corners = [moving(x - 6_000, y - 6_000, 0, 0), moving(x + 6_000, y - 6_000, 0, 0), moving(x, y + 6_000, 0, 0)];
            scene.vertices.extend(corners);
            scene.vertices.extend((0..8).map(|_| moving(x, y - 2_000, 5_000, -5_000)));
            scene.triangles.extend([[base + 1, base + 2, base]; 8]);
        }
    }
    scene
}

/// A scene with room for everything.
struct Lent {
    slices: Slices,
    list: Vec<u32>,
    words: Vec<u8>,
    rows: Vec<u32>,
}

impl Lent {
    fn new(scene: &Scene) -> Lent {
        let slices = Slices::of(scene);
        let count = plain::list(&slices, &mut []);
        Lent { slices, list: vec![0; count], words: vec![0; count], rows: vec![0; ROW * count] }
    }

    fn hits(&self) -> usize {
        self.words.iter().filter(|&&word| word == HIT).count()
    }

    fn settled(&mut self, product: &Product) -> u64 {
        product.settle_scene(&self.slices, &mut self.list, &mut self.words).expect("there is room") as u64
    }

    fn contacts(&mut self, product: &Product) -> u64 {
        product.contact_scene(&self.slices, &mut self.list, &mut self.words, &mut self.rows).expect("there is room") as u64
    }

    fn listed(&mut self, product: &Product) -> u64 {
        product.list(&self.slices, &mut self.list, &mut [0]).expect("there is room") as u64
    }

    /// Plain Rust's words and contacts of the listed pairs, the list left out.
    fn plain(&mut self, cut: impl Fn(u64, u64) -> u32) -> u64 {
        for (place, &entry) in self.list.iter().enumerate() {
            self.words[place] = plain_rest::settle(&self.slices, entry).byte();
            if self.words[place] == HIT {
                let row = contact(&self.slices, entry, &cut).expect("a hit has a contact");
                self.rows[ROW * place..][..ROW].copy_from_slice(&row);
            }
        }
        self.rows.len() as u64
    }

    fn plain_words(&mut self) -> u64 {
        for (place, &entry) in self.list.iter().enumerate() {
            self.words[place] = plain_rest::settle(&self.slices, entry).byte();
        }
        self.words.len() as u64
    }
}

/// Each pair asked for by itself, in a scene that has nothing else.
struct Alone {
    scenes: Vec<Slices>,
    entry: u32,
}

impl Alone {
    fn new(random: &mut Random, with_edges: bool) -> Alone {
        let all = all_hit(random, with_edges);
        let step = if with_edges { 4 } else { 11 };
        let small = |at: usize| {
            let vertices = all.vertices[step * at..step * at + 4].to_vec();
            let edges = if with_edges { vec![[0, 1], [2, 3]] } else { vec![] };
            let triangles = if with_edges { vec![] } else { vec![[0, 1, 2]] };
            Slices::of(&Scene { vertices, edges, triangles, ..Scene::default() })
        };
        let scenes = (0..46).map(small).collect();
        Alone { scenes, entry: if with_edges { 1 << 20 | 1 } else { 3 << 10 } }
    }

    fn settle(&self, product: &Product) -> u64 {
        self.scenes.iter().map(|slices| product.settle(slices, self.entry).expect("a word") as u64).sum()
    }

    fn contact(&self, product: &Product) -> u64 {
        let mut row = [0; ROW];
        let ask = |slices: &Slices| {
            assert_eq!(product.contact(slices, self.entry, &mut row), Ok(HIT as usize));
            row[1] as u64
        };
        self.scenes.iter().map(ask).sum()
    }
}

impl Bench {
    pub fn contacts(&self) {
        println!("\nwhat a contact costs: the time of the word, the time with the contact, and the second over the first");
        for (kind, with_edges) in [("pt", false), ("ee", true)] {
            let mut random = Random::new(7);
            self.in_a_scene(&format!("{kind}, every pair hit"), &all_hit(&mut random, with_edges));
            if let Some(product) = &self.product {
                self.alone(kind, &Alone::new(&mut random, with_edges), product);
            }
            let side = if with_edges { 5 } else { 7 };
            self.in_a_scene(&format!("{kind}, cloth in layers"), &layers(&mut Random::new(1), side, side, 1_000, with_edges));
        }
    }

    fn in_a_scene(&self, name: &str, scene: &Scene) {
        let mut lent: Vec<Lent> = (0..7).map(|_| Lent::new(scene)).collect();
        for lent in &mut lent {
            plain::list(&lent.slices, &mut lent.list);
        }
        let [words, steps, sized, once, settled, contacts, listed] = &mut lent[..] else { unreachable!("seven") };
        let mut ways = vec![
            Way::new("plain Rust, words", || words.plain_words()),
            Way::new("plain Rust, ten steps a number", || steps.plain(by_steps)),
            Way::new("plain Rust, at once where it fits", || sized.plain(by_size)),
            Way::new("plain Rust, one division of 128 bits", || once.plain(at_once)),
        ];
        if let Some(product) = &self.product {
            ways.push(Way::new("the library, words", || settled.settled(product)));
            ways.push(Way::new("the library, contacts", || contacts.contacts(product)));
            ways.push(Way::new("the library, list", || listed.listed(product)));
        }
        let times: Vec<f64> = shortest(ways, self.rounds).into_iter().map(|(_, time)| time).collect();
        let (count, hits) = (steps.list.len(), steps.hits());
        println!("  {name}: {count} pairs, {hits} of them hits");
        let per_pair = 1e9 / count as f64;
        row("plain Rust, ten steps a number", times[0], times[1], per_pair);
        row("plain Rust, at once where it fits", times[0], times[2], per_pair);
        row("plain Rust, one division of 128 bits", times[0], times[3], per_pair);
        if self.product.is_some() {
            assert!(contacts.list == steps.list && contacts.words == steps.words, "the library's words are those of plain Rust");
            assert!(
                [&*steps, sized, once].iter().all(|plain| contacts.rows == plain.rows),
                "the library's contacts are those of plain Rust"
            );
            row("the library, listing left out", times[4] - times[6], times[5] - times[6], per_pair);
            row("the library, the whole call", times[4], times[5], per_pair);
        }
    }

    fn alone(&self, kind: &str, alone: &Alone, product: &Product) {
        let ways = vec![Way::new("word", || alone.settle(product)), Way::new("contact", || alone.contact(product))];
        let times = shortest(ways, 50 * self.rounds);
        println!("  {kind}, a hit pair asked for by itself, in a scene of four vertices");
        row("the library", times[0].1, times[1].1, 1e9 / alone.scenes.len() as f64);
    }
}

fn row(way: &str, word: f64, contact: f64, unit: f64) {
    println!("    {way:<40} {:>9.2} ns {:>9.2} ns   {:>5.2}", word * unit, contact * unit, contact / word);
}
