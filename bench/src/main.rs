//! usage: bench [quick | once]
//! Ratios side by side in one process, as tables. docs/BENCHMARK.md tells what is measured. With `once` every way goes once, which says nothing of
//! times, and holds the library's words to those of plain Rust.
//! Built with an earlier library beside this one, `bench against SCENES` compares the two.

#[cfg(feature = "earlier")]
mod against;
mod contacts;
mod dragging;
#[cfg(feature = "earlier")]
mod earlier;
mod errors;
mod floor;
mod plain;
mod plain_contacts;
mod plain_import;
mod plain_report;
mod plain_rest;
mod plain_saving;
mod product;
mod resting;
mod scenes;
mod slices;
mod sweep;
#[cfg(test)]
mod tests;
mod timing;
mod wide;

use compare::list::box_tests;
use compare::making::sewing::split;
use compare::numbers::random::Random;
use compare::scene::{Scene, REPORT_ROOM};
use compare::text::write;
use compare::ways::cubic;
use product::Product;
use slices::{parts, Slices};
use timing::{shortest, Timed, Way};

/// The tolerance of the cubic that is timed.
const TOLERANCE: f64 = 1e-6;
const OURS: &str = "the library";

/// The verdict of a pair is a short way, and wants many rounds.
const PAIR_ROUNDS: usize = 100;

/// Seams of the scenes that are sewn.
const SEAMS: usize = 255;

/// A scene with room for its list, its words, and the list once more.
struct Sewn {
    slices: Slices,
    list: Vec<u32>,
    words: Vec<u8>,
    alone: Vec<u32>,
    tests: [usize; 1],
}

impl Sewn {
    fn new(slices: &Slices) -> Sewn {
        let count = plain::list(slices, &mut []);
        Sewn { slices: slices.clone(), list: vec![0; count], words: vec![0; count], alone: vec![0; count], tests: [0] }
    }

    fn hold(&self) {
        let mut list = vec![0; self.list.len()];
        plain::list(&self.slices, &mut list);
        let right = list.iter().map(|&entry| plain_rest::settle(&self.slices, entry).byte());
        assert!(list == self.list && right.eq(self.words.iter().copied()), "the library's words are those of plain Rust");
    }
}

struct Bench {
    rounds: usize,
    /// Pairs for each row of the table of wrong answers.
    pairs: u64,
    product: Option<Product>,
}

fn main() {
    let word = std::env::args().nth(1).unwrap_or_default();
    let (rounds, pairs) = match word.as_str() {
        "" => (300, 1_000_000),
        "once" => (1, 500),
        _ => (20, 20_000),
    };
    let bench = Bench { rounds, pairs, product: Product::find() };
    timing::warm_up();
    #[cfg(feature = "earlier")]
    if word == "against" {
        let scenes = std::env::args().nth(2).and_then(|word| word.parse().ok());
        return bench.against(scenes.expect("how many scenes"));
    }
    bench.all_verdicts();
    bench.sewn_verdicts();
    bench.own_lists();
    bench.lists();
    bench.resting();
    bench.sliding();
    bench.contacts();
    bench.reports();
    bench.saving();
    bench.dragging();
    bench.importing();
    bench.series();
    bench.wrong_answers();
}

/// Each way's time for one piece of work, and the library's time over it.
fn table(title: &str, (unit, units): (&str, f64), times: &[Timed]) {
    let ours = times.iter().find(|(name, _)| *name == OURS);
    println!("\n{title}");
    for (name, time) in times {
        let ratio = ours.map_or("-".to_string(), |(_, ours)| format!("{:.2}", ours / time));
        println!("  {name:<44} {:>10.2} {unit}   library over it: {ratio:>5}", time * units);
    }
}

impl Bench {
    fn all_verdicts(&self) {
        let mut random = Random::new(1);
        let kinds: [(&str, Scene); 4] = [
            ("pt, cloth in layers", scenes::layers(&mut random, 7, 7, 1_000, false)),
            ("pt, anywhere", scenes::scattered(&mut random, 70, 200_000, false)),
            ("ee, cloth in layers", scenes::layers(&mut random, 5, 5, 1_000, true)),
            ("ee, anywhere", scenes::scattered(&mut random, 90, 200_000, true)),
        ];
        for (name, scene) in kinds {
            self.verdicts(name, &Slices::of(&scene));
        }
    }

    fn verdicts(&self, name: &str, slices: &Slices) {
        let mut list = vec![0; 20_000];
        let count = plain::list(slices, &mut list);
        let list = &list[..count];
        let right: Vec<u8> = list.iter().map(|&entry| plain_rest::settle(slices, entry).byte()).collect();
        let (mut made, mut words, mut made_alone) = (vec![0; list.len()], vec![0; count], vec![0; list.len()]);
        let mut ways = baselines(slices, list);
        if let Some(product) = &self.product {
            ways.push(Way::new(OURS, || product.settle_scene(slices, &mut made, &mut words).expect("there is room") as u64));
            ways.push(Way::new("its list", || product.list(slices, &mut made_alone, &mut [0; 1]).expect("there is room") as u64));
        }
        let mut times = shortest(ways, self.rounds.max(PAIR_ROUNDS));
        if self.product.is_some() {
            // the call that judges a whole scene makes its list too
            let (_, listing) = times.pop().unwrap();
            times.last_mut().unwrap().1 -= listing;
            assert!(made == list && words == right, "the library's words are those of plain Rust");
        }
        let hits = right.iter().filter(|&&word| word == product::HIT).count();
        let title = format!("{name}: a pair decided, listing left out ({count} pairs, {hits} of them hits)");
        table(&title, ("ns", 1e9 / count as f64), &times);
    }

    /// The same cloth in one piece and in many, sewn together by 255 seams. Every part has the corners that it had, by the vertices stood for; a
    /// vertex that is a copy has the pairs of the one that it stands for.
    fn sewn_verdicts(&self) {
        let Some(product) = &self.product else { return };
        let mut random = Random::new(6);
        let kinds: [(&str, Scene); 4] = [
            ("pt, cloth in layers", scenes::layers(&mut random, 7, 7, 1_000, false)),
            ("pt, anywhere", scenes::scattered(&mut random, 70, 200_000, false)),
            ("ee, cloth in layers", scenes::layers(&mut random, 5, 5, 1_000, true)),
            ("ee, anywhere", scenes::scattered(&mut random, 90, 200_000, true)),
        ];
        println!("\na pair decided in a scene with 255 seams over one without, listing left out");
        for (name, scene) in kinds {
            let sewn = split(&mut random, scene.clone(), SEAMS);
            let mut lent = [&scene, &sewn].map(|scene| Sewn::new(&Slices::of(scene)));
            let counts = [0, 1].map(|place| lent[place].list.len());
            let mut ways = Vec::new();
            for lent in &mut lent {
                let Sewn { slices, list, words, alone, tests } = lent;
                ways.push(Way::new("settled", || product.settle_scene(slices, list, words).expect("there is room") as u64));
                ways.push(Way::new("listed", || product.list(slices, alone, tests).expect("there is room") as u64));
            }
            let times = shortest(ways, self.rounds.max(PAIR_ROUNDS));
            lent.iter().for_each(Sewn::hold);
            let [without, with] = [0, 1].map(|place| 1e9 * (times[2 * place].1 - times[2 * place + 1].1) / counts[place] as f64);
            println!(
                "  {name:<24} without {without:>8.2} ns      with {with:>8.2} ns      with over without {:>5.2}",
                with / without
            );
        }
    }

    /// A list of one's own, its scene checked and its entries looked at, over the same pairs settled where the library lists them.
    fn own_lists(&self) {
        let Some(product) = &self.product else { return };
        let mut random = Random::new(7);
        let kinds: [(&str, Scene); 4] = [
            ("pt, cloth in layers", scenes::layers(&mut random, 7, 7, 1_000, false)),
            ("pt, anywhere", scenes::scattered(&mut random, 70, 200_000, false)),
            ("ee, cloth in layers", scenes::layers(&mut random, 5, 5, 1_000, true)),
            ("ee, anywhere", scenes::scattered(&mut random, 90, 200_000, true)),
        ];
        println!("\nthe pairs of a list of one's own, the whole call, over the pairs themselves");
        for (name, scene) in kinds {
            let Sewn { slices, mut list, mut words, mut alone, mut tests } = Sewn::new(&Slices::of(&scene));
            product.list(&slices, &mut list, &mut tests).expect("there is room");
            let (own, mut own_words) = (list.clone(), vec![0; list.len()]);
            let ways = vec![
                Way::new("settled", || product.settle_scene(&slices, &mut list, &mut words).expect("there is room") as u64),
                Way::new("listed", || product.list(&slices, &mut alone, &mut tests).expect("there is room") as u64),
                Way::new("own", || product.settle_list(&slices, &own, &mut own_words).expect("no entry at fault") as u64),
            ];
            let times = shortest(ways, self.rounds);
            assert!(words == own_words, "one's own list has the words of the library's");
            let [pairs, own] = [times[0].1 - times[1].1, times[2].1].map(|time| 1e9 * time / words.len() as f64);
            println!("  {name:<24} a pair  {pairs:>8.2} ns      own  {own:>8.2} ns      own over a pair    {:>5.2}", own / pairs);
        }
    }

    fn lists(&self) {
        for fold in [32, 8, 2] {
            let scene = scenes::full_size(&mut Random::new(fold as u64), fold);
            self.list(&format!("folds of {fold} columns"), &scene);
            let mixed = scenes::in_random_order(&mut Random::new(1), scene);
            self.list(&format!("folds of {fold} columns, parts in random order"), &mixed);
        }
        self.list("everything in one place", &scenes::in_one_place(&mut Random::new(1)));
    }

    fn list(&self, name: &str, scene: &Scene) {
        let slices = Slices::of(scene);
        let count = plain::list(&slices, &mut []);
        let (mut plain, mut swept, mut ours, mut tests) = (vec![0; count], vec![0; count], vec![0; count], [0; 1]);
        let mut ways = vec![
            Way::new("every pair tested, in plain safe Rust", || plain::list(&slices, &mut plain) as u64),
            Way::new("a sweep along one axis, in plain safe Rust", || sweep::list(&slices, &mut swept) as u64),
        ];
        if let Some(product) = &self.product {
            ways.push(Way::new(OURS, || product.list(&slices, &mut ours, &mut tests).expect("there is room") as u64));
        }
        let times = shortest(ways, self.rounds);
        assert!(plain == swept, "the sweep's list is that of all pairs");
        assert!(self.product.is_none() || plain == ours, "the library's list is that of plain Rust");
        assert!(
            self.product.is_none() || tests[0] == box_tests::of(scene),
            "the library's box tests are those of the independent program"
        );
        let title =
            format!("the list of a full-size scene, {name} ({count} pairs, {} box tests of points)", box_tests::of(scene));
        table(&title, ("us", 1e6), &times);
    }

    fn reports(&self) {
        let mut random = Random::new(3);
        let scenes: [(&str, Scene); 4] = [
            ("a full-size sheet", scenes::full_size(&mut random, 32)),
            ("a full-size sheet with 255 seams", scenes::sewn_sheet(&mut Random::new(4))),
            ("points and triangles in layers", scenes::layers(&mut random, 4, 4, 1_000, false)),
            ("edges in layers", scenes::layers(&mut random, 3, 3, 1_000, true)),
        ];
        for (name, scene) in &scenes {
            self.read(name, write(scene).as_bytes());
        }
        for (name, scene) in scenes {
            self.report(name, write(&scene).as_bytes());
        }
    }

    fn read(&self, name: &str, text: &[u8]) {
        let mut ours = Slices::with_room();
        let (mut plain, mut counts) = (Slices::default(), [0; 4]);
        let mut ways = vec![Way::new("plain Rust, one pass", || {
            plain = plain_report::read(text).unwrap_or_default();
            plain.positions.len() as u64
        })];
        if let Some(product) = &self.product {
            ways.push(Way::new(OURS, || product.read(text, &mut ours, &mut counts).expect("a scene") as u64));
        }
        let times = shortest(ways, self.rounds);
        let [vertices, edges, triangles, seams] = counts;
        let same = plain.positions == ours.positions[..6 * vertices]
            && plain.edges == ours.edges[..2 * edges]
            && plain.triangles == ours.triangles[..3 * triangles]
            && plain.seams == ours.seams[..2 * seams];
        assert!(self.product.is_none() || same, "the library reads what plain Rust reads");
        table(&format!("reading alone, {name} ({} bytes)", text.len()), ("us", 1e6), &times);
    }

    /// The largest text, and one with seams.
    fn saving(&self) {
        let scenes: [(&str, Scene); 2] = [
            ("the largest text", compare::text::as_long_as(compare::scene::TEXT_LIMIT)),
            ("a full-size sheet with 255 seams", scenes::sewn_sheet(&mut Random::new(4))),
        ];
        for (name, scene) in scenes {
            self.save(name, &Slices::of(&scene), write(&scene).as_bytes());
        }
    }

    fn save(&self, name: &str, slices: &Slices, text: &[u8]) {
        let (mut plain, mut formatted, mut ours) = (vec![0; text.len()], vec![0; text.len()], vec![0; text.len()]);
        let mut ways = vec![
            Way::new("plain Rust, the length and then the text", || {
                plain_saving::save(slices, &mut plain).expect("a scene") as u64
            }),
            Way::new("write!, with no check", || plain_saving::formatted(slices, &mut formatted).expect("room") as u64),
        ];
        if let Some(product) = &self.product {
            ways.push(Way::new(OURS, || product.save(slices, &mut ours).expect("a scene") as u64));
        }
        let times = shortest(ways, self.rounds);
        assert!(plain == text && formatted == text && (self.product.is_none() || ours == text), "each way writes the same bytes");
        table(&format!("saving, {name} ({} bytes)", text.len()), ("us", 1e6), &times);
    }

    /// The largest pair of OBJ files.
    fn importing(&self) {
        let [start, end] = plain_import::largest();
        let [mut searched, mut found] = [0, 1].map(|_| plain_import::Room::new());
        let (mut ours, mut boxes, mut counts) = (Slices::with_room(), vec![0; searched.boxes.len()], [0; 4]);
        let plain = |table: bool, room: &mut plain_import::Room| {
            plain_import::import(&start, &end, table, room).expect("a scene");
            room.counts[1] as u64
        };
        let mut ways = vec![
            Way::new("plain Rust, edges looked for one by one", || plain(false, &mut searched)),
            Way::new("plain Rust, edges found by a table", || plain(true, &mut found)),
        ];
        if let Some(product) = &self.product {
            ways.push(Way::new(OURS, || {
                product.import(&start, &end, &mut ours, &mut boxes, &mut counts).expect("a scene");
                counts[1] as u64
            }));
        }
        let times = shortest(ways, self.rounds);
        let same = searched.positions == ours.positions && searched.edges == ours.edges && searched.triangles == ours.triangles;
        assert!(self.product.is_none() || (same && searched.boxes == boxes), "the library imports what plain Rust imports");
        assert!(searched.edges == found.edges && searched.boxes == found.boxes, "each way finds the same edges");
        let [vertices, edges, triangles] = searched.counts;
        let title = format!(
            "importing, the largest pair of OBJ files (twice {} bytes; {vertices} vertices, {edges} edges, {triangles} faces)",
            start.len()
        );
        table(&title, ("us", 1e6), &times);
    }

    /// The series that is kept, a long text of few large steps, and one of many small ones: over the reports of their steps, one after the other.
    fn series(&self) {
        let kept = std::fs::read(compare::making::kept::folder().join("series/sleeve.series")).expect("the sleeve");
        let kept = compare::series::read(&kept).expect("a series");
        let texts = [
            ("a patch drawn through a sleeve", kept),
            ("large steps", scenes::large_steps(&mut Random::new(5))),
            ("small steps", compare::series::making::up_and_down(&[4; 300])),
        ];
        for (name, series) in texts {
            self.tell(name, &series);
        }
    }

    fn tell(&self, name: &str, series: &compare::series::Series) {
        let Some(product) = &self.product else { return };
        let text = compare::series::write(series);
        let steps: Vec<String> = series.steps().iter().map(write).collect();
        let (mut report, mut slices) = ([0; product::REPORT_BYTES], Slices::with_room());
        let (mut boxes, mut list) = (vec![0; compare::calls::stored::BOX_NUMBERS], [0; REPORT_ROOM]);
        let (mut log, mut told): (product::Log, product::Told) = ([0; 128], [0; 8]);
        let ways = vec![
            Way::new("the library's reports of the steps", || {
                steps.iter().map(|step| product.report(step.as_bytes(), &mut report) as u64).sum()
            }),
            Way::new(OURS, || {
                let steps = product.tell_series(text.as_bytes(), &mut slices, &mut boxes, &mut list, &mut log, &mut told);
                steps.expect("a series") as u64
            }),
        ];
        let times = shortest(ways, self.rounds);
        let right = compare::series::ended(text.as_bytes(), REPORT_ROOM).expect("a series").told;
        assert!(told[2] == right.listed && told[3..7] == right.totals, "the library tells what the independent program tells");
        let title = format!("a series, {name} ({} bytes, {} steps, {} pairs)", text.len(), steps.len(), right.listed);
        table(&title, ("us", 1e6), &times);
    }

    fn report(&self, name: &str, text: &[u8]) {
        let mut list = [0; REPORT_ROOM];
        let (mut plain, mut ours, mut length) = (Vec::new(), [0; product::REPORT_BYTES], 0);
        let mut ways = vec![Way::new("plain Rust", || {
            plain.clear();
            plain_report::report(text, &mut list, &mut plain);
            plain.len() as u64
        })];
        if let Some(product) = &self.product {
            ways.push(Way::new(OURS, || {
                length = product.report(text, &mut ours);
                length as u64
            }));
        }
        let times = shortest(ways, self.rounds);
        assert!(self.product.is_none() || plain == ours[..length], "the library's report is that of plain Rust");
        let lines = plain.iter().filter(|&&byte| byte == b'\n').count();
        table(&format!("a whole report, {name} ({} bytes, {lines} lines)", text.len()), ("us", 1e6), &times);
    }

    fn wrong_answers(&self) {
        println!("\nwrong answers per million pairs: contacts missed + contacts invented");
        println!("  {:<62}{:>16}{:>16}{:>16}{:>16}{:>10}", "the cubic's tolerance:", "0", "1e-9", "1e-6", "1e-3", "library");
        for (word, kind) in [("pt", errors::Kind::PointTriangle), ("ee", errors::Kind::EdgeEdge)] {
            for source in errors::SOURCES {
                let mut random = Random::new(source.reach as u64);
                let count = errors::count(&mut random, kind, source, self.pairs, self.product.as_ref());
                let per_million = |n: u64| (n * 1_000_000 + count.pairs / 2) / count.pairs;
                let both = |wrong: errors::Wrong| format!("{} + {}", per_million(wrong.missed), per_million(wrong.invented));
                let [a, b, c, d] = count.cubic.map(both);
                let library = if self.product.is_some() { both(count.library) } else { "-".to_string() };
                let row = format!("{word}, {} ({}% hits)", source.name, 100 * count.hits / count.pairs);
                println!("  {row:<62}{a:>16}{b:>16}{c:>16}{d:>16}{library:>10}");
            }
        }
    }
}

/// The ways beside the library, on the same pairs.
fn baselines<'a>(slices: &'a Slices, list: &'a [u32]) -> Vec<Way<'a>> {
    let pairs = move || list.iter().copied();
    vec![
        Way::new("a cubic in doubles, tolerance 1e-6", move || pairs().map(|e| by_cubic(slices, e) as u64).sum()),
        Way::new("128-bit whole numbers, straightforwardly", move || {
            pairs().map(|entry| wide::judge(slices, entry) as u64).sum()
        }),
        Way::new("54 (pt) or 60 (ee) 64-bit multiplications", move || {
            pairs().for_each(|entry| floor_of(slices, entry));
            0
        }),
        Way::new("the same way in plain Rust, sharing too", move || {
            pairs().map(|entry| plain_rest::settle(slices, entry).byte() as u64).sum()
        }),
    ]
}

fn by_cubic(slices: &Slices, entry: u32) -> bool {
    let moving = |vertex: usize| &slices.moving[vertex];
    let (kind, first, second) = parts(entry);
    if kind == 0 {
        cubic::point_triangle(moving(first), slices.corners(second).map(moving), TOLERANCE)
    } else {
        cubic::edge_edge(slices.ends(first).map(moving), slices.ends(second).map(moving), TOLERANCE)
    }
}

/// As many multiplications as a pair takes at the least, on numbers of the scene.
fn floor_of(slices: &Slices, entry: u32) {
    let (kind, first, _) = parts(entry);
    let count = if kind == 0 { floor::POINT_TRIANGLE } else { floor::EDGE_EDGE };
    let at = (6 * first).min(slices.wide.len() - count);
    floor::multiplications(&slices.wide[at..at + count]);
}
