//! What dragging one vertex costs in a scene that keeps its boxes.

use crate::plain;
use crate::product::Product;
use crate::scenes;
use crate::slices::Slices;
use crate::timing::{shortest, Way};
use crate::Bench;
use compare::calls::stored::{self, Wrong, BOX_NUMBERS};
use compare::numbers::random::Random;
use compare::scene::Scene;
use compare::text::write;

/// A call of a microsecond is timed over so many.
const MOVES: usize = 64;

/// A scene with its boxes, and where its vertices go: by a step at both times, and back.
struct Dragged {
    slices: Slices,
    boxes: Vec<i32>,
    own: Vec<[i32; 6]>,
    next: usize,
}

impl Dragged {
    fn new(product: &Product, scene: &Scene) -> Dragged {
        let (slices, mut boxes) = (Slices::of(scene), vec![0; BOX_NUMBERS]);
        product.fill_boxes(&slices, &mut boxes).expect("a scene");
        let own = scene.vertices.iter().map(|place| place.map(|n| n as i32)).collect();
        Dragged { slices, boxes, own, next: 0 }
    }

    /// Another vertex each time; each is moved away, and the next time that it is its turn it is moved back.
    fn drag(&mut self, product: &Product) -> u64 {
        let count = self.own.len();
        let (vertex, away) = (37 * self.next % count, (self.next / count).is_multiple_of(2));
        self.next += 1;
        let to = self.own[vertex].map(|n| if away { n + 5 } else { n });
        product.move_vertex(&mut self.slices, &mut self.boxes, vertex, &to).expect("a vertex without seams") as u64
    }

    /// The boxes are still those of the scene, and only those were written.
    fn hold(&self) {
        let places = self.slices.positions.chunks_exact(6).map(|place| std::array::from_fn(|k| place[k] as i64));
        let wide = |numbers: &[u16]| numbers.iter().map(|&v| v as usize).collect::<Vec<usize>>();
        let edges = wide(&self.slices.edges).chunks_exact(2).map(|ends| [ends[0], ends[1]]).collect();
        let triangles =
            wide(&self.slices.triangles).chunks_exact(3).map(|corners| [corners[0], corners[1], corners[2]]).collect();
        let scene = Scene { vertices: places.collect(), edges, triangles, seams: vec![] };
        let right = stored::boxes(&scene, Wrong::None);
        assert!(
            right.iter().zip(&self.boxes).all(|(&right, &n)| right == n as i64),
            "after moves the boxes are those of the scene"
        );
    }
}

impl Bench {
    pub fn dragging(&self) {
        let Some(product) = &self.product else { return };
        println!("\ndragging one vertex of a full-size scene that keeps its boxes");
        for fold in [32, 8, 2] {
            let scene = scenes::full_size(&mut Random::new(fold as u64), fold);
            self.moves(product, fold, &scene);
            self.drags(product, &scene);
            self.lists_from_boxes(product, &scene);
        }
    }

    /// A move over filling in all boxes; and both without the check of the scene, which each call makes.
    fn moves(&self, product: &Product, fold: usize, scene: &Scene) {
        let mut dragged = Dragged::new(product, scene);
        let (slices, mut boxes) = (Slices::of(scene), vec![0; BOX_NUMBERS]);
        let ways = vec![
            Way::new("move", || (0..MOVES).map(|_| dragged.drag(product)).sum()),
            Way::new("fill", || (0..MOVES).map(|_| product.fill_boxes(&slices, &mut boxes).expect("a scene") as u64).sum()),
            Way::new("check", || (0..MOVES).map(|_| product.check(&slices).expect("a scene") as u64).sum()),
        ];
        let times = shortest(ways, self.rounds);
        dragged.hold();
        let [moved, filled, checked] = [0, 1, 2].map(|way| 1e6 * times[way].1 / MOVES as f64);
        let name = format!("folds of {fold} columns");
        println!("  {name:<20} a move {moved:>6.2} us   filling all {filled:>6.2} us   a move over it {:>5.2}", moved / filled);
        println!(
            "  {:<20} the check of the scene {checked:>6.2} us; without it a move over filling {:>5.2}",
            "",
            (moved - checked) / (filled - checked)
        );
    }

    /// A move, and the list and its words from the boxes, over the text read and the scene judged anew.
    fn drags(&self, product: &Product, scene: &Scene) {
        let mut dragged = Dragged::new(product, scene);
        let text = write(scene);
        let (mut read, mut counts) = (Slices::with_room(), [0; 4]);
        let room = 2 * plain::list(&dragged.slices, &mut []) + 100;
        let [mut stored, mut anew] = [(); 2].map(|()| (vec![0; room], vec![0; room]));
        let ways = vec![
            Way::new("drag", || {
                dragged.drag(product);
                product.settle_stored(&dragged.slices, &dragged.boxes, &mut stored.0, &mut stored.1).expect("there is room")
                    as u64
            }),
            Way::new("anew", || {
                product.read(text.as_bytes(), &mut read, &mut counts).expect("a scene");
                // a full-size scene fills its buffers, and has no seams
                let seams = std::mem::take(&mut read.seams);
                let count = product.settle_scene(&read, &mut anew.0, &mut anew.1).expect("there is room");
                read.seams = seams;
                count as u64
            }),
        ];
        let times = shortest(ways, self.rounds);
        dragged.hold();
        let [drag, anew] = [0, 1].map(|way| 1e6 * times[way].1);
        println!(
            "  {:<20} move, list and judge {drag:>8.2} us   read and judge anew {anew:>8.2} us   over it {:>5.2}",
            "",
            drag / anew
        );
    }

    /// The list from the boxes, with the look over all of them, over the list that works them out; and the look alone, which is what is left of
    /// the check of the scene where the last number of the last box is stale.
    fn lists_from_boxes(&self, product: &Product, scene: &Scene) {
        let Dragged { slices, boxes, .. } = Dragged::new(product, scene);
        let mut stale = boxes.clone();
        stale[BOX_NUMBERS - 1] += 1;
        let count = plain::list(&slices, &mut []);
        let (mut ours, mut stored, mut none, mut tests) = (vec![0; count], vec![0; count], vec![0; count], [[0; 1]; 3]);
        let [ours_tests, stored_tests, no_tests] = &mut tests;
        let ways = vec![
            Way::new("stored", || product.list_stored(&slices, &boxes, &mut stored, stored_tests).expect("right boxes") as u64),
            Way::new("listed", || product.list(&slices, &mut ours, ours_tests).expect("there is room") as u64),
            Way::new("looked", || product.list_stored(&slices, &stale, &mut none, no_tests).expect_err("a stale box")),
            Way::new("checked", || product.check(&slices).expect("a scene") as u64),
        ];
        let times = shortest(ways, self.rounds);
        assert!(ours == stored && tests[0] == tests[1], "the list from the boxes is the list");
        let [stored, listed, looked, checked] = [0, 1, 2, 3].map(|way| 1e6 * times[way].1);
        println!(
            "  {:<20} the list from its boxes {stored:>6.2} us   the list {listed:>6.2} us   over it {:>5.2}; the look {:>6.2} us, over the list {:>5.2}",
            "",
            stored / listed,
            looked - checked,
            (looked - checked) / listed
        );
    }
}
