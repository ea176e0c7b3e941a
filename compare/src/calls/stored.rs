//! Document 02, §8: boxes kept with a scene, a vertex moved, and the list made from stored boxes. With it the ways in which this is got wrong.

use crate::calls::slices::{self, Slices};
use crate::list::listing;
use crate::scene::refusal::*;
use crate::scene::*;

/// What a box buffer has at least: six numbers for each part that a scene can have.
pub const BOX_NUMBERS: usize = 6 * (VERTEX_LIMIT + EDGE_LIMIT + TRIANGLE_LIMIT);

/// The mistakes that the request invites. `None` of them is the right way.
#[derive(Clone, Copy, Debug, Default, PartialEq, Eq)]
pub enum Wrong {
    #[default]
    None,
    /// a move joins stored boxes of vertices, where another may be stale
    JoinsStored,
    /// a move works out the parts of the vertex stood for
    BySeam,
    /// a move works out an edge's box from its first end alone
    OneEnd,
    /// a box has its highs first
    HighsFirst,
    /// 17 is asked after 7
    SeventeenLast,
    /// only boxes of parts that are listed are looked at
    ListedOnly,
    /// numbers behind the boxes are looked at too
    LooksBehind,
}

pub const WRONG: [Wrong; 7] = [
    Wrong::JoinsStored,
    Wrong::BySeam,
    Wrong::OneEnd,
    Wrong::HighsFirst,
    Wrong::SeventeenLast,
    Wrong::ListedOnly,
    Wrong::LooksBehind,
];

/// The vertices of every part, in the order of the boxes: vertices, then edges, then triangles.
pub fn parts(scene: &Scene) -> Vec<Vec<usize>> {
    let vertices = (0..scene.vertices.len()).map(|vertex| vec![vertex]);
    vertices.chain(scene.parts().map(<[usize]>::to_vec)).collect()
}

/// Six numbers, the three lows first, of the vertices of a part.
pub fn box_of(scene: &Scene, part: &[usize]) -> [i64; 6] {
    let values = |axis: usize| part.iter().flat_map(move |&v| [scene.vertices[v][axis], scene.vertices[v][axis + 3]]);
    std::array::from_fn(|k| if k < 3 { values(k).min().unwrap() } else { values(k - 3).max().unwrap() })
}

/// All boxes of a scene, packed by its counts.
pub fn boxes(scene: &Scene, wrong: Wrong) -> Vec<i64> {
    let order = |b: [i64; 6]| if wrong == Wrong::HighsFirst { [b[3], b[4], b[5], b[0], b[1], b[2]] } else { b };
    parts(scene).iter().flat_map(|part| order(box_of(scene, part))).collect()
}

/// 12 before the scene's own refusals.
fn checked(lent: Slices, stored: &[i64]) -> Result<Scene, Refusal> {
    if stored.len() < BOX_NUMBERS {
        return Err(Refusal::bare(LENT_TOO_SHORT));
    }
    slices::scene(lent)
}

/// The box buffer after the boxes were filled in.
pub fn filled(lent: Slices, stored: &[i64], wrong: Wrong) -> Result<Vec<i64>, Refusal> {
    let scene = checked(lent, stored)?;
    let mut after = boxes(&scene, wrong);
    after.extend_from_slice(&stored[after.len()..]);
    Ok(after)
}

/// Positions and boxes after a vertex was moved.
#[derive(Clone, Debug, PartialEq, Eq)]
pub struct Moved {
    pub positions: Vec<i64>,
    pub stored: Vec<i64>,
}

/// 12, the scene's, 5, 2, 15.
pub fn moved(lent: Slices, stored: &[i64], vertex: u64, to: [i64; 6], wrong: Wrong) -> Result<Moved, Refusal> {
    let mut scene = checked(lent, stored)?;
    if vertex >= scene.vertices.len() as u64 {
        return Err(Refusal::bare(NOT_THERE));
    }
    if !to.iter().all(|&coordinate| in_range(coordinate)) {
        return Err(Refusal::bare(OUT_OF_RANGE));
    }
    let vertex = vertex as usize;
    scene.vertices[vertex] = to;
    if scene.seams.iter().any(|&[i, j]| scene.vertices[i] != scene.vertices[j]) {
        return Err(Refusal::bare(BROKEN_SEAM));
    }
    let mut after = stored.to_vec();
    let has = |part: &[usize]| match wrong {
        Wrong::BySeam => part.iter().any(|&v| scene.stands_for(v) == scene.stands_for(vertex)),
        _ => part.contains(&vertex),
    };
    for (k, part) in parts(&scene).iter().enumerate().filter(|(_, part)| has(part)) {
        let worked_out = if wrong == Wrong::JoinsStored && part.len() > 1 {
            std::array::from_fn(|i| {
                let of = part.iter().map(|&v| after[6 * v + i]);
                if i < 3 {
                    of.min().unwrap()
                } else {
                    of.max().unwrap()
                }
            })
        } else if wrong == Wrong::OneEnd && part.len() == 2 {
            box_of(&scene, &part[..1])
        } else {
            box_of(&scene, part)
        };
        after[6 * k..6 * k + 6].copy_from_slice(&worked_out);
    }
    Ok(Moved { positions: scene.vertices.concat(), stored: after })
}

/// 12, the scene's, 17, 7; else the list.
pub fn listed(lent: Slices, stored: &[i64], room: usize, wrong: Wrong) -> Result<Vec<Pair>, Refusal> {
    let scene = checked(lent, stored)?;
    let all_right = || boxes(&scene, Wrong::None).iter().eq(&stored[..6 * parts(&scene).len()]);
    // a shorter way to the refusal that most questions end with
    if wrong == Wrong::None && !all_right() {
        return Err(Refusal::bare(STALE_BOX));
    }
    let pairs = listing::listed(&scene);
    let looked_at = |part: &[usize]| match wrong {
        Wrong::ListedOnly => pairs.iter().any(|pair| <[_; 2]>::from(pair.parts(&scene)).contains(&part)),
        _ => true,
    };
    let right = boxes(&scene, wrong);
    let stale =
        parts(&scene).iter().enumerate().any(|(k, part)| looked_at(part) && stored[6 * k..6 * k + 6] != right[6 * k..6 * k + 6]);
    let behind = wrong == Wrong::LooksBehind && stored[right.len()..].iter().any(|&number| number != 0);
    let full = if pairs.len() > room { Err(Refusal::new(NO_ROOM, pairs.len() as u64)) } else { Ok(()) };
    if wrong == Wrong::SeventeenLast {
        full?;
    }
    if stale || behind {
        return Err(Refusal::bare(STALE_BOX));
    }
    full.map(|()| pairs)
}

#[cfg(test)]
mod tests {
    use super::*;
    use crate::making::generate;
    use crate::making::sewing;
    use crate::numbers::random::Random;

    struct Lent {
        positions: Vec<i64>,
        edges: Vec<u64>,
        triangles: Vec<u64>,
        seams: Vec<u64>,
    }

    impl Lent {
        fn of(scene: &Scene) -> Lent {
            let wide = |numbers: Vec<usize>| numbers.into_iter().map(|n| n as u64).collect();
            Lent {
                positions: scene.vertices.concat(),
                edges: wide(scene.edges.concat()),
                triangles: wide(scene.triangles.concat()),
                seams: wide(scene.seams.concat()),
            }
        }

        fn slices(&self) -> Slices<'_> {
            Slices { positions: &self.positions, edges: &self.edges, triangles: &self.triangles, seams: &self.seams }
        }
    }

    /// A small scene from a seed, sewn in places, with a box buffer whose rest is not 0.
    fn made(seed: u64) -> (Scene, Vec<i64>) {
        let mut random = Random::new(seed);
        let point = |random: &mut Random| std::array::from_fn(|_| random.between(-6, 6));
        let n = 4 + random.below(8);
        let mut scene = Scene { vertices: (0..n).map(|_| point(&mut random)).collect(), ..Scene::default() };
        for k in 0..n - 2 {
            scene.edges.push([k, k + 1]);
            scene.triangles.push([k, k + 1, k + 2]);
        }
        let scene = sewing::split(&mut random, scene, 2);
        let stored = (0..BOX_NUMBERS as i64 + 3).map(|i| i % 7 - 3).collect();
        (scene, stored)
    }

    fn target(random: &mut Random, scene: &Scene, vertex: usize) -> [i64; 6] {
        match random.chance(4) {
            true => scene.vertices[vertex],
            false => std::array::from_fn(|_| random.between(-9, 9)),
        }
    }

    #[test]
    fn after_any_moves_the_boxes_are_those_of_the_scene() {
        let mut torn = 0;
        for seed in 0..60 {
            let mut random = Random::new(seed + 1000);
            let (mut scene, empty) = made(seed);
            let mut stored = filled(Lent::of(&scene).slices(), &empty, Wrong::None).unwrap();
            for _ in 0..12 {
                let vertex = random.below(scene.vertices.len());
                let to = target(&mut random, &scene, vertex);
                let lent = Lent::of(&scene);
                match moved(lent.slices(), &stored, vertex as u64, to, Wrong::None) {
                    Err(refusal) => {
                        assert_eq!(refusal, Refusal::bare(BROKEN_SEAM));
                        assert!(scene.seams.iter().any(|seam| seam.contains(&vertex)) && to != scene.vertices[vertex]);
                        torn += 1;
                    }
                    Ok(after) => {
                        scene.vertices[vertex] = to;
                        assert_eq!(after.positions, scene.vertices.concat());
                        stored = after.stored;
                    }
                }
                let front = boxes(&scene, Wrong::None);
                assert_eq!(stored[..front.len()], front[..]);
                assert_eq!(stored[front.len()..], empty[front.len()..]);
                let lent = Lent::of(&scene);
                assert_eq!(listed(lent.slices(), &stored, usize::MAX, Wrong::None).unwrap(), listing::listed(&scene));
            }
        }
        assert!(torn > 0, "no move would have taken a seam apart");
    }

    #[test]
    fn every_number_of_every_box_is_looked_at_and_none_behind() {
        let (scene, empty) = made(3);
        let lent = Lent::of(&scene);
        let stored = filled(lent.slices(), &empty, Wrong::None).unwrap();
        let front = boxes(&scene, Wrong::None).len();
        for place in 0..stored.len() {
            let mut other = stored.clone();
            other[place] += 1;
            let answer = listed(lent.slices(), &other, 0, Wrong::None).map_err(|refusal| refusal.number);
            assert_eq!(answer == Err(STALE_BOX), place < front, "at {place}");
        }
    }

    #[test]
    fn the_checks_come_in_their_order() {
        let (scene, stored) = made(5);
        let lent = Lent::of(&scene);
        let short = &stored[..BOX_NUMBERS - 1];
        let mut odd = Lent::of(&scene);
        odd.positions.pop();
        let number = |answer: Result<Moved, Refusal>| answer.map_err(|refusal| refusal.number).unwrap_err();
        let far = [COORDINATE_LIMIT + 1; 6];
        let sewn = scene.seams[0][0] as u64;
        assert_eq!(number(moved(odd.slices(), short, 99, far, Wrong::None)), LENT_TOO_SHORT);
        assert_eq!(number(moved(odd.slices(), &stored, 99, far, Wrong::None)), BAD_SHAPE);
        assert_eq!(number(moved(lent.slices(), &stored, 99, far, Wrong::None)), NOT_THERE);
        assert_eq!(number(moved(lent.slices(), &stored, sewn, far, Wrong::None)), OUT_OF_RANGE);
        assert_eq!(number(moved(lent.slices(), &stored, sewn, [9; 6], Wrong::None)), BROKEN_SEAM);
        assert!(moved(lent.slices(), &stored, sewn, scene.vertices[sewn as usize], Wrong::None).is_ok());
    }

    #[test]
    fn each_wrong_way_is_told_apart() {
        for wrong in WRONG {
            let told = (0..200).any(|seed| {
                let mut random = Random::new(seed + 5000);
                let (scene, mut stored) = made(seed);
                let lent = Lent::of(&scene);
                let right = filled(lent.slices(), &stored, Wrong::None).unwrap();
                if filled(lent.slices(), &stored, wrong).unwrap() != right {
                    return true;
                }
                stored = right;
                let damaged = random.below(6 * parts(&scene).len());
                stored[damaged] += random.between(1, 3);
                let vertex = random.below(scene.vertices.len());
                let to = target(&mut random, &scene, vertex);
                let room = random.below(3);
                let way = |wrong| {
                    (moved(lent.slices(), &stored, vertex as u64, to, wrong), listed(lent.slices(), &stored, room, wrong))
                };
                let fresh =
                    |wrong| listed(lent.slices(), &filled(lent.slices(), &stored, Wrong::None).unwrap(), usize::MAX, wrong);
                way(wrong) != way(Wrong::None) || fresh(wrong) != fresh(Wrong::None)
            });
            assert!(told, "{wrong:?} is not told apart");
        }
    }

    #[test]
    fn scenes_from_seeds_keep_their_boxes() {
        for seed in 0..40 {
            let scene = generate::scene(seed);
            let lent = Lent::of(&scene);
            let Ok(stored) = filled(lent.slices(), &[0; BOX_NUMBERS], Wrong::None) else { continue };
            assert!(listed(lent.slices(), &stored, usize::MAX, Wrong::None).is_ok(), "seed {seed}");
        }
    }
}
