//! Seams read, or gone by, wrongly.

use super::steps::{Mistake, Steps};
use crate::list::listing::listed;
use crate::scene::refusal::*;
use crate::scene::*;
use crate::text::faults;
use crate::text::{self, Record};
use crate::verdicts::settled::{of_pair, Settled};

pub fn mistakes() -> Vec<Mistake> {
    vec![
        Mistake::new(
            "own-number-corners",
            "corners by their own number, not by the vertex stood for",
            judging(|scene, pair| of_pair(&scene.unsewn(), pair)),
        ),
        by_list("own-number-sharing", "sharing by own number, so that sewn neighbours are listed", |scene| {
            listed(&scene.unsewn())
        }),
        by_list("replaced-not-asked", "a vertex that is replaced gets no pt pairs", |scene| {
            let kept = |pair: &Pair| pair.kind == Kind::EdgeEdge || scene.stands_for(pair.first) == pair.first;
            listed(scene).into_iter().filter(kept).collect()
        }),
        by_list("sewn-parts-once", "edges and triangles that a seam makes one listed once", |scene| {
            listed(scene).into_iter().filter(|&pair| first_of_its_like(scene, pair)).collect()
        }),
        by_reader("seams-not-known", "w lines not known", |_, _| Err(BAD_LINE)),
        by_reader("seams-not-used", "w lines read and not used", |scene, seam| {
            right(scene, seam)?;
            scene.seams.pop();
            Ok(())
        }),
        by_rules("no-ends-compared", "15 without the end positions", |scene, [i, j]| {
            rules(scene, [i, j]) || scene.vertices[i][..3] != scene.vertices[j][..3]
        }),
        by_rules("no-starts-compared", "15 without the start positions", |scene, [i, j]| {
            rules(scene, [i, j]) || scene.vertices[i][3..] != scene.vertices[j][3..]
        }),
        by_rules("seams-in-any-order", "seams that need not rise", |scene, seam| {
            text::breaks(scene, seam) && !(fine_but_falling(scene, seam))
        }),
        by_reader("chains", "a vertex that is replaced stood for by another, and so on down the chain", |scene, [i, j]| {
            let root = scene.stands_for(j);
            right(scene, [i, if j < i { root } else { j }])
        }),
        by_reader("seams-upwards", "a lower vertex that stands for a higher one", |scene, [i, j]| {
            right(scene, [i.max(j), i.min(j)])
        }),
        by_reader("twice-in-parts-only", "4 only in e and t lines", |scene, seam| {
            match right(scene, seam) {
                Err(VERTEX_TWICE) => scene.seams.push(seam),
                other => return other,
            }
            Ok(())
        }),
        by_reader(
            "twice-by-own-number",
            "4 at a w line only where a part has the two vertices of the seam themselves",
            |scene, seam| {
                match right(scene, seam) {
                    Err(VERTEX_TWICE) if !scene.parts().any(|part| part.contains(&seam[0]) && part.contains(&seam[1])) => {
                        scene.seams.push(seam)
                    }
                    other => return other,
                }
                Ok(())
            },
        ),
        Mistake::new(
            "twice-at-the-end",
            "4 of sewn corners looked for after the last line",
            reading(|text| {
                let mut found = false;
                let last = text.split_inclusive(|&byte| byte == b'\n').count() as u64;
                let scene = read_with(text, &mut |scene, seam| match right(scene, seam) {
                    Err(VERTEX_TWICE) => {
                        found = true;
                        scene.seams.push(seam);
                        Ok(())
                    }
                    other => other,
                })?;
                if found {
                    return Err(Refusal::new(VERTEX_TWICE, last));
                }
                Ok(scene)
            }),
        ),
    ]
}

fn judging(judge: fn(&Scene, Pair) -> Settled) -> Steps {
    Steps { judge: Some(Box::new(judge)), ..Steps::default() }
}

fn reading(read: fn(&[u8]) -> Result<Scene, Refusal>) -> Steps {
    Steps { read: Some(Box::new(read)), ..Steps::default() }
}

fn by_list(key: &str, says: &str, list: fn(&Scene) -> Vec<Pair>) -> Mistake {
    Mistake::new(key, says, Steps { list: Some(Box::new(list)), ..Steps::default() })
}

/// A seam taken by the rules, or refused by its number.
type Take = fn(&mut Scene, [usize; 2]) -> Result<(), u64>;

fn right(scene: &mut Scene, seam: [usize; 2]) -> Result<(), u64> {
    text::take(scene, format!("w\t{}\t{}", seam[0], seam[1]).as_bytes())
}

fn by_reader(key: &str, says: &str, take: Take) -> Mistake {
    let read = move |text: &[u8]| read_with(text, &mut { take });
    Mistake::new(key, says, Steps { read: Some(Box::new(read)), ..Steps::default() })
}

/// The text with its w lines, where they are of the form, taken in another way.
fn read_with(text: &[u8], take: &mut impl FnMut(&mut Scene, [usize; 2]) -> Result<(), u64>) -> Result<Scene, Refusal> {
    if text.len() > TEXT_LIMIT {
        return text::read(text);
    }
    let mut scene = Scene::default();
    for (above, line) in text.split_inclusive(|&byte| byte == b'\n').enumerate() {
        let taken = match line.strip_suffix(b"\n") {
            None => Err(BAD_LINE),
            Some(body) => match text::record(body) {
                Some(Record::Seam(seam)) => take(&mut scene, seam),
                _ => text::take(&mut scene, body),
            },
        };
        taken.map_err(|number| Refusal::new(number, above as u64 + 1))?;
    }
    Ok(scene)
}

/// The rules of seams without the positions.
fn rules(scene: &Scene, seam: [usize; 2]) -> bool {
    let nowhere = Scene { seams: scene.seams.clone(), ..Scene::default() };
    text::breaks(&nowhere, seam)
}

fn fine_but_falling(scene: &Scene, seam: [usize; 2]) -> bool {
    let used = scene.seams.iter().any(|above| above[0] == seam[0] || above[1] == seam[0] || above[0] == seam[1]);
    !used && !text::breaks(&Scene { seams: vec![], ..scene.clone() }, seam)
}

/// 15 where the rule says so, and all else as it is.
fn by_rules(key: &str, says: &str, broken: fn(&Scene, [usize; 2]) -> bool) -> Mistake {
    let read = move |text: &[u8]| {
        read_with(text, &mut |scene, seam| match right(scene, seam) {
            Err(BROKEN_SEAM) if !broken(scene, seam) && text::makes_twice(scene, seam) => Err(VERTEX_TWICE),
            Err(BROKEN_SEAM) if !broken(scene, seam) => {
                faults::add(scene, Record::Seam(seam));
                Ok(())
            }
            other => other,
        })
    };
    Mistake::new(key, says, Steps { read: Some(Box::new(read)), ..Steps::default() })
}

fn first_of_its_like(scene: &Scene, pair: Pair) -> bool {
    let stand = |part: &[usize]| {
        let mut part: Vec<usize> = part.iter().map(|&vertex| scene.stands_for(vertex)).collect();
        part.sort();
        part
    };
    // another part that is written with other numbers
    let became = |one: &[usize], other: &[usize]| {
        let (mut a, mut b) = (one.to_vec(), other.to_vec());
        a.sort();
        b.sort();
        a != b && stand(one) == stand(other)
    };
    let first_triangle = |place: usize| !scene.triangles[..place].iter().any(|t| became(t, &scene.triangles[place]));
    let first_edge = |place: usize| !scene.edges[..place].iter().any(|e| became(e, &scene.edges[place]));
    match pair.kind {
        Kind::PointTriangle => first_triangle(pair.second),
        Kind::EdgeEdge => first_edge(pair.first) && first_edge(pair.second),
    }
}
