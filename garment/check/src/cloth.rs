//! Garments that are made: a sheet of squares in folds, creased, that moves a little; and OBJ files of it.

use compare::numbers::random::Random;
use std::fmt::Write;

pub type Place = [f64; 3];

#[derive(Clone, Debug, Default)]
pub struct Cloth {
    pub start: Vec<Place>,
    pub end: Vec<Place>,
    /// Vertex numbers from 0.
    pub faces: Vec<Vec<u32>>,
}

/// How a sheet lies.
#[derive(Clone, Copy, Debug)]
pub struct Kind {
    pub name: &'static str,
    /// Layers that lie on each other, and how far apart they are, in squares.
    pub layers: usize,
    pub apart: f64,
}

pub const KINDS: [Kind; 3] = [
    Kind { name: "sheet", layers: 1, apart: 0.0 },
    Kind { name: "folds", layers: 8, apart: 0.6 },
    Kind { name: "tight", layers: 32, apart: 0.15 },
];

/// The side of a square, in millimetres.
const SIDE: f64 = 10.0;
/// How far a place is creased aside, and how far it moves, at most, in squares.
const CREASED: f64 = 0.2;
const MOVED: f64 = 0.4;

/// About as many vertices as are asked for: as many rows as columns in a layer, or nearly.
pub fn cloth(kind: Kind, vertices: usize, seed: u64) -> Cloth {
    let rows = ((vertices / kind.layers) as f64).sqrt().round().max(2.0) as usize;
    let columns = (vertices / rows).max(2);
    let fold = columns.div_ceil(kind.layers);
    let mut random = Random::new(seed);
    let mut out = Cloth::default();
    for row in 0..rows {
        for column in 0..columns {
            let (layer, along) = (column / fold, column % fold);
            let x = if layer % 2 == 0 { along } else { fold - 1 - along };
            let flat = [x as f64, row as f64, layer as f64 * kind.apart];
            let start = flat.map(|n| n + aside(&mut random, CREASED));
            out.start.push(start.map(|n| SIDE * n));
            out.end.push(start.map(|n| SIDE * (n + aside(&mut random, MOVED))));
        }
    }
    let at = |column: usize, row: usize| (row * columns + column) as u32;
    for row in 1..rows {
        for column in 1..columns {
            out.faces.push(vec![at(column - 1, row - 1), at(column, row - 1), at(column, row), at(column - 1, row)]);
        }
    }
    out
}

/// A frame of two sheets that fall, one above the other, about so many vertices: neighbours move alike, all of it by some ten edge lengths a frame, and the
/// upper sheet comes nearer until waves of both meet, behind the second frame.
pub fn drape(vertices: usize, frame: usize, seed: u64) -> (Vec<Place>, Vec<Vec<u32>>) {
    let side = ((vertices / 2) as f64).sqrt().round().max(2.0) as usize;
    let (mut random, mut places, mut faces) = (Random::new(seed), Vec::new(), Vec::new());
    let time = frame as f64;
    for layer in [0.0, 1.0] {
        let base = places.len() as u32;
        for row in 0..side {
            for column in 0..side {
                let (x, y) = (column as f64, row as f64);
                let wave = 1.2 * (0.13 * x + 0.7 * time + layer).sin() + (0.11 * y + 0.9 * time * (1.0 + layer)).cos();
                let flat = [x + 7.0 * time, y + 5.0 * time, layer * (8.0 - 2.0 * time) - 9.0 * time + wave];
                places.push(flat.map(|n| SIDE * (n + aside(&mut random, 0.05))));
            }
        }
        let at = |column: usize, row: usize| base + (row * side + column) as u32;
        let square =
            |column: usize, row: usize| vec![at(column - 1, row - 1), at(column, row - 1), at(column, row), at(column - 1, row)];
        faces.extend(
            (1..side).flat_map(|row| (1..side).map(move |column| (column, row))).map(|(column, row)| square(column, row)),
        );
    }
    (places, faces)
}

fn aside(random: &mut Random, most: f64) -> f64 {
    most * (random.below(2_001) as f64 / 1_000.0 - 1.0)
}

impl Cloth {
    /// The same cloth with its faces, and so its triangles and edges, in another order.
    pub fn in_any_order(mut self, seed: u64) -> Cloth {
        let mut random = Random::new(seed);
        for last in (1..self.faces.len()).rev() {
            self.faces.swap(last, random.below(last + 1));
        }
        self
    }

    pub fn objs(&self) -> [String; 2] {
        [obj(&self.start, &self.faces), obj(&self.end, &self.faces)]
    }
}

pub fn obj(places: &[Place], faces: &[Vec<u32>]) -> String {
    let mut text = String::from("# made cloth\no cloth\n");
    for [x, y, z] in places {
        writeln!(text, "v {x:.4} {y:.4} {z:.4}").expect("a string takes all");
    }
    for face in faces {
        text += "f";
        face.iter().for_each(|corner| write!(text, " {}", corner + 1).expect("a string takes all"));
        text += "\n";
    }
    text
}
