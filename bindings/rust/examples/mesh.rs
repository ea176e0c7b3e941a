//! A mesh of any size, from memory: a sheet of cloth falls on a bar, frame after frame, and the picture is frozen at the first contact. Threads take
//! stretches of rows, each with scratch of its own. It prints what examples/c/mesh.c prints.
//!
//!     cargo run --release -p makhnodri --example mesh 60 2

use makhnodri::{Kind, Mesh, MeshPair, RowPairs, RowsRefusal, Scratch, Settled, CONTACT_LENGTH, CONTACT_UNIT};
use std::borrow::Cow;
use std::ops::Range;

const STEP: i32 = 100;
const FRAMES: i32 = 40;
const FALL: i32 = 70;

/// A sheet of side x side vertices over a bar, a triangle that stands upright and stays where it is.
fn cloth(side: u32) -> (Vec<u32>, Vec<u32>) {
    let (mut edges, mut triangles) = (vec![], vec![]);
    for (y, x) in (0..side).flat_map(|y| (0..side).map(move |x| (y, x))) {
        let (v, below) = (side * y + x, side * y + x + side);
        let (right, down) = (x + 1 < side, y + 1 < side);
        edges.extend([v, v + 1].into_iter().filter(|_| right));
        edges.extend([v, below].into_iter().filter(|_| down));
        if right && down {
            edges.extend([v + 1, below]);
            triangles.extend([v, v + 1, below, v + 1, below + 1, below]);
        }
    }
    let bar = side * side;
    edges.extend([bar, bar + 1, bar + 1, bar + 2, bar + 2, bar]);
    triangles.extend([bar, bar + 1, bar + 2]);
    (edges, triangles)
}

/// Where vertex v stands at the end of a frame; the sheet hangs through in the middle.
fn place(side: i32, v: i32, frame: i32) -> [i32; 3] {
    let (x, y, half) = (v % side, v / side, side / 2);
    if v >= side * side {
        let (x, z) = (if v == side * side { -STEP } else { STEP * side + STEP }, if v < side * side + 2 { 5 } else { -2000 });
        return [x, STEP * half + 33, z];
    }
    [STEP * x, STEP * y, 1000 - FALL * frame + ((x - half) * (x - half) + (y - half) * (y - half)) * 60 / side]
}

/// What a thread works in, kept from frame to frame.
#[derive(Default)]
struct Part {
    scratch: Scratch,
    list: Vec<u64>,
    words: Vec<u8>,
    contacts: Vec<u32>,
}

impl Part {
    /// What was hit first in these rows: the smallest time, on a tie the lowest entry. Near rows miss no hit, and on falling cloth they are few.
    fn judge(&mut self, mesh: &Mesh, rows: Range<usize>) -> Result<Option<(u64, [u32; CONTACT_LENGTH])>, RowsRefusal> {
        let Part { scratch, list, words, contacts } = self;
        let count = loop {
            match mesh.contact_rows(scratch, RowPairs::Near, rows.clone(), list, words, contacts) {
                // how many there are, and there is room then
                Err(RowsRefusal::NoRoom { needed }) => {
                    list.resize(needed as usize, 0);
                    words.resize(needed as usize, 0);
                    contacts.resize(CONTACT_LENGTH * needed as usize, 0);
                }
                answer => break answer?,
            }
        };
        let rows = list.iter().zip(words).zip(contacts.chunks_exact(CONTACT_LENGTH)).take(count as usize);
        let hits = rows.filter(|((_, word), _)| **word == Settled::Hit as u8);
        Ok(hits
            .map(|((entry, _), row)| (*entry, row.try_into().expect("five numbers")))
            .min_by_key(|(_, row): &(u64, [u32; 5])| row[1]))
    }
}

fn main() -> Result<(), Box<dyn std::error::Error>> {
    let mut words = std::env::args().skip(1).map(|word| word.parse::<u32>());
    let (side, threads) = (words.next().unwrap_or(Ok(60))?, words.next().unwrap_or(Ok(2))? as usize);
    let (edges, triangles) = cloth(side);
    let vertices = (side * side + 3) as i32;
    println!("{vertices} vertices, {} edges, {} triangles", edges.len() / 2, triangles.len() / 3);
    let mut mesh = Mesh::new(vec![], edges, triangles);
    let mut parts: Vec<Part> = (0..threads).map(|_| Part::default()).collect();
    for frame in 1..=FRAMES {
        let six = |v: i32| [place(side as i32, v, frame - 1), place(side as i32, v, frame)].concat();
        mesh.positions = Cow::Owned((0..vertices).flat_map(six).collect());
        let (mesh, rows) = (&mesh, mesh.row_count());
        let found = std::thread::scope(|scope| {
            let started: Vec<_> = parts
                .iter_mut()
                .enumerate()
                .map(|(i, part)| scope.spawn(move || part.judge(mesh, rows * i / threads..rows * (i + 1) / threads)))
                .collect();
            started.into_iter().map(|thread| thread.join().expect("no thread fails")).collect::<Result<Vec<_>, _>>()
        })?;
        if let Some((entry, [piece, k, shares @ ..])) = found.into_iter().flatten().min_by_key(|(_, row)| row[1]) {
            let MeshPair { kind, first, second } = MeshPair::of_entry(entry);
            let part = |number: u32| number as f64 / CONTACT_UNIT as f64;
            let [low, middle, high] = shares.map(part);
            let kind = if kind == Kind::PointTriangle { "pt" } else { "ee" };
            println!(
                "frame {frame}, at {:.6} of it: {kind} {first} {second}, piece {piece}, shares {low:.6} {middle:.6} {high:.6}",
                part(k)
            );
            return Ok(());
        }
    }
    println!("no contact");
    Ok(())
}
