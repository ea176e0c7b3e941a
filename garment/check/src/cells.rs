//! Space in cubes with a side of a power of two steps, and which boxes reach into each.

use garment::boxes::Swept;
use makhnodri::COORDINATE_LIMIT;

/// Where cells are counted from, so that no number is negative.
const ORIGIN: i32 = -COORDINATE_LIMIT - 1;
/// Bits of a coordinate counted from there.
const BITS: u32 = 20;
/// Cells that a box may reach into, on average: smaller cells hold fewer boxes that do not meet, and more of them must be looked into.
const CELLS_A_BOX: u64 = 6;

/// A cell as one number.
type Cell = u64;

/// A box in a cell. The cell stands with it, since several cells may share a slot.
#[derive(Clone, Copy, Debug, Default)]
struct Entry {
    cell: Cell,
    part: u32,
}

#[derive(Clone, Debug)]
pub struct Cells {
    side: u32,
    /// Where the entries of a slot begin; those of the next begin where they end.
    begins: Vec<usize>,
    entries: Vec<Entry>,
}

impl Cells {
    /// Cells with a side that suits the boxes in them and those that will be asked for.
    pub fn of(boxes: &[Swept], asking: &[Swept]) -> Cells {
        Cells::with_side(boxes, side_for(boxes, asking))
    }

    /// The same with a side of 2 to this power.
    pub fn with_side(boxes: &[Swept], side: u32) -> Cells {
        let count: u64 = boxes.iter().map(|one| reached(one, side)).sum();
        let slots = count.next_power_of_two().max(2) as usize;
        let mut cells = Cells { side, begins: vec![0; slots + 1], entries: vec![Entry::default(); count as usize] };
        for one in boxes {
            cells_of(one, side, |cell| cells.begins[slot(cell, slots) + 1] += 1);
        }
        for i in 1..=slots {
            cells.begins[i] += cells.begins[i - 1];
        }
        let mut next = cells.begins.clone();
        for (one, part) in boxes.iter().zip(0..) {
            cells_of(one, side, |cell| {
                let at = &mut next[slot(cell, slots)];
                cells.entries[*at] = Entry { cell, part };
                *at += 1;
            });
        }
        cells
    }

    /// Each box from this number on that meets this one, once: two boxes that meet reach into many cells together, and are taken in the
    /// one that holds the low corner of what they have in common. Both reach into that one.
    pub fn meeting(&self, asked: &Swept, boxes: &[Swept], from: u32, mut take: impl FnMut(u32)) {
        cells_of(asked, self.side, |cell| {
            for part in self.within(cell, from) {
                let other = &boxes[part as usize];
                if asked.meets(other) && cell_of(asked.meeting(other), self.side) == cell {
                    take(part);
                }
            }
        });
    }

    /// The boxes from this number on that reach into a cell, from the last down: so they stand in a slot.
    pub fn within(&self, cell: Cell, from: u32) -> impl Iterator<Item = u32> + '_ {
        let slot = slot(cell, self.begins.len() - 1);
        let entries = &self.entries[self.begins[slot]..self.begins[slot + 1]];
        entries
            .iter()
            .rev()
            .take_while(move |entry| entry.part >= from)
            .filter(move |entry| entry.cell == cell)
            .map(|entry| entry.part)
    }

    /// Two to this power is the side.
    pub fn side(&self) -> u32 {
        self.side
    }
}

fn along(coordinate: i32, side: u32) -> u64 {
    ((coordinate - ORIGIN) as u64) >> side
}

pub fn cell_of(place: [i32; 3], side: u32) -> Cell {
    place.iter().fold(0, |cell, &coordinate| cell << BITS | along(coordinate, side))
}

/// Every cell that a box reaches into, its border included.
pub fn cells_of(one: &Swept, side: u32, mut take: impl FnMut(Cell)) {
    let [xs, ys, zs] = [0, 1, 2].map(|axis| along(one.low[axis], side)..=along(one.high[axis], side));
    for x in xs {
        for y in ys.clone() {
            for z in zs.clone() {
                take((x << BITS | y) << BITS | z);
            }
        }
    }
}

fn reached(one: &Swept, side: u32) -> u64 {
    let count = |axis: usize| along(one.high[axis], side) - along(one.low[axis], side) + 1;
    count(0) * count(1) * count(2)
}

/// A multiplication spreads neighbours over the slots.
fn slot(cell: Cell, slots: usize) -> usize {
    (cell.wrapping_mul(0x9e37_79b9_7f4a_7c15) >> (64 - slots.trailing_zeros())) as usize
}

/// The smallest side with which boxes reach into no more cells than they may, those that ask among them. With the largest side there is
/// one cell, so there is one.
fn side_for(boxes: &[Swept], asking: &[Swept]) -> u32 {
    let few = |side: u32| {
        let sum = |boxes: &[Swept]| boxes.iter().fold(0u64, |sum, one| sum.saturating_add(reached(one, side)));
        sum(boxes) <= CELLS_A_BOX * boxes.len() as u64 && sum(asking) <= CELLS_A_BOX * asking.len() as u64
    };
    let (mut too_small, mut enough) = (0, BITS);
    while too_small < enough {
        let between = (too_small + enough) / 2;
        if few(between) {
            enough = between;
        } else {
            too_small = between + 1;
        }
    }
    enough
}
