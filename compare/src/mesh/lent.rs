//! The calls over meshes, and what they are lent.

use crate::scene::Scene;

/// All pairs of a row that are listed, or of these the ones that are not far from each other.
#[derive(Clone, Copy, Debug, PartialEq, Eq, PartialOrd, Ord, Hash)]
pub enum RowPairs {
    Listed,
    Near,
}

/// One of the two times of a mesh.
#[derive(Clone, Copy, Debug, PartialEq, Eq, PartialOrd, Ord, Hash)]
pub enum Time {
    Start,
    End,
}

#[derive(Clone, Copy, Debug, PartialEq, Eq, PartialOrd, Ord, Hash)]
pub enum Call {
    CheckMesh,
    CheckEdges,
    Count(RowPairs),
    List(RowPairs),
    Settle(RowPairs),
    Contact(RowPairs),
    Keep(RowPairs),
    KeepContacts(RowPairs),
    Pierced(Time),
}

use Call::*;

const BOTH: [RowPairs; 2] = [RowPairs::Listed, RowPairs::Near];

/// In the order of driver.c.
pub fn calls() -> Vec<Call> {
    let mut out = vec![CheckMesh, CheckEdges];
    for call in [Count, List, Settle, Contact, Keep, KeepContacts] {
        out.extend(BOTH.map(call));
    }
    out.extend([Pierced(Time::Start), Pierced(Time::End)]);
    out
}

impl Call {
    /// Whether it goes over a stretch of rows.
    pub fn takes_rows(self) -> bool {
        !matches!(self, CheckMesh | CheckEdges)
    }

    pub fn lists(self) -> bool {
        self.takes_rows() && !matches!(self, Count(_))
    }

    pub fn settles(self) -> bool {
        matches!(self, Settle(_) | Contact(_) | Keep(_) | KeepContacts(_))
    }

    pub fn keeps(self) -> bool {
        matches!(self, Keep(_) | KeepContacts(_))
    }

    pub fn finds_contacts(self) -> bool {
        matches!(self, Contact(_) | KeepContacts(_))
    }

    pub fn pairs(self) -> RowPairs {
        match self {
            Count(which) | List(which) | Settle(which) | Contact(which) | Keep(which) | KeepContacts(which) => which,
            CheckMesh | CheckEdges | Pierced(_) => RowPairs::Listed,
        }
    }

    /// How many numbers it tells in a lent array.
    pub fn told(self) -> usize {
        match self {
            CheckMesh => 0,
            CheckEdges => 2,
            Keep(_) | KeepContacts(_) => 6,
            _ => 1,
        }
    }

    pub fn name(self) -> String {
        let of = |which: RowPairs| if which == RowPairs::Near { "near_" } else { "" };
        match self {
            CheckMesh => "check_mesh".into(),
            CheckEdges => "check_edges".into(),
            Count(which) => format!("count_{}rows", of(which)),
            List(which) => format!("list_{}rows", of(which)),
            Settle(which) => format!("settle_{}rows", of(which)),
            Contact(which) => format!("contact_{}rows", of(which)),
            Keep(which) => format!("keep_{}rows", of(which)),
            KeepContacts(which) => format!("keep_{}contacts", of(which)),
            Pierced(Time::Start) => "pierced_at_start_rows".into(),
            Pierced(Time::End) => "pierced_at_end_rows".into(),
        }
    }
}

/// What is lent. A buffer that the call does not take is empty.
#[derive(Clone, Debug, Default, PartialEq, Eq)]
pub struct Lent {
    pub positions: Vec<i32>,
    pub edges: Vec<u32>,
    pub triangles: Vec<u32>,
    pub seams: Vec<u32>,
    /// Hints: orders of the parts, or nothing.
    pub edge_order: Vec<u32>,
    pub triangle_order: Vec<u32>,
    /// A certificate of edges: for each side its edge, and the edges by their ends.
    pub sides: Vec<u32>,
    pub order: Vec<u32>,
    /// Scratch, which may hold anything afterwards.
    pub table: Vec<u32>,
    pub places: Vec<u32>,
    pub boxes: Vec<i32>,
    pub list: Vec<u64>,
    pub words: Vec<u8>,
    pub contacts: Vec<u32>,
    pub told: Vec<u64>,
}

impl Lent {
    pub fn of_scene(scene: &Scene) -> Lent {
        let narrow = |numbers: Vec<usize>| numbers.into_iter().map(|n| n as u32).collect::<Vec<u32>>();
        Lent {
            positions: scene.vertices.concat().into_iter().map(|n| n as i32).collect(),
            edges: narrow(scene.edges.concat()),
            triangles: narrow(scene.triangles.concat()),
            seams: narrow(scene.seams.concat()),
            ..Lent::default()
        }
    }

    /// Without what stands in the scratch, of which nothing is promised.
    pub fn told_apart(&self) -> Lent {
        Lent { table: vec![], places: vec![], boxes: vec![], ..self.clone() }
    }
}

/// A call with what it is asked, the first row, the end behind the last and the words that are wanted, and what it is lent.
#[derive(Clone, Debug)]
pub struct Ask {
    pub call: Call,
    pub asked: [u64; 3],
    pub lent: Lent,
}
