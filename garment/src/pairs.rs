//! A pair in the mesh's own numbers.

pub use makhnodri::Kind;

/// A vertex and a triangle, or two edges, the lower first. Pairs rise as the list has them.
#[derive(Clone, Copy, Debug, PartialEq, Eq, PartialOrd, Ord, Hash)]
pub struct Pair {
    pub kind: Kind,
    pub first: u32,
    pub second: u32,
}

/// The kind that a report writes so.
pub fn kind_of(letters: &[u8]) -> Option<Kind> {
    [Kind::PointTriangle, Kind::EdgeEdge].into_iter().find(|kind| kind.letters().as_bytes() == letters)
}

impl Pair {
    /// The pair of an entry of a mesh's list.
    pub fn of_entry(entry: u64) -> Pair {
        let makhnodri::MeshPair { kind, first, second } = makhnodri::MeshPair::of_entry(entry);
        Pair { kind, first, second }
    }

    pub fn entry(self) -> u64 {
        let Pair { kind, first, second } = self;
        makhnodri::MeshPair { kind, first, second }.entry()
    }

    /// A pair of a scene, as the library names it.
    pub fn of_library(pair: makhnodri::Pair) -> Pair {
        Pair { kind: pair.kind, first: pair.first as u32, second: pair.second as u32 }
    }
}
