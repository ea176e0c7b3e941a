//! A scene and its sizes.

pub mod affine;
pub mod backwards;
pub mod pieces;
pub mod refusal;

pub const COORDINATE_LIMIT: i64 = 524_287;
/// What the limit was before document 02, §13.
pub const FIRST_COORDINATE_LIMIT: i64 = 262_143;
pub const VERTEX_LIMIT: usize = 512;
pub const EDGE_LIMIT: usize = 1_024;
pub const TRIANGLE_LIMIT: usize = 512;
pub const SEAM_LIMIT: usize = 512;
pub const TEXT_LIMIT: usize = 32_768;
pub const REPORT_ROOM: usize = 3_072;

#[derive(Clone, Debug, Default, PartialEq, Eq)]
pub struct Scene {
    /// start x y z, end x y z
    pub vertices: Vec<[i64; 6]>,
    pub edges: Vec<[usize; 2]>,
    pub triangles: Vec<[usize; 3]>,
    /// the vertex that is replaced, and the one that it stands for
    pub seams: Vec<[usize; 2]>,
}

impl Scene {
    /// The vertex that a vertex stands for: another where a seam says so, else itself.
    pub fn stands_for(&self, vertex: usize) -> usize {
        self.seams.iter().find(|seam| seam[0] == vertex).map_or(vertex, |seam| seam[1])
    }

    /// Whether two of these vertices stand for one.
    pub fn any_twice(&self, part: &[usize]) -> bool {
        let stand: Vec<usize> = part.iter().map(|&vertex| self.stands_for(vertex)).collect();
        (1..stand.len()).any(|i| stand[..i].contains(&stand[i]))
    }

    /// The vertex numbers of every edge and triangle.
    pub fn parts(&self) -> impl Iterator<Item = &[usize]> {
        self.edges.iter().map(|edge| &edge[..]).chain(self.triangles.iter().map(|triangle| &triangle[..]))
    }

    /// The same without its seams.
    pub fn unsewn(&self) -> Scene {
        Scene { seams: vec![], ..self.clone() }
    }
}

pub fn in_range(coordinate: i64) -> bool {
    (-COORDINATE_LIMIT..=COORDINATE_LIMIT).contains(&coordinate)
}

#[derive(Clone, Copy, Debug, PartialEq, Eq, Hash)]
pub enum Kind {
    PointTriangle,
    EdgeEdge,
}

#[derive(Clone, Copy, Debug, PartialEq, Eq, Hash)]
pub struct Pair {
    pub kind: Kind,
    pub first: usize,
    pub second: usize,
}

impl Pair {
    pub fn pt(vertex: usize, triangle: usize) -> Pair {
        Pair { kind: Kind::PointTriangle, first: vertex, second: triangle }
    }

    pub fn ee(first: usize, second: usize) -> Pair {
        Pair { kind: Kind::EdgeEdge, first, second }
    }

    /// The vertex numbers of its two parts.
    pub fn parts<'a>(&'a self, scene: &'a Scene) -> (&'a [usize], &'a [usize]) {
        match self.kind {
            Kind::PointTriangle => (std::slice::from_ref(&self.first), &scene.triangles[self.second]),
            Kind::EdgeEdge => (&scene.edges[self.first], &scene.edges[self.second]),
        }
    }

    pub fn shares_a_vertex(&self, scene: &Scene) -> bool {
        let (first, second) = self.parts(scene);
        let stand: Vec<usize> = second.iter().map(|&vertex| scene.stands_for(vertex)).collect();
        first.iter().any(|&vertex| stand.contains(&scene.stands_for(vertex)))
    }
}

/// Every pair of the scene, sharing a vertex or not, in the order of the list.
pub fn all_pairs(scene: &Scene) -> Vec<Pair> {
    let mut out = Vec::new();
    for vertex in 0..scene.vertices.len() {
        out.extend((0..scene.triangles.len()).map(|triangle| Pair::pt(vertex, triangle)));
    }
    for first in 0..scene.edges.len() {
        out.extend((first + 1..scene.edges.len()).map(|second| Pair::ee(first, second)));
    }
    out
}
