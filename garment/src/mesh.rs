//! A mesh at two times, of any size: what every other part of the program looks at.

use crate::edges::{self, sides_of, Edges};
use crate::fault::Fault;
use crate::obj::Obj;
use crate::rounding::{parting_step, Place, Rounded};
use crate::seams;

#[derive(Clone, Debug, Default, PartialEq)]
pub struct Mesh {
    /// Start x, y, z, end x, y, z.
    pub positions: Vec<[i32; 6]>,
    pub edges: Vec<[u32; 2]>,
    pub triangles: Vec<[u32; 3]>,
    /// The vertex that each one stands for, which has its place; empty where nothing is sewn.
    pub stands: Vec<u32>,
    /// The edge of each side of the triangles, and the edges in the order of their ends: what shows that the edges are those of the faces.
    pub sides: Vec<u32>,
    pub order: Vec<u32>,
}

impl Mesh {
    pub fn new(positions: Vec<[i32; 6]>, triangles: Vec<[u32; 3]>) -> Mesh {
        let edges = edges::of(positions.len(), &triangles);
        Mesh::of_edges(positions, triangles, edges)
    }

    /// With edges that are made already.
    pub fn of_edges(positions: Vec<[i32; 6]>, triangles: Vec<[u32; 3]>, edges: Edges) -> Mesh {
        let Edges { ends, sides, order } = edges;
        Mesh { positions, edges: ends, triangles, stands: Vec::new(), sides, order }
    }

    /// Sharing and the order of corners go by the vertex stood for; so does a position, since it is the same.
    #[inline]
    pub fn stood(&self, vertex: u32) -> u32 {
        if self.stands.is_empty() {
            vertex
        } else {
            self.stands[vertex as usize]
        }
    }

    #[inline]
    pub fn corners(&self, triangle: u32) -> [u32; 3] {
        self.triangles[triangle as usize].map(|vertex| self.stood(vertex))
    }

    #[inline]
    pub fn ends(&self, edge: u32) -> [u32; 2] {
        self.edges[edge as usize].map(|vertex| self.stood(vertex))
    }

    /// The numbers of the edges a b, b c, c a of each triangle.
    pub fn sides(&self) -> impl Iterator<Item = [u32; 3]> + '_ {
        self.sides.chunks_exact(3).map(|three| [three[0], three[1], three[2]])
    }

    /// Each vertex that stands for another, and that one, in rising order.
    pub fn sewn(&self) -> impl Iterator<Item = [u32; 2]> + '_ {
        self.stands.iter().zip(0..).filter(|&(&stood, vertex)| stood != vertex).map(|(&stood, vertex)| [vertex, stood])
    }

    /// How many vertices stand for another.
    pub fn seams(&self) -> u64 {
        self.sewn().count() as u64
    }

    /// Sews vertices in one place; or hands back a triangle that has two corners in one.
    pub fn sew(&mut self) -> Result<(), usize> {
        self.stands = seams::by_position(&self.positions);
        let flat = |[a, b, c]: [u32; 3]| a == b || b == c || c == a;
        match (0..self.triangles.len()).find(|&triangle| flat(self.corners(triangle as u32))) {
            Some(triangle) => Err(triangle),
            None => Ok(()),
        }
    }
}

/// The two files have the same vertices and the same faces in the same order; only places differ.
pub fn same_faces(names: [&str; 2], start: &Obj, end: &Obj) -> Result<(), Fault> {
    let [from, to] = names;
    if start.places.len() != end.places.len() {
        let (a, b) = (start.places.len(), end.places.len());
        return Err(Fault::new(format!("{from} has {a} vertices and {to} has {b}: they must be one mesh at two times")));
    }
    let differs = start.triangles.iter().zip(&end.triangles).position(|(a, b)| a != b);
    if let Some(at) = differs {
        let (a, b) = (start.lines[at], end.lines[at]);
        return Err(Fault::new(format!(
            "{from}:{a} and {to}:{b}: the faces differ: they must be one mesh at two times; an exporter that \
             triangulates cuts the quads of each frame its own way, so export quads, which are cut alike here"
        )));
    }
    if start.triangles.len() != end.triangles.len() {
        let (a, b) = (start.triangles.len(), end.triangles.len());
        return Err(Fault::new(format!("{from} has {a} triangles and {to} has {b}: they must be one mesh at two times")));
    }
    Ok(())
}

/// The mesh of two files that were found to have the same faces.
pub fn join(name: &str, mut start: Obj, end: &Obj, rounded: Rounded, sewn: bool) -> Result<Mesh, Fault> {
    let edges = edges::of(start.places.len(), &start.triangles);
    join_with(name, &mut start, end, rounded, edges, sewn)
}

/// The same with edges that are made already; the triangles are taken out of the start.
pub fn join_with(name: &str, start: &mut Obj, end: &Obj, rounded: Rounded, edges: Edges, sewn: bool) -> Result<Mesh, Fault> {
    let Rounded { positions, least, .. } = rounded;
    let mut mesh = Mesh::of_edges(positions, std::mem::take(&mut start.triangles), edges);
    if sewn {
        mesh.sew().map_err(|triangle| {
            let (name, before) = start.behind_at(triangle).map_or((name, 0), |behind| (behind.file.as_str(), behind.vertices));
            let words = unsewn(&mesh, triangle, before, [&start.places, &end.places], least);
            Fault::in_line(name, start.lines[triangle], words)
        })?;
    }
    Ok(mesh)
}

/// Why a triangle can't be sewn, and what helps: so many vertices stand before those of its file, and the least step with which all fits is known, or none.
pub fn unsewn(mesh: &Mesh, triangle: usize, before: usize, times: [&[Place]; 2], least: Option<f64>) -> String {
    let twins = twins(mesh, triangle);
    unsewable(twins.map(|vertex| vertex - before as u32), distance(times, twins), least)
}

/// Two corners of a triangle that stand for one vertex, the lower number first.
fn twins(mesh: &Mesh, triangle: usize) -> [u32; 2] {
    let [a, b, c] = mesh.triangles[triangle];
    let one = |[a, b]: &[u32; 2]| mesh.stood(*a) == mesh.stood(*b);
    let [a, b] = sides_of([a, b, c]).into_iter().find(one).expect("the triangle has two such corners");
    [a.min(b), a.max(b)]
}

/// The most by which two vertices differ along an axis, at the start or at the end.
fn distance(times: [&[Place]; 2], [a, b]: [u32; 2]) -> f64 {
    let along = |places: &[Place]| {
        let (a, b) = (places[a as usize], places[b as usize]);
        a.into_iter().zip(b).map(|(a, b)| (a - b).abs()).fold(0.0, f64::max)
    };
    times.into_iter().map(along).fold(0.0, f64::max)
}

/// A smaller step is named only where it parts the two and the mesh fits with it: nobody is sent to a step that is refused.
fn unsewable(corners: [u32; 2], apart: f64, least: Option<f64>) -> String {
    let [a, b] = corners.map(|vertex| u64::from(vertex) + 1);
    let leave = format!("merge vertices {a} and {b} where the mesh was made, or leave out --seams");
    let sewn = format!("two corners of this face, vertices {a} and {b} of the file,");
    if apart == 0.0 {
        return format!("{sewn} are in one place in both files, and would be sewn together with any step; {leave}");
    }
    let on_grid = format!("{sewn} are in one place of the grid, at the start and at the end, and would be sewn together");
    match parting_step(apart).filter(|&step| least.is_some_and(|least| step >= least)) {
        Some(step) => format!("{on_grid}; take a smaller --step; {step} is enough"),
        None => format!("{on_grid}, and with a step that parts them the mesh does not fit; {leave}"),
    }
}
