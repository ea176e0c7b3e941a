//! The names of objects and groups in an OBJ file, and which of them each triangle has.

use crate::judge::Through;
use crate::mesh::Mesh;
use crate::pairs::{Kind, Pair};
use std::collections::HashMap;

/// Every face of the body's own files has this name, beside those that its file gives it.
pub const BODY: &str = "body";

/// Sets of names, each once and by its number; 0 is the set of none.
#[derive(Clone, Debug, Default, PartialEq)]
pub struct Sets {
    list: Vec<Vec<u32>>,
    numbers: HashMap<Vec<u32>, u32>,
}

impl Sets {
    pub fn of(&mut self, mut names: Vec<u32>) -> u32 {
        names.sort_unstable();
        names.dedup();
        if names.is_empty() {
            return 0;
        }
        let list = &mut self.list;
        *self.numbers.entry(names).or_insert_with_key(|names| {
            list.push(names.clone());
            list.len() as u32
        })
    }

    /// In rising order.
    pub fn members(&self, set: u32) -> &[u32] {
        set.checked_sub(1).map_or(&[], |at| &self.list[at as usize])
    }

    pub fn union(&mut self, one: u32, other: u32) -> u32 {
        if one == other {
            return one;
        }
        let both = [self.members(one), self.members(other)].concat();
        self.of(both)
    }
}

/// Where the body's own file begins, behind the cloth's.
#[derive(Clone, Debug, PartialEq, Eq)]
pub struct Behind {
    pub file: String,
    pub vertices: usize,
    pub triangles: usize,
}

#[derive(Clone, Debug, Default, PartialEq)]
pub struct Names {
    /// Each once, in the order in which they first appear.
    pub words: Vec<String>,
    numbers: HashMap<String, u32>,
    pub sets: Sets,
    /// The set of names that each triangle has.
    pub of_triangles: Vec<u32>,
    pub behind: Option<Behind>,
    object: Option<u32>,
    groups: Vec<u32>,
    /// The set of names that a face of this line has.
    now: u32,
}

impl Names {
    /// `o`: all that follows is the name, blanks and all. It ends the groups above it, so that no face of one object falls into a group of another.
    pub fn object(&mut self, line: &[u8]) {
        let words: Vec<&[u8]> = line.split(u8::is_ascii_whitespace).filter(|word| !word.is_empty()).skip(1).collect();
        self.object = (!words.is_empty()).then(|| self.number(&text(&words.join(&b' '))));
        self.groups.clear();
        self.begin();
    }

    /// `g`: each field is a group, and a face may be of several.
    pub fn groups<'a>(&mut self, fields: impl Iterator<Item = &'a [u8]>) {
        self.groups = fields.map(|field| self.number(&text(field))).collect();
        self.begin();
    }

    fn begin(&mut self) {
        self.now = self.sets.of(self.object.iter().chain(&self.groups).copied().collect());
    }

    /// Triangles up to this count are of the last face.
    pub fn face(&mut self, triangles: usize) {
        self.of_triangles.resize(triangles, self.now);
    }

    fn number(&mut self, word: &str) -> u32 {
        if let Some(&number) = self.numbers.get(word) {
            return number;
        }
        let number = self.words.len() as u32;
        self.words.push(word.to_string());
        self.numbers.insert(word.to_string(), number);
        number
    }

    /// The names of the body's file behind these.
    pub fn join(&mut self, body: &Names, behind: Behind) {
        let named = self.number(BODY);
        let mut known: HashMap<u32, u32> = HashMap::new();
        for set in &body.of_triangles {
            let of_both = *known.entry(*set).or_insert_with(|| {
                let members = body.sets.members(*set).iter().map(|&name| self.number(&body.words[name as usize]));
                let members = members.chain([named]).collect();
                self.sets.of(members)
            });
            self.of_triangles.push(of_both);
        }
        self.behind = Some(behind);
    }

    pub fn known(&self, word: &str) -> Option<u32> {
        self.numbers.get(word).copied()
    }

    pub fn of_set(&self, set: u32) -> impl Iterator<Item = &str> {
        self.sets.members(set).iter().map(|&name| self.words[name as usize].as_str())
    }

    /// Whether a vertex is of the body's own file.
    pub fn is_behind(&self, vertex: usize) -> bool {
        self.behind.as_ref().is_some_and(|behind| vertex >= behind.vertices)
    }

    /// The names of each part: of a vertex or an edge those of all faces that have it. A vertex without a face has none; one of the body's file has its.
    pub fn of_parts(&mut self, mesh: &Mesh) -> OfParts<u32> {
        let body = self.known(BODY).filter(|_| self.behind.is_some()).map_or(0, |body| self.sets.of(vec![body]));
        let first = self.behind.as_ref().map_or(usize::MAX, |behind| behind.vertices);
        let loose = |vertex: usize| if vertex >= first { body } else { 0 };
        let sets = &mut self.sets;
        OfParts::of(mesh, self.of_triangles.clone(), |one, other| sets.union(one, other), loose)
    }
}

/// A name as it is shown and asked for; what is no UTF-8 has its bytes written out.
fn text(bytes: &[u8]) -> String {
    String::from_utf8(bytes.to_vec()).unwrap_or_else(|_| bytes.escape_ascii().to_string())
}

/// Something of each vertex, edge and triangle that goes by their faces.
#[derive(Clone, Debug, PartialEq)]
pub struct OfParts<T> {
    pub vertices: Vec<T>,
    pub edges: Vec<T>,
    pub triangles: Vec<T>,
}

impl<T: Copy> OfParts<T> {
    /// From that of the triangles; what faces that share a part say is joined.
    pub fn of(mesh: &Mesh, triangles: Vec<T>, mut join: impl FnMut(T, T) -> T, loose: impl Fn(usize) -> T) -> OfParts<T> {
        let mut gather = |count: usize, parts: &[u32]| {
            let mut found = vec![None; count];
            for (parts, &of_face) in parts.chunks_exact(3).zip(&triangles) {
                for &part in parts {
                    let slot = &mut found[part as usize];
                    *slot = Some(slot.map_or(of_face, |before| join(before, of_face)));
                }
            }
            found
        };
        let vertices = gather(mesh.positions.len(), mesh.triangles.as_flattened());
        let edges = gather(mesh.edges.len(), &mesh.sides);
        let vertices = vertices.into_iter().enumerate().map(|(vertex, found)| found.unwrap_or_else(|| loose(vertex))).collect();
        let edges = edges.into_iter().map(|found| found.expect("an edge is a face's")).collect();
        OfParts { vertices, edges, triangles }
    }

    /// Of the first part of a pair, and of the second.
    pub fn of_pair(&self, pair: Pair) -> [T; 2] {
        let (first, second) = (pair.first as usize, pair.second as usize);
        match pair.kind {
            Kind::PointTriangle => [self.vertices[first], self.triangles[second]],
            Kind::EdgeEdge => [self.edges[first], self.edges[second]],
        }
    }

    /// Of an edge and of a triangle.
    pub fn of_through(&self, Through { edge, triangle }: Through) -> [T; 2] {
        [self.edges[edge as usize], self.triangles[triangle as usize]]
    }
}
