//! Cloth of which the faces have names, and what these are, reckoned from the faces alone.

use crate::cloth::{cloth, Cloth, Place, KINDS};
use compare::numbers::random::Random;
use garment::mesh::Mesh;
use garment::pairs::{Kind, Pair};
use std::collections::BTreeSet;
use std::fmt::Write;

pub const OBJECTS: [&str; 4] = ["Coat", "Left sleeve", "Body", "Button"];
pub const GROUPS: [&str; 4] = ["front", "Body", "back", "lining"];

pub struct Dressed {
    pub cloth: Cloth,
    /// The names of each face.
    pub names: Vec<BTreeSet<String>>,
    pub texts: [String; 2],
}

/// Names change every few faces, so that many vertices and edges are of several; the first faces have none.
pub fn dressed(seed: u64, vertices: usize) -> Dressed {
    let mut random = Random::new(seed);
    let cloth = cloth(KINDS[1], vertices, seed);
    let mut names = Vec::new();
    let mut faces = String::new();
    let (mut object, mut groups): (Option<&str>, Vec<&str>) = (None, Vec::new());
    for (at, face) in cloth.faces.iter().enumerate() {
        if at >= 5 && random.below(6) == 0 {
            let name = OBJECTS[random.below(4)];
            (object, groups) = (Some(name), Vec::new());
            faces += &format!("o {name}\n");
        }
        if at >= 5 && random.below(6) == 0 {
            groups = GROUPS.into_iter().filter(|_| random.below(3) == 0).collect();
            faces += &format!("g {}\n", groups.join(" "));
        }
        names.push(object.iter().chain(&groups).map(|name| name.to_string()).collect());
        let corners: String = face.iter().map(|corner| format!(" {}", corner + 1)).collect();
        faces += &format!("f{corners}\n");
    }
    let texts = [&cloth.start, &cloth.end].map(|places| vertex_lines(places) + &faces);
    Dressed { cloth, names, texts }
}

pub fn vertex_lines(places: &[Place]) -> String {
    let mut text = String::new();
    for [x, y, z] in places {
        writeln!(text, "v {x:.4} {y:.4} {z:.4}").expect("a string takes all");
    }
    text
}

impl Dressed {
    /// The names of each face that has the part with these vertices, face by face. A side of a triangle that cuts a quad is the quad's.
    pub fn of_part(&self, part: &[u32]) -> Vec<&BTreeSet<String>> {
        let has = |face: &[u32]| part.iter().all(|vertex| face.contains(vertex));
        self.cloth.faces.iter().zip(&self.names).filter(|(face, _)| has(face)).map(|(_, names)| names).collect()
    }
}

/// The vertices of both parts.
pub fn parts(mesh: &Mesh, pair: Pair) -> [Vec<u32>; 2] {
    match pair.kind {
        Kind::PointTriangle => [vec![pair.first], mesh.triangles[pair.second as usize].to_vec()],
        Kind::EdgeEdge => [pair.first, pair.second].map(|edge| mesh.edges[edge as usize].to_vec()),
    }
}
