//! Which pairs are judged, where not all are: none within a body, or only those between two names.

use crate::judge::Through;
use crate::mesh::Mesh;
use crate::names::{Names, OfParts};
use crate::pairs::Pair;

/// How many of the faces that have a part are of a name.
#[derive(Clone, Copy, Debug, PartialEq, Eq)]
pub enum Faces {
    None,
    Some,
    All,
}

/// In doubt a pair is judged: a part that cloth and body share is not the body's alone, and is of both names.
#[derive(Clone, Debug, PartialEq)]
pub struct Choice {
    body: Option<OfParts<Faces>>,
    between: Vec<[OfParts<Faces>; 2]>,
}

impl Choice {
    /// What has one of the body's names, or is of the body's own file, is the body; pairs between any of the two names each are kept. The names are known.
    /// Nothing where all pairs are.
    pub fn of(mesh: &Mesh, names: &Names, body: &[String], between: &[[String; 2]]) -> Option<Choice> {
        let behind = names.behind.is_some();
        let body = (behind || !body.is_empty()).then(|| of_names(mesh, names, body, behind));
        let between: Vec<_> =
            between.iter().map(|two| two.each_ref().map(|name| of_names(mesh, names, &[name], false))).collect();
        (body.is_some() || !between.is_empty()).then_some(Choice { body, between })
    }

    pub fn keeps(&self, pair: Pair) -> bool {
        self.keeps_both(|of| of.of_pair(pair))
    }

    pub fn keeps_through(&self, through: Through) -> bool {
        self.keeps_both(|of| of.of_through(through))
    }

    /// By the faces of the one part, and of the other.
    fn keeps_both(&self, faces: impl Fn(&OfParts<Faces>) -> [Faces; 2]) -> bool {
        let within = |body: &OfParts<Faces>| faces(body) == [Faces::All; 2];
        let between = || self.between.is_empty() || self.between.iter().any(|two| joins(two.each_ref().map(&faces)));
        !self.body.as_ref().is_some_and(within) && between()
    }
}

/// Whether one part is of the one name, and the other of the other.
fn joins(faces: [[Faces; 2]; 2]) -> bool {
    let [[a, b], [c, d]] = faces.map(|both| both.map(|faces| faces != Faces::None));
    (a && d) || (b && c)
}

/// What has one of the names, and with `behind` what is of the body's file, whatever its name.
fn of_names(mesh: &Mesh, names: &Names, wanted: &[impl AsRef<str>], behind: bool) -> OfParts<Faces> {
    let wanted: Vec<u32> = wanted.iter().filter_map(|name| names.known(name.as_ref())).collect();
    let first = names.behind.as_ref().filter(|_| behind).map_or(usize::MAX, |behind| behind.triangles);
    let faces = |is: bool| if is { Faces::All } else { Faces::None };
    let named = |set: u32| names.sets.members(set).iter().any(|name| wanted.contains(name));
    let triangles = names.of_triangles.iter().enumerate().map(|(at, &set)| faces(at >= first || named(set))).collect();
    let of_body = behind || names.known(crate::names::BODY).is_some_and(|body| wanted.contains(&body));
    let loose = |vertex: usize| faces(of_body && names.is_behind(vertex));
    OfParts::of(mesh, triangles, |one, other| if one == other { one } else { Faces::Some }, loose)
}
