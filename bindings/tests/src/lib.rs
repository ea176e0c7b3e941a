//! Scenes as the numbers that are lent, asked of the library and of the independent program, answers in document 01's numbers.

use compare::calls::slices::{self, Slices};
use compare::scene::{self, all_pairs};
use compare::verdicts::settled;
use compare::verdicts::verdict;
use makhnodri::{turn_scene, BoxedScene, Kind, ListRefusal, Refusal, Scene, Settled, TextRefusal, Verdict};

/// A value, or a refusal's number with the line, the needed count, or 0.
pub type Answer<T> = Result<T, (u64, u64)>;

pub const KINDS: [Kind; 2] = [Kind::PointTriangle, Kind::EdgeEdge];

#[derive(Clone, Debug, Default, PartialEq, Eq)]
pub struct Flat {
    pub positions: Vec<i32>,
    pub edges: Vec<u16>,
    pub triangles: Vec<u16>,
    pub seams: Vec<u16>,
}

impl Flat {
    pub fn of(scene: &scene::Scene) -> Flat {
        let slices::Flat { positions, edges, triangles, seams } = slices::flat(scene);
        let narrow = |numbers: Vec<u64>| numbers.into_iter().map(|n| n as u16).collect();
        let positions = positions.into_iter().map(|n| n as i32).collect();
        Flat { positions, edges: narrow(edges), triangles: narrow(triangles), seams: narrow(seams) }
    }

    pub fn scene(&self) -> Scene<'_> {
        Scene::new(&self.positions, &self.edges, &self.triangles).sewn(&self.seams)
    }

    /// The same for the independent program.
    pub fn independent<T>(&self, ask: impl FnOnce(Slices) -> Result<T, compare::scene::refusal::Refusal>) -> Answer<T> {
        let positions: Vec<i64> = self.positions.iter().map(|&n| n.into()).collect();
        let wide = |numbers: &[u16]| numbers.iter().map(|&n| n.into()).collect::<Vec<u64>>();
        let (edges, triangles, seams) = (wide(&self.edges), wide(&self.triangles), wide(&self.seams));
        let slices = Slices { positions: &positions, edges: &edges, triangles: &triangles, seams: &seams };
        ask(slices).map_err(|r| (r.number, r.third))
    }
}

pub fn kind_of(kind: Kind) -> scene::Kind {
    match kind {
        Kind::PointTriangle => scene::Kind::PointTriangle,
        Kind::EdgeEdge => scene::Kind::EdgeEdge,
    }
}

pub fn verdict_of(verdict: verdict::Verdict) -> Verdict {
    match verdict {
        verdict::Verdict::Hit => Verdict::Hit,
        verdict::Verdict::Miss => Verdict::Miss,
        verdict::Verdict::Degenerate => Verdict::Degenerate,
    }
}

pub fn settled_of(word: settled::Settled) -> Settled {
    match word {
        settled::Settled::Hit => Settled::Hit,
        settled::Settled::Miss => Settled::Miss,
        settled::Settled::Touch => Settled::Touch,
        settled::Settled::Apart => Settled::Apart,
    }
}

pub fn bare(refusal: Refusal) -> (u64, u64) {
    (refusal.number().into(), 0)
}

pub fn of_list(refusal: ListRefusal) -> (u64, u64) {
    let needed = if let ListRefusal::NoRoom { needed } = refusal { needed } else { 0 };
    (refusal.refusal().number().into(), needed as u64)
}

pub fn of_text(refusal: TextRefusal) -> (u64, u64) {
    let line = if let TextRefusal::Line { line, .. } = refusal { line } else { 0 };
    (refusal.refusal().number().into(), line as u64)
}

/// What stood in a buffer before a call: no two neighbours alike, and no run of zeros.
pub fn painted<T: From<u8>>(length: usize) -> Vec<T> {
    (0..length).map(|place| T::from((place % 251) as u8 ^ 0x5a)).collect()
}

/// Makes the list with this room, and holds every number of the buffer, in front, behind and after a refusal, to what it must be.
pub fn listed(flat: &Flat, room: usize) -> Answer<Vec<u32>> {
    let mut list: Vec<u32> = painted(room);
    let before = list.clone();
    let answer = flat.scene().list_pairs(&mut list).map_err(of_list);
    let front = answer.map_or(0, |listed| listed.count);
    assert!(front <= list.len());
    assert_eq!(list[front..], before[front..], "behind the list");
    answer.map(|_| list[..front].to_vec())
}

/// The same of the list with its words.
pub fn settled(flat: &Flat, room: usize, bytes: usize) -> Answer<(Vec<u32>, Vec<u8>)> {
    let (mut list, mut words): (Vec<u32>, Vec<u8>) = (painted(room), painted(bytes));
    let before = (list.clone(), words.clone());
    let answer = flat.scene().settle_scene(&mut list, &mut words).map_err(of_list);
    let count = answer.unwrap_or(0);
    assert!(count <= list.len() && count <= bytes);
    assert_eq!(list[count..], before.0[count..], "behind the list");
    assert_eq!(words[count..], before.1[count..], "behind the words");
    answer.map(|_| (list[..count].to_vec(), words[..count].to_vec()))
}

/// The three lists of the scene turned round, or a refusal, after which they stand as they were.
pub fn turned(flat: &Flat) -> Answer<Flat> {
    let mut turned = flat.clone();
    let answer = turn_scene(&mut turned.positions, &mut turned.edges, &mut turned.triangles).map_err(bare);
    assert!(answer.is_ok() || turned == *flat, "a refused scene was changed");
    answer.map(|_| turned)
}

/// Every question that takes a scene, asked with plenty of room; what is asked of a pair is asked of places 0 and 1.
pub fn every_answer(flat: &Flat) -> Vec<(&'static str, Answer<()>)> {
    let scene = flat.scene();
    let mut out = vec![
        ("check", scene.check_scene().map_err(bare)),
        ("count", scene.count_pairs().map(drop).map_err(bare)),
        ("list", listed(flat, 40).map(drop)),
        ("settle", settled(flat, 40, 50).map(drop)),
        ("boxes", BoxedScene::new(flat.scene()).map(drop).map_err(bare)),
    ];
    // a scene with seams is not played backwards
    out.extend(flat.seams.is_empty().then(|| ("turn", turned(flat).map(drop))));
    for kind in KINDS {
        out.push(("pair", scene.judge_pair(kind, 0, 1).map(drop).map_err(bare)));
        out.push(("piece", scene.judge_piece(kind, 0, 1, 0).map(drop).map_err(bare)));
        out.push(("settled pair", scene.settle_pair(kind, 0, 1).map(drop).map_err(bare)));
        out.push(("settled piece", scene.settle_piece(kind, 0, 1, 0).map(drop).map_err(bare)));
        out.push(("contact", scene.contact_pair(kind, 0, 1).map(drop).map_err(bare)));
    }
    out.push(("contacts", scene.contact_scene(&mut painted(40), &mut painted(40), &mut painted(200)).map(drop).map_err(of_list)));
    out
}

/// Every pair of the scene, sharing a vertex or not, and ee in both orders.
pub fn asked_for(scene: &scene::Scene) -> Vec<scene::Pair> {
    let turned = |pair: &scene::Pair| scene::Pair { first: pair.second, second: pair.first, ..*pair };
    let all = all_pairs(scene);
    let ee = all.iter().filter(|pair| pair.kind == scene::Kind::EdgeEdge).map(turned).collect::<Vec<_>>();
    all.into_iter().chain(ee).collect()
}
