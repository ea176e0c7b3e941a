//! A call of the library with everything that it is lent, and its answer; in the form in which driver.c takes and gives them.

use crate::calls::slices;
use crate::mesh::lent::{self as mesh, Time};
use crate::scene::{Kind, Scene};

/// The calls in the order of driver.c.
#[derive(Clone, Copy, Debug, PartialEq, Eq, PartialOrd, Ord)]
pub enum Call {
    CheckScene,
    CountPairs,
    ListPairs,
    SettleScene,
    /// In three words, of a pair or of a piece.
    Judge(Asked),
    /// In four.
    Settle(Asked),
    ReadScene,
    WriteReport,
    TurnScene,
    CheckClaims,
    /// Of a pair, never of a piece.
    Contact(Asked),
    ContactScene,
    /// A list of one's own.
    SettleList,
    ContactList,
    SavedLength,
    SaveScene,
    /// A scene that keeps its boxes: filled in, a vertex moved, the list from them.
    FillBoxes,
    MoveVertex,
    CountStored,
    ListStored,
    SettleStored,
    /// A text read with the boxes of its scene.
    ReadBoxed,
    /// Two OBJ files.
    ImportScene,
    TellSeries,
    /// An edge and a triangle at one time.
    Pierced(Time),
    /// A mesh of any size.
    Mesh(mesh::Call),
}

/// Of a pair, or of a piece of one.
#[derive(Clone, Copy, Debug, PartialEq, Eq, PartialOrd, Ord)]
pub enum Asked {
    Pt,
    Ee,
    PtPiece,
    EePiece,
}

pub const ASKED: [Asked; 4] = [Asked::Pt, Asked::Ee, Asked::PtPiece, Asked::EePiece];

impl Asked {
    pub fn of(kind: Kind, piece: bool) -> Asked {
        match (kind, piece) {
            (Kind::PointTriangle, false) => Asked::Pt,
            (Kind::EdgeEdge, false) => Asked::Ee,
            (Kind::PointTriangle, true) => Asked::PtPiece,
            (Kind::EdgeEdge, true) => Asked::EePiece,
        }
    }

    pub fn kind(self) -> Kind {
        match self {
            Asked::Pt | Asked::PtPiece => Kind::PointTriangle,
            Asked::Ee | Asked::EePiece => Kind::EdgeEdge,
        }
    }

    pub fn piece(self) -> bool {
        matches!(self, Asked::PtPiece | Asked::EePiece)
    }
}

/// The calls of a scene that keeps its boxes.
pub const STORED_CALLS: [Call; 5] = [Call::FillBoxes, Call::MoveVertex, Call::CountStored, Call::ListStored, Call::SettleStored];

pub fn calls() -> Vec<Call> {
    let mut out = vec![Call::CheckScene, Call::CountPairs, Call::ListPairs, Call::SettleScene];
    out.extend(ASKED.map(Call::Judge));
    out.extend(ASKED.map(Call::Settle));
    out.extend([Call::ReadScene, Call::WriteReport, Call::TurnScene, Call::CheckClaims]);
    out.extend([Call::Contact(Asked::Pt), Call::Contact(Asked::Ee), Call::ContactScene]);
    out.extend([Call::SettleList, Call::ContactList]);
    out.extend([Call::SavedLength, Call::SaveScene]);
    out.extend(STORED_CALLS);
    out.extend([Call::ReadBoxed, Call::ImportScene, Call::TellSeries]);
    out.extend([Time::Start, Time::End].map(Call::Pierced));
    out.extend(mesh::calls().into_iter().map(Call::Mesh));
    out
}

impl Call {
    /// As driver.c has it.
    fn number(self) -> u64 {
        calls().iter().position(|&call| call == self).expect("every call has its number") as u64
    }

    pub fn asked(self) -> Option<Asked> {
        match self {
            Call::Judge(asked) | Call::Settle(asked) | Call::Contact(asked) => Some(asked),
            _ => None,
        }
    }

    /// Whether it takes a scene as slices.
    pub fn takes_a_scene(self) -> bool {
        let texts = [Call::ReadScene, Call::WriteReport, Call::ReadBoxed, Call::ImportScene, Call::TellSeries];
        !texts.contains(&self) && !matches!(self, Call::Mesh(_))
    }

    /// Whether it reads a text into lent buffers.
    pub fn reads(self) -> bool {
        matches!(self, Call::ReadScene | Call::ReadBoxed)
    }

    /// Whether its scene may have seams.
    pub fn takes_seams(self) -> bool {
        self.takes_a_scene() && self != Call::TurnScene
    }

    pub fn lists(self) -> bool {
        matches!(self, Call::ListPairs | Call::SettleScene | Call::ContactScene | Call::ListStored | Call::SettleStored)
    }

    /// Whether it gives words beside the list.
    pub fn settles_a_scene(self) -> bool {
        matches!(self, Call::SettleScene | Call::ContactScene | Call::SettleStored)
    }

    /// Whether it takes the boxes that a scene keeps.
    pub fn takes_boxes(self) -> bool {
        STORED_CALLS.contains(&self)
    }

    /// Whether it looks over the boxes for one that isn't the one worked out.
    pub fn looks_over_boxes(self) -> bool {
        matches!(self, Call::CountStored | Call::ListStored | Call::SettleStored)
    }

    /// Whether it is asked for contacts, so that the old range counts.
    pub fn finds_contacts(self) -> bool {
        matches!(self, Call::Contact(_) | Call::ContactScene | Call::ContactList)
    }

    /// Whether it takes a list of one's own.
    pub fn takes_a_list(self) -> bool {
        matches!(self, Call::SettleList | Call::ContactList)
    }

    /// Whether it writes the scene as text, or tells how long that is.
    pub fn saves(self) -> bool {
        matches!(self, Call::SavedLength | Call::SaveScene)
    }

    /// Whether it tells its box tests, in a lent number.
    pub fn tells_tests(self) -> bool {
        matches!(self, Call::CountPairs | Call::ListPairs | Call::CountStored | Call::ListStored)
    }

    pub fn name(self) -> String {
        let of = |asked: Asked| ["pt", "ee", "pt_piece", "ee_piece"][ASKED.iter().position(|&a| a == asked).unwrap()];
        match self {
            Call::CheckScene => "check_scene".into(),
            Call::CountPairs => "count_pairs".into(),
            Call::ListPairs => "list_pairs".into(),
            Call::SettleScene => "settle_scene".into(),
            Call::Judge(asked) => format!("judge_{}", of(asked)),
            Call::Settle(asked) => format!("settle_{}", of(asked)),
            Call::ReadScene => "read_scene".into(),
            Call::WriteReport => "write_report".into(),
            Call::TurnScene => "turn_scene".into(),
            Call::CheckClaims => "check_claims".into(),
            Call::Contact(asked) => format!("contact_{}", of(asked)),
            Call::ContactScene => "contact_scene".into(),
            Call::SettleList => "settle_list".into(),
            Call::ContactList => "contact_list".into(),
            Call::SavedLength => "saved_length".into(),
            Call::SaveScene => "save_scene".into(),
            Call::FillBoxes => "fill_boxes".into(),
            Call::MoveVertex => "move_vertex".into(),
            Call::CountStored => "count_stored".into(),
            Call::ListStored => "list_stored".into(),
            Call::SettleStored => "settle_stored".into(),
            Call::ReadBoxed => "read_boxed".into(),
            Call::ImportScene => "import_scene".into(),
            Call::TellSeries => "tell_series".into(),
            Call::Pierced(Time::Start) => "pierced_at_start".into(),
            Call::Pierced(Time::End) => "pierced_at_end".into(),
            Call::Mesh(call) => call.name(),
        }
    }
}

/// What is lent. A buffer that the call does not take is empty.
#[derive(Clone, Debug, Default, PartialEq, Eq)]
pub struct Lent {
    pub positions: Vec<i32>,
    pub edges: Vec<u16>,
    pub triangles: Vec<u16>,
    pub seams: Vec<u16>,
    pub list: Vec<u32>,
    pub words: Vec<u8>,
    pub text: Vec<u8>,
    /// The three counts of a text, or the box tests of a list.
    pub counts: Vec<u64>,
    pub report: Vec<u8>,
    pub contacts: Vec<u32>,
    pub boxes: Vec<i32>,
    /// The six that a vertex is moved to.
    pub coordinates: Vec<i32>,
    /// The end file of two; the start file is the text.
    pub ending: Vec<u8>,
    /// A series' log, two numbers an entry, and what is told beside it.
    pub log: Vec<u32>,
    pub told: Vec<u64>,
    /// What a call over a mesh is lent, and nothing else then.
    pub mesh: mesh::Lent,
}

pub const BUFFERS: [&str; 30] = [
    "positions", "edges", "triangles", "seams", "list", "words", "text", "counts", "report", "contacts", "boxes", "coordinates",
    "ending", "log", "told", "a mesh's positions", "a mesh's edges", "a mesh's triangles", "a mesh's seams", "order of edges",
    "order of triangles", "sides", "edges by their ends", "table", "places", "a mesh's boxes", "a mesh's list", "a mesh's words",
    "a mesh's contacts", "what is told of a mesh",
];

/// The scratch of a call over a mesh: what stands there afterwards is promised by nobody.
const SCRATCH: [usize; 3] = [23, 24, 25];

/// The places of some buffers.
pub const POSITIONS: usize = 0;
pub const EDGES: usize = 1;
pub const SEAMS: usize = 3;
pub const LIST: usize = 4;
pub const WORDS: usize = 5;
pub const COUNTS: usize = 7;
pub const TEXT: usize = 6;
pub const REPORT: usize = 8;
pub const CONTACTS: usize = 9;
pub const BOXES: usize = 10;
pub const TOLD: usize = 14;
/// Numbers of a contact.
pub const ROW: usize = 5;

/// Bytes in front of what is lent, and behind it.
pub const MARGIN: usize = 24;

impl Lent {
    pub fn of_scene(scene: &Scene) -> Lent {
        let flat = slices::flat(scene);
        let narrow = |numbers: Vec<u64>| numbers.into_iter().map(|n| n as u16).collect();
        Lent {
            positions: flat.positions.into_iter().map(|n| n as i32).collect(),
            edges: narrow(flat.edges),
            triangles: narrow(flat.triangles),
            seams: narrow(flat.seams),
            ..Lent::default()
        }
    }

    fn lengths(&self) -> [usize; BUFFERS.len()] {
        [
            self.positions.len(),
            self.edges.len(),
            self.triangles.len(),
            self.seams.len(),
            self.list.len(),
            self.words.len(),
            self.text.len(),
            self.counts.len(),
            self.report.len(),
            self.contacts.len(),
            self.boxes.len(),
            self.coordinates.len(),
            self.ending.len(),
            self.log.len(),
            self.told.len(),
            self.mesh.positions.len(),
            self.mesh.edges.len(),
            self.mesh.triangles.len(),
            self.mesh.seams.len(),
            self.mesh.edge_order.len(),
            self.mesh.triangle_order.len(),
            self.mesh.sides.len(),
            self.mesh.order.len(),
            self.mesh.table.len(),
            self.mesh.places.len(),
            self.mesh.boxes.len(),
            self.mesh.list.len(),
            self.mesh.words.len(),
            self.mesh.contacts.len(),
            self.mesh.told.len(),
        ]
    }

    /// Each buffer between its margins.
    pub fn bytes(&self) -> [Vec<u8>; BUFFERS.len()] {
        let short = |numbers: &[u16]| numbers.iter().flat_map(|n| n.to_le_bytes()).collect::<Vec<u8>>();
        let wide = |numbers: &[u32]| numbers.iter().flat_map(|n| n.to_le_bytes()).collect::<Vec<u8>>();
        let signed = |numbers: &[i32]| numbers.iter().flat_map(|n| n.to_le_bytes()).collect::<Vec<u8>>();
        let inside = [
            self.positions.iter().flat_map(|n| n.to_le_bytes()).collect(),
            short(&self.edges),
            short(&self.triangles),
            short(&self.seams),
            self.list.iter().flat_map(|n| n.to_le_bytes()).collect(),
            self.words.clone(),
            self.text.clone(),
            self.counts.iter().flat_map(|n| n.to_le_bytes()).collect(),
            self.report.clone(),
            self.contacts.iter().flat_map(|n| n.to_le_bytes()).collect(),
            self.boxes.iter().flat_map(|n| n.to_le_bytes()).collect(),
            self.coordinates.iter().flat_map(|n| n.to_le_bytes()).collect(),
            self.ending.clone(),
            self.log.iter().flat_map(|n| n.to_le_bytes()).collect(),
            self.told.iter().flat_map(|n| n.to_le_bytes()).collect(),
            signed(&self.mesh.positions),
            wide(&self.mesh.edges),
            wide(&self.mesh.triangles),
            wide(&self.mesh.seams),
            wide(&self.mesh.edge_order),
            wide(&self.mesh.triangle_order),
            wide(&self.mesh.sides),
            wide(&self.mesh.order),
            wide(&self.mesh.table),
            wide(&self.mesh.places),
            signed(&self.mesh.boxes),
            self.mesh.list.iter().flat_map(|n| n.to_le_bytes()).collect(),
            self.mesh.words.clone(),
            wide(&self.mesh.contacts),
            self.mesh.told.iter().flat_map(|n| n.to_le_bytes()).collect(),
        ];
        inside.map(|inside| [marks(MARGIN), inside, marks(MARGIN)].concat())
    }
}

/// Bytes that no call is likely to write, no two alike that stand near each other.
pub fn marks(length: usize) -> Vec<u8> {
    (0..length).map(|i| (i * 37 + 165) as u8).collect()
}

pub fn marks_of_16(length: usize) -> Vec<u16> {
    (0..length).map(|i| (i * 4_099 + 50_001) as u16).collect()
}

/// Numbers that no list has, and no contact: an entry has 21 bits, and so has 2^20.
pub fn marks_of_32(length: usize) -> Vec<u32> {
    (0..length).map(|i| (i * 268_603_651 + 3_276_865_537) as u32 | 1 << 31).collect()
}

#[derive(Clone, Debug)]
pub struct Question {
    pub call: Call,
    /// The two places, and the piece; or the vertex that is moved.
    pub asked: [u64; 3],
    pub lent: Lent,
}

impl Question {
    pub fn new(call: Call, mut lent: Lent) -> Question {
        if call == Call::TurnScene {
            lent.seams.clear();
        }
        Question { call, asked: [0; 3], lent }
    }

    /// As driver.c takes it.
    pub fn written(&self) -> Vec<u8> {
        let call = self.call.number();
        let lengths = self.lent.lengths().map(|length| length as u64);
        let numbers = std::iter::once(call).chain(self.asked).chain(lengths);
        let head: Vec<u8> = numbers.flat_map(u64::to_le_bytes).collect();
        [head, self.lent.bytes().concat()].concat()
    }

    pub fn in_words(&self) -> String {
        let lengths = BUFFERS.iter().zip(self.lent.lengths()).filter(|(_, length)| *length > 0);
        let lengths: Vec<String> = lengths.map(|(buffer, length)| format!("{length} {buffer}")).collect();
        format!("{} {:?} of {}", self.call.name(), self.asked, lengths.join(", "))
    }
}

#[derive(Clone, Debug, PartialEq, Eq)]
pub struct Answer {
    pub number: u64,
    /// Each buffer between its margins.
    pub buffers: [Vec<u8>; BUFFERS.len()],
}

impl Answer {
    pub fn refusal(&self) -> u64 {
        self.number >> 32
    }

    /// As driver.c gives it.
    pub fn read(question: &Question, from: &mut impl std::io::Read) -> std::io::Result<Answer> {
        let mut number = [0; 8];
        from.read_exact(&mut number)?;
        let mut buffers = question.lent.bytes();
        for buffer in &mut buffers {
            from.read_exact(buffer)?;
        }
        Ok(Answer { number: u64::from_le_bytes(number), buffers })
    }

    /// Where it is not what it should be.
    pub fn difference(&self, wanted: &Answer) -> Option<String> {
        if self.number != wanted.number {
            let shown = |answer: &Answer| format!("{} (refusal {}, {})", answer.number, answer.refusal(), answer.number as u32);
            return Some(format!("answers {}, and should answer {}", shown(self), shown(wanted)));
        }
        let looked_at = |place: usize, byte: usize| {
            let inside = MARGIN..self.buffers[place].len() - MARGIN;
            !SCRATCH.contains(&place) || !inside.contains(&byte)
        };
        let differs = |&place: &usize| {
            let (given, wanted) = (&self.buffers[place], &wanted.buffers[place]);
            given != wanted && (0..given.len()).any(|byte| given[byte] != wanted[byte] && looked_at(place, byte))
        };
        let place = (0..BUFFERS.len()).find(differs)?;
        let (given, wanted) = (&self.buffers[place], &wanted.buffers[place]);
        let byte = (0..given.len()).find(|&byte| given[byte] != wanted[byte] && looked_at(place, byte))?;
        let at = byte as i64 - MARGIN as i64;
        Some(format!("leaves {} at byte {at} of {}, which should be {}", given[byte], BUFFERS[place], wanted[byte]))
    }
}
