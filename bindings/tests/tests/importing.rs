//! Two OBJ files through the wrapper: against the independent reader, into buffers whose rest stays, and refused with file and line.

use compare::calls::stored;
use compare::obj::making::{fixed, seeded};
use compare::obj::{self, File};
use makhnodri::*;
use makhnodri_tests::*;

fn told(refused: ImportRefusal) -> (u64, u64, Option<File>) {
    let line = if let ImportRefusal::Line { line, .. } = refused { line } else { 0 };
    let file = refused.file().map(|file| if file == ObjFile::Start { File::Start } else { File::End });
    (refused.refusal().number().into(), line as u64, file)
}

/// Every pair of files of the comparison: the scene, or the refusal with its file and line, in number and in words.
#[test]
fn scenes_and_refusals_are_the_independent_ones() {
    let (mut scenes, mut refusals) = (0, 0);
    for trial in fixed().into_iter().chain((0..60).flat_map(seeded)) {
        match (Scene::import(&trial.start, &trial.end), obj::import(&trial.start, &trial.end)) {
            (Ok(scene), Ok(own)) => {
                assert_eq!(scene, Flat::of(&own).scene(), "{}", trial.name);
                assert_eq!(scene.check_scene(), Ok(()));
                scenes += 1;
            }
            (Err(refused), Err(own)) => {
                assert_eq!(told(refused), (own.number, own.third, own.file), "{}", trial.name);
                refusals += 1;
            }
            (given, wanted) => panic!("{}: {given:?}, and should be {wanted:?}", trial.name),
        }
    }
    assert!(scenes > 60 && refusals > 200, "{scenes} {refusals}");
}

struct Buffers {
    positions: Vec<i32>,
    edges: Vec<u16>,
    triangles: Vec<u16>,
    seams: Vec<u16>,
    boxes: Vec<i32>,
}

impl Buffers {
    fn painted([positions, edges, triangles, seams, boxes]: [usize; 5]) -> Buffers {
        Buffers {
            positions: painted(positions),
            edges: painted(edges),
            triangles: painted(triangles),
            seams: painted(seams),
            boxes: painted(boxes),
        }
    }

    fn import(&mut self, start: &[u8], end: &[u8]) -> Result<Counts, ImportRefusal> {
        let Buffers { positions, edges, triangles, seams, boxes } = self;
        import_scene(start, end, positions, edges, triangles, seams, boxes)
    }

    fn as_before(&self) -> bool {
        let before =
            Buffers::painted([self.positions.len(), self.edges.len(), self.triangles.len(), self.seams.len(), self.boxes.len()]);
        (&self.positions, &self.edges, &self.triangles) == (&before.positions, &before.edges, &before.triangles)
            && (&self.seams, &self.boxes) == (&before.seams, &before.boxes)
    }
}

const LENGTHS: [usize; 5] = [POSITIONS_LENGTH, EDGES_LENGTH, TRIANGLES_LENGTH, SEAMS_LENGTH, BOXES_LENGTH];
const START: &[u8] = b"v 0 0 0\nv 1.5 0 -0.05\nv 0 1 0\n\nf 1 2 3\n";
const END: &[u8] = b"v 0 0 1\nv 1.5 0 -0.5\nv 0 1 0\nf 1 2 3\n";

/// The scene and its boxes stand in front; everything behind them is as it was.
#[test]
fn the_rest_is_unchanged() {
    for more in [0, 7] {
        let lengths = LENGTHS.map(|length| length + more);
        let (mut buffers, before) = (Buffers::painted(lengths), Buffers::painted(lengths));
        let own = obj::import(START, END).unwrap();
        let flat = Flat::of(&own);
        let boxes: Vec<i32> = stored::boxes(&own, stored::Wrong::None).into_iter().map(|n| n as i32).collect();
        assert_eq!(buffers.import(START, END), Ok(Counts { vertices: 3, edges: 3, triangles: 1, seams: 0 }));
        assert_eq!(buffers.positions, [&flat.positions[..], &before.positions[18..]].concat());
        assert_eq!(buffers.edges, [&flat.edges[..], &before.edges[6..]].concat());
        assert_eq!(buffers.triangles, [&flat.triangles[..], &before.triangles[3..]].concat());
        assert_eq!(buffers.seams, before.seams);
        assert_eq!(boxes.len(), 6 * 7);
        assert_eq!(buffers.boxes, [&boxes[..], &before.boxes[42..]].concat());
    }
}

/// 12 before all else, and nothing written by any refusal.
#[test]
fn refusals_write_nothing() {
    for place in 0..5 {
        for length in [LENGTHS[place] - 1, 0] {
            let mut lengths = LENGTHS;
            lengths[place] = length;
            let mut buffers = Buffers::painted(lengths);
            for files in [[START, END], [b"x\n", END], [&[b'\n'; 40_000], END], [START, b"v 0 0 0\n"]] {
                assert_eq!(buffers.import(files[0], files[1]), Err(ImportRefusal::ShortBuffer));
                assert!(buffers.as_before());
            }
        }
    }
    let mut buffers = Buffers::painted(LENGTHS);
    let line = |file: ObjFile, refusal: Refusal, line: usize| Err(ImportRefusal::Line { file, refusal, line });
    let long = [b'\n'; TEXT_LIMIT + 1];
    for (start, end, wanted) in [
        (&b"\nx\n"[..], &long[..], Err(ImportRefusal::LongText { file: ObjFile::End })),
        (&long, &long, Err(ImportRefusal::LongText { file: ObjFile::Start })),
        (b"\nx\n", b"x\n", line(ObjFile::Start, Refusal::BadLine, 2)),
        (START, b"#\n#\nv 6000 0 0\n", line(ObjFile::End, Refusal::Coordinate, 3)),
        (START, &START[..START.len() - 1], line(ObjFile::End, Refusal::BadLine, 5)),
        (START, b"v 0 0 0\n", Err(ImportRefusal::FilesDiffer)),
    ] {
        assert_eq!(buffers.import(start, end), wanted);
        assert!(buffers.as_before());
    }
}

#[test]
fn refusals_in_words() {
    let said = |start: &[u8], end: &[u8]| Scene::import(start, end).unwrap_err().to_string();
    assert!(said(b"\nx\n", START).starts_with("the start file, line 2: refused 9: "));
    assert!(said(START, &[b'#'; 40_000]).starts_with("the end file: refused 8: "));
    assert!(said(START, b"").starts_with("refused 14: two OBJ files differ"));
}
