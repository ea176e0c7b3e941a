//! The C header says the same as the wrapper: version, sizes, words, kinds and refusals.

use makhnodri::*;
use std::collections::BTreeMap;

fn header_text() -> String {
    std::fs::read_to_string(concat!(env!("CARGO_MANIFEST_DIR"), "/../../include/makhnodri.h")).unwrap()
}

/// What the header defines, by `#define NAME NUMBER` or as `NAME = NUMBER` in an enum.
fn header() -> BTreeMap<String, i64> {
    let text = header_text();
    let numbered = |line: &str| {
        let mut words =
            line.trim().trim_start_matches("#define ").split([' ', ',']).filter(|word| !word.is_empty() && *word != "=");
        let name = words.next()?.strip_prefix("MAKHNODRI_")?.to_string();
        Some((name, words.next()?.parse().ok()?))
    };
    text.lines().filter_map(numbered).collect()
}

const REFUSALS: [(&str, Refusal); 18] = [
    ("SHAPE", Refusal::Shape),
    ("COORDINATE", Refusal::Coordinate),
    ("UNKNOWN_VERTEX", Refusal::UnknownVertex),
    ("REPEATED_VERTEX", Refusal::RepeatedVertex),
    ("NOT_THERE", Refusal::NotThere),
    ("SHARED_VERTEX", Refusal::SharedVertex),
    ("NO_ROOM", Refusal::NoRoom),
    ("LONG_TEXT", Refusal::LongText),
    ("BAD_LINE", Refusal::BadLine),
    ("LATE_RECORD", Refusal::LateRecord),
    ("TOO_MANY", Refusal::TooMany),
    ("SHORT_BUFFER", Refusal::ShortBuffer),
    ("BLOCK_LENGTH", Refusal::BlockLength),
    ("FILES_DIFFER", Refusal::FilesDiffer),
    ("BROKEN_SEAM", Refusal::BrokenSeam),
    ("BEYOND_OLD_RANGE", Refusal::BeyondOldRange),
    ("STALE_BOX", Refusal::StaleBox),
    ("WRONG_ORDER", Refusal::WrongOrder),
];

#[test]
fn the_header_has_the_same_numbers() {
    let mut version = VERSION.split('.').map(|part| part.parse().unwrap());
    let limits = [
        ("VERSION_MAJOR", version.next().unwrap()),
        ("VERSION_MINOR", version.next().unwrap()),
        ("VERSION_PATCH", version.next().unwrap()),
        ("COORDINATE_LIMIT", COORDINATE_LIMIT as usize),
        ("VERTEX_LIMIT", VERTEX_LIMIT),
        ("EDGE_LIMIT", EDGE_LIMIT),
        ("TRIANGLE_LIMIT", TRIANGLE_LIMIT),
        ("SEAM_LIMIT", SEAM_LIMIT),
        ("PART_LIMIT", PART_LIMIT),
        ("WANT_HITS", Wanted { hits: true, ..Wanted::default() }.mask() as usize),
        ("WANT_MISSES", Wanted { misses: true, ..Wanted::default() }.mask() as usize),
        ("WANT_TOUCHES", Wanted { touches: true, ..Wanted::default() }.mask() as usize),
        ("WANT_APARTS", Wanted { aparts: true, ..Wanted::default() }.mask() as usize),
        ("EDGES_WHOLE", 0),
        ("SIDE_BARE", 1),
        ("EDGE_TWICE", 2),
        ("TEXT_LIMIT", TEXT_LIMIT),
        ("REPORT_ROOM", REPORT_ROOM),
        ("PAIR_LIMIT", PAIR_LIMIT),
        ("CONTACT_LIMIT", CONTACT_LIMIT as usize),
        ("CONTACT_UNIT", CONTACT_UNIT as usize),
        ("CONTACT_LENGTH", CONTACT_LENGTH),
        ("WEIGHT_LIMIT", WEIGHT_LIMIT as usize),
        ("NO", false as usize),
        ("YES", true as usize),
        ("POSITIONS_LENGTH", POSITIONS_LENGTH),
        ("EDGES_LENGTH", EDGES_LENGTH),
        ("TRIANGLES_LENGTH", TRIANGLES_LENGTH),
        ("SEAMS_LENGTH", SEAMS_LENGTH),
        ("BOXES_LENGTH", BOXES_LENGTH),
        ("NO_FILE", 0),
        ("START_FILE", ObjFile::Start as usize),
        ("END_FILE", ObjFile::End as usize),
        ("LOG_LIMIT", LOG_LIMIT),
        ("LOG_LENGTH", 2 * LOG_LIMIT),
        ("TOLD_LENGTH", 8),
        ("REPORT_LENGTH", REPORT_LENGTH),
        ("STACK", STACK),
        ("HIT", Verdict::Hit as usize),
        ("MISS", Verdict::Miss as usize),
        ("DEGENERATE", Verdict::Degenerate as usize),
        ("TOUCH", Settled::Touch as usize),
        ("APART", Settled::Apart as usize),
        ("PT", Kind::PointTriangle as usize),
        ("EE", Kind::EdgeEdge as usize),
    ];
    let numbers = REFUSALS.map(|(name, refusal)| (name, refusal.number() as usize));
    let wanted = limits.into_iter().chain(numbers).map(|(name, number)| (name.to_string(), number as i64));
    assert_eq!(header(), wanted.collect());
    assert_eq!((Settled::Hit as usize, Settled::Miss as usize), (Verdict::Hit as usize, Verdict::Miss as usize));
    assert!(header_text().contains(&format!("#define MAKHNODRI_VERSION \"{VERSION}\"")));
}

/// `case MAKHNODRI_NAME: return "words";`
fn returned(name: &str) -> String {
    let text = header_text();
    let case = format!("case MAKHNODRI_{name}: return \"");
    let from = text.find(&case).unwrap_or_else(|| panic!("no words for {name}")) + case.len();
    text[from..].split('"').next().unwrap().to_string()
}

/// The independent program has each size once more.
#[test]
fn the_independent_program_has_the_same_sizes() {
    use compare::scene as independent;
    assert_eq!(COORDINATE_LIMIT as i64, independent::COORDINATE_LIMIT);
    let sizes = [VERTEX_LIMIT, EDGE_LIMIT, TRIANGLE_LIMIT, SEAM_LIMIT, TEXT_LIMIT, REPORT_ROOM];
    let wanted = [independent::VERTEX_LIMIT, independent::EDGE_LIMIT, independent::TRIANGLE_LIMIT, independent::SEAM_LIMIT];
    assert_eq!(sizes[..4], wanted);
    assert_eq!(sizes[4..], [independent::TEXT_LIMIT, independent::REPORT_ROOM]);
    assert_eq!([POSITIONS_LENGTH, EDGES_LENGTH, TRIANGLES_LENGTH, SEAMS_LENGTH], compare::text::LENT_LENGTHS);
    assert_eq!((BOXES_LENGTH, LOG_LIMIT), (compare::calls::stored::BOX_NUMBERS, compare::series::LOG_LIMIT));
    assert_eq!(WEIGHT_LIMIT, compare::claims::WEIGHT_LIMIT);
    assert_eq!(BOXES_LENGTH, compare::calls::stored::BOX_NUMBERS);
    assert_eq!(Refusal::FilesDiffer.number() as u64, compare::scene::refusal::FILES_DIFFER);
    assert_eq!(Refusal::BrokenSeam.number() as u64, compare::scene::refusal::BROKEN_SEAM);
    assert_eq!(Refusal::StaleBox.number() as u64, compare::scene::refusal::STALE_BOX);
    assert_eq!(Refusal::WrongOrder.number() as u64, compare::scene::refusal::WRONG_ORDER);
    assert_eq!(PART_LIMIT, compare::mesh::checks::PART_LIMIT);
}

#[test]
fn the_header_has_the_same_words() {
    for (name, refusal) in REFUSALS {
        assert_eq!(returned(name), refusal.words());
    }
    for word in [Settled::Hit, Settled::Miss, Settled::Touch, Settled::Apart] {
        assert_eq!(returned(&format!("{word:?}").to_uppercase()), word.to_string());
        assert_eq!(Settled::of_byte(word as u8), Some(word));
    }
    for word in [Verdict::Hit, Verdict::Miss, Verdict::Degenerate] {
        assert_eq!(returned(&format!("{word:?}").to_uppercase()), word.to_string());
    }
    let bytes = (0..=u8::MAX).filter(|&byte| Settled::of_byte(byte).is_some());
    assert_eq!(bytes.collect::<Vec<_>>(), [0, 1, 3, 4]);
}
