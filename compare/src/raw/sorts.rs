//! What was asked, counted by sort. A comparison that never asked some sort has not compared it.

use super::expected;
use super::harm::*;
use super::meshes;
use super::pierced;
use super::question::*;
use super::series;
use super::stored_sorts;
use crate::calls::stored::BOX_NUMBERS;
use crate::list::box_tests;
use crate::list::listing;
use crate::obj;
use crate::scene::refusal::*;
use crate::scene::*;
use crate::text::faults::{self, Cell};
use std::cell::RefCell;
use std::collections::BTreeMap;

pub type Sorts = BTreeMap<String, usize>;

/// Every sort, asked for no time.
pub fn none_yet() -> Sorts {
    let mut out = Vec::new();
    out.extend(of_claim_calls());
    for call in calls() {
        let name = call.name();
        if call.takes_a_scene() && call != Call::CheckClaims {
            out.push(format!("{name}: answered"));
            out.extend((!call.saves()).then(|| format!("{name}: a scene of full size")));
            out.extend(call.takes_seams().then(|| format!("{name}: answered with seams")));
            out.extend(of_scenes(call));
        }
        if call.tells_tests() {
            out.extend(box_tests::SIZES.map(|triangles| tested(call, triangles)));
        }
        if let Some(asked) = call.asked() {
            out.extend(of_pairs(call, asked));
        }
        if call.lists() {
            out.extend(
                ["just the room", "room left over", "one too few", "no room at all"].map(|room| format!("{name}: {room}")),
            );
        }
    }
    out.push(LONG_LIST.into());
    for call in ["settle_scene", "settle_stored"] {
        out.extend(["the list too short", "the words too short", "both too short"].map(|which| format!("{call}: {which}")));
    }
    out.extend(of_contact_scenes());
    out.extend([Call::SettleList, Call::ContactList].into_iter().flat_map(of_own_lists));
    out.extend(of_saving_calls());
    out.extend(stored_sorts::all());
    out.extend(series::sorts());
    out.extend(pierced::sorts());
    out.extend(meshes::sorts());
    out.extend(SCENE_FAULTS.map(|(number, fault)| alone(number, fault)));
    out.extend(of_texts());
    out.extend(of_imports());
    out.into_iter().map(|sort| (sort, 0)).collect()
}

/// Each refusal of a scene, and each two at once.
fn of_scenes(call: Call) -> Vec<String> {
    let name = call.name();
    let later: &[u64] = match call {
        Call::ContactScene => &[BEYOND_OLD_RANGE, NO_ROOM],
        Call::ContactList => &[BEYOND_OLD_RANGE],
        Call::SaveScene => &[],
        Call::Contact(_) => &[NOT_THERE, SHARES_A_VERTEX, BEYOND_OLD_RANGE],
        _ if call.lists() => &[NO_ROOM],
        _ if call.asked().is_some() => &[NOT_THERE, SHARES_A_VERTEX],
        _ => &[],
    };
    let mut out = Vec::new();
    let checks: Vec<u64> = SCENE_CHECKS.into_iter().filter(|&check| check != BROKEN_SEAM || call.takes_seams()).collect();
    for (i, number) in checks.iter().enumerate() {
        out.push(format!("{name}: refused {number}"));
        let others = checks[i + 1..].iter().chain(later);
        out.extend(others.map(|other| format!("{name}: {number} before {other}")));
    }
    out
}

/// Each word of each piece, listed or not, in either order; each bound; each shared vertex.
fn of_pairs(call: Call, asked: Asked) -> Vec<String> {
    let name = call.name();
    let edges = asked.kind() == Kind::EdgeEdge;
    let pieces = if edges { 4 } else { 3 };
    let words: &[u64] = if matches!(call, Call::Judge(_)) { &[0, 1, 2] } else { &[0, 1, 3, 4] };
    let mut out = vec![format!("{name}: listed"), format!("{name}: not listed")];
    // without a piece, what is not there shares nothing
    out.extend(asked.piece().then(|| format!("{name}: 5 before 6")));
    for word in words {
        let of_word = |piece: u64| told(call, piece, *word);
        out.extend((0..if asked.piece() { pieces } else { 1 }).map(of_word));
    }
    out.push(format!("{name}: 6 by a seam"));
    if edges {
        out.extend(["lower edge first", "higher edge first"].map(|order| format!("{name}: {order}")));
    }
    if call.finds_contacts() {
        out.push(asked_for(call, BEYOND.0, BEYOND.1));
        out.extend([NOT_THERE, SHARES_A_VERTEX].map(|number| format!("{name}: {number} before {BEYOND_OLD_RANGE}")));
        out.extend((0..pieces).map(|piece| format!("{name}: a hit in piece {piece}")));
        out.extend(["time 0", "time 1", "share 0", "share 1"].map(|number| format!("{name}: {number}")));
    }
    let faults: &[(u64, &str)] = if edges { &EE_FAULTS } else { &PT_FAULTS };
    let faults = faults.iter().filter(|(_, fault)| *fault != "piece" || asked.piece());
    out.extend(faults.map(|(number, fault)| asked_for(call, *number, fault)));
    out
}

/// All contacts of a scene: which of the three buffers is too short, 16 alone and before 7, rows that stay and rows that are written.
fn of_contact_scenes() -> Vec<String> {
    let mut out =
        vec![asked_for(Call::ContactScene, BEYOND.0, BEYOND.1), format!("contact_scene: {BEYOND_OLD_RANGE} before {NO_ROOM}")];
    let sorts =
        ["the list too short", "the words too short", "the contacts too short", "all too short", "a part of a row left over"];
    out.extend(
        sorts
            .into_iter()
            .chain(["a hit behind another pair", "a pair that is not hit behind a hit"])
            .map(|sort| format!("contact_scene: {sort}")),
    );
    out
}

/// A list of one's own: each fault of an entry, in front and behind others, which of two decides, each word, each room.
fn of_own_lists(call: Call) -> Vec<String> {
    let mut sorts =
        vec!["no pair's number", "a part that is not there", "a shared vertex", "6 by a seam", "a fault in the first entry"];
    sorts.extend([
        "a fault behind others", "5 behind 6", "6 behind 5", "5 before 7", "6 before 7", "hit", "miss", "touch", "apart",
    ]);
    sorts.extend([
        "no entry", "listed", "not listed", "an entry twice", "the higher edge first", "just the room", "room left over",
    ]);
    sorts.extend(["one too few", "no room at all"]);
    if call == Call::ContactList {
        sorts
            .extend(["the words too short", "the contacts too short", "a part of a row left over", "5 before 16", "6 before 16"]);
        sorts.extend(["16 before 7", "refused 16", "a pair that is not hit behind a hit"]);
    }
    let mut out: Vec<String> = sorts.into_iter().map(|sort| format!("{}: {sort}", call.name())).collect();
    out.extend((call == Call::ContactList).then(|| asked_for(call, BEYOND.0, BEYOND.1)));
    out
}

/// The sorts of a question about such a list, in a scene that is one.
fn of_own(question: &Question, answer: &Answer) -> Vec<String> {
    let (call, lent) = (question.call, &question.lent);
    let Ok(scene) = expected::scene(lent) else { return vec![] };
    let mut out = Vec::new();
    let mut add = |holds: bool, sort: &str| out.extend(holds.then(|| format!("{}: {sort}", call.name())));
    let (given, count, rows) = (answer.refusal(), lent.list.len(), lent.contacts.len() / ROW);
    let with_rows = call == Call::ContactList;
    let room = if with_rows { lent.words.len().min(rows) } else { lent.words.len() };
    let faults: Vec<Option<u64>> = lent.list.iter().map(|&entry| expected::asked_by(&scene, entry).err()).collect();
    let far = with_rows && of_range(lent).is_some();
    let at_fault = [NOT_THERE, SHARES_A_VERTEX].contains(&given);
    let number = answer.number as u32 as usize;
    if at_fault {
        let (entry, later) = (lent.list[number - 1], &faults[number..]);
        add(given == NOT_THERE && entry >= 1 << 21, "no pair's number");
        add(given == NOT_THERE && entry < 1 << 21, "a part that is not there");
        add(given == SHARES_A_VERTEX, "a shared vertex");
        add(given == SHARES_A_VERTEX && expected::asked_by(&scene.unsewn(), entry).is_ok(), "6 by a seam");
        add(number == 1, "a fault in the first entry");
        add(number > 1, "a fault behind others");
        add(given == SHARES_A_VERTEX && later.contains(&Some(NOT_THERE)), "5 behind 6");
        add(given == NOT_THERE && later.contains(&Some(SHARES_A_VERTEX)), "6 behind 5");
        add(room < count, &format!("{given} before 7"));
        add(far, &format!("{given} before 16"));
        return out;
    }
    add(given == BEYOND_OLD_RANGE, "refused 16");
    add(given == BEYOND_OLD_RANGE && room < count, "16 before 7");
    if given == 0 || given == NO_ROOM {
        add(count > 0 && room == count, "just the room");
        add(count > 0 && room > count, "room left over");
        add(room + 1 == count, "one too few");
        add(count > 0 && room == 0, "no room at all");
        add(with_rows && lent.words.len() < count && rows >= count, "the words too short");
        add(with_rows && lent.words.len() >= count && rows < count, "the contacts too short");
        add(with_rows && given == 0 && lent.contacts.len() % ROW > 0, "a part of a row left over");
    }
    if given == 0 {
        let words = &answer.buffers[WORDS][MARGIN..MARGIN + count];
        [("hit", 0), ("miss", 1), ("touch", 3), ("apart", 4)].iter().for_each(|(word, byte)| add(words.contains(byte), word));
        let pairs: Vec<Pair> = lent.list.iter().map(|&entry| expected::asked_by(&scene, entry).unwrap()).collect();
        add(count == 0, "no entry");
        add(pairs.iter().any(|&pair| listing::is_listed(&scene, pair)), "listed");
        add(pairs.iter().any(|&pair| !listing::is_listed(&scene, pair)), "not listed");
        add((1..count).any(|i| lent.list[..i].contains(&lent.list[i])), "an entry twice");
        let turned = |&entry: &u32| entry >> 20 == 1 && (entry >> 10 & 1_023) > (entry & 1_023);
        add(lent.list.iter().any(turned), "the higher edge first");
        let first_hit = words.iter().position(|&word| word == 0);
        let stays = first_hit.is_some_and(|place| words[place..].iter().any(|&word| word != 0));
        add(with_rows && stays, "a pair that is not hit behind a hit");
    }
    out
}

/// A scene as text: each room, 8 alone and before 7, the longest text that there is, a minus.
fn of_saving_calls() -> Vec<String> {
    let mut out = Vec::new();
    for call in ["saved_length", "save_scene"] {
        out.extend(["refused 8", "the longest text", "a minus"].map(|sort| format!("{call}: {sort}")));
    }
    let rooms = ["just the room", "room left over", "one byte too short", "no room at all", "8 before 7"];
    out.extend(rooms.map(|sort| format!("save_scene: {sort}")));
    out
}

fn of_saving(question: &Question, answer: &Answer) -> Vec<String> {
    let lent = &question.lent;
    let mut out = Vec::new();
    let mut add = |holds: bool, sort: &str| out.extend(holds.then(|| format!("{}: {sort}", question.call.name())));
    let (given, length, room) = (answer.refusal(), answer.number as u32 as usize, lent.text.len());
    add(given == TEXT_TOO_LONG, "refused 8");
    add(given == 0 && length == TEXT_LIMIT, "the longest text");
    add(given == 0 && lent.positions.iter().any(|&n| n < 0), "a minus");
    if question.call == Call::SaveScene {
        let counted = (given == 0 || given == NO_ROOM) && length > 0;
        add(counted && room == length, "just the room");
        add(counted && room > length, "room left over");
        add(counted && room + 1 == length, "one byte too short");
        add(counted && room == 0, "no room at all");
        add(given == TEXT_TOO_LONG && room <= TEXT_LIMIT, "8 before 7");
    }
    out
}

/// Each cell of the table of faults in texts, and short buffers.
fn of_texts() -> Vec<String> {
    let mut out = vec!["write_report: pairs listed".into(), "read_boxed: 12, boxes".into(), "read_boxed: 12, boxes alone".into()];
    for call in ["read_scene", "read_boxed"] {
        let sorts = ["answered", "answered with seams", "12 before 8", "12 before a line"];
        out.extend(sorts.map(|sort| format!("{call}: {sort}")));
        out.extend(["positions", "edges", "triangles", "seams"].map(|buffer| format!("{call}: 12, {buffer}")));
    }
    for call in [Call::ReadScene, Call::ReadBoxed, Call::WriteReport] {
        out.extend(faults::cells().into_iter().filter(|&cell| can_be_given(call, cell)).map(|cell| in_cell(call, cell)));
    }
    out
}

/// Two files: each cell of their table, and short buffers before all of it.
fn of_imports() -> Vec<String> {
    let mut out: Vec<String> = obj::faults::cells().into_iter().map(|cell| format!("import_scene: {cell:?}")).collect();
    out.extend(["positions", "edges", "triangles", "seams", "boxes"].map(|buffer| format!("import_scene: 12, {buffer}")));
    out.extend(["12 before 8", "12 before a line", "12 before 14"].map(|sort| format!("import_scene: {sort}")));
    out.extend(["room left over behind the boxes", "no room left over"].map(|sort| format!("import_scene: {sort}")));
    out
}

fn of_importing(question: &Question, answer: &Answer) -> Vec<String> {
    let lent = &question.lent;
    let mut out = Vec::new();
    let mut add = |holds: bool, sort: &str| out.extend(holds.then(|| format!("import_scene: {sort}")));
    if answer.refusal() != LENT_TOO_SHORT {
        add(answer.number == 0 && lent.boxes.len() > crate::calls::stored::BOX_NUMBERS, "room left over behind the boxes");
        add(answer.number == 0 && lent.boxes.len() == crate::calls::stored::BOX_NUMBERS, "no room left over");
        let cells = obj::faults::reached(&lent.text, &lent.ending);
        out.extend(cells.into_iter().map(|cell| format!("import_scene: {cell:?}")));
        return out;
    }
    let lengths = [lent.positions.len(), lent.edges.len(), lent.triangles.len(), lent.seams.len(), lent.boxes.len()];
    let short = lengths.into_iter().zip([3_072, 2_048, 1_536, 1_024, 12_288]).map(|(length, least)| length < least);
    let named = ["positions", "edges", "triangles", "seams", "boxes"].into_iter().zip(short).filter(|(_, short)| *short);
    named.for_each(|(buffer, _)| add(true, &format!("12, {buffer}")));
    let otherwise = obj::import(&lent.text, &lent.ending).err().map(|refused| refused.number);
    add(otherwise == Some(TEXT_TOO_LONG), "12 before 8");
    add(otherwise == Some(FILES_DIFFER), "12 before 14");
    add(otherwise.is_some_and(|number| ![TEXT_TOO_LONG, FILES_DIFFER].contains(&number)), "12 before a line");
    out
}

/// Walked twice by the library.
const LONG_LIST: &str = "list_pairs: more pairs than one pass has room for";

fn tested(call: Call, triangles: usize) -> String {
    format!("{}: box tests of {triangles} triangles", call.name())
}

fn alone(number: u64, fault: &str) -> String {
    format!("{number} alone: {fault}")
}

fn asked_for(call: Call, number: u64, fault: &str) -> String {
    format!("{}: {number}, {fault}", call.name())
}

fn told(call: Call, piece: u64, word: u64) -> String {
    let word = ["hit", "miss", "degenerate", "touch", "apart"][word as usize];
    match call.asked().is_some_and(Asked::piece) {
        true => format!("{}: piece {piece} {word}", call.name()),
        false => format!("{}: {word}", call.name()),
    }
}

fn in_cell(call: Call, cell: Cell) -> String {
    format!("{}: {cell:?}", call.name())
}

/// Whoever reads a text only does not list pairs.
fn can_be_given(call: Call, cell: Cell) -> bool {
    let lists = matches!(cell, Cell::Given(NO_ROOM) | Cell::InTheWhole(_, NO_ROOM));
    call == Call::WriteReport || !lists
}

/// The sorts of a question whose right answer this is.
pub fn of(question: &Question, answer: &Answer) -> Vec<String> {
    match question.call {
        Call::ReadScene | Call::ReadBoxed => of_reading(question, answer),
        Call::CheckClaims => of_claims(question, answer),
        Call::ImportScene => of_importing(question, answer),
        Call::WriteReport => {
            let mut out = texts_cells(question);
            let report = &answer.buffers[REPORT][MARGIN..];
            out.extend((report.starts_with(b"pt") || report.starts_with(b"ee")).then(|| "write_report: pairs listed".into()));
            out
        }
        Call::SavedLength | Call::SaveScene => {
            let mut out = of_slices(question, answer);
            // most scenes of full size have a text that is too long
            out.retain(|sort| !sort.ends_with(": a scene of full size"));
            out.extend(of_saving(question, answer));
            out
        }
        call if call.takes_boxes() => {
            // 12 comes before all that is said of the scene, and 2 and 15 of a move are not the scene's
            let of_the_scene = [0, NO_ROOM].contains(&answer.refusal()) || !of_scene(&question.lent).is_empty();
            let mut out = stored_sorts::of(question, answer);
            if answer.refusal() != LENT_TOO_SHORT && of_the_scene {
                out.extend(of_slices(question, answer));
            }
            out
        }
        Call::TellSeries => series::sorts_of(question, answer),
        Call::Mesh(_) => meshes::sorts_of(question, answer),
        Call::Pierced(_) => [of_slices(question, answer), pierced::sorts_of(question, answer)].concat(),
        _ => of_slices(question, answer),
    }
}

/// Claims: each refusal, each of the scene's before the text's length, yes and no, each room.
fn of_claim_calls() -> Vec<String> {
    let mut out: Vec<String> = [
        "answered", "answered with seams", "a scene of full size", "yes", "no", "just the room", "room left over", "one too few",
        "no room at all",
    ]
    .map(|sort| format!("check_claims: {sort}"))
    .into();
    out.extend([1, 2, 3, 15, 4, 5, 6, 7, 8, 9].map(|number| format!("check_claims: refused {number}")));
    for (i, number) in SCENE_CHECKS.iter().enumerate() {
        let others = SCENE_CHECKS[i + 1..].iter().chain(&[TEXT_TOO_LONG]);
        out.extend(others.map(|other| format!("check_claims: {number} before {other}")));
    }
    out
}

fn of_claims(question: &Question, answer: &Answer) -> Vec<String> {
    let lent = &question.lent;
    let mut out = Vec::new();
    let mut add = |holds: bool, sort: String| out.extend(holds.then(|| format!("check_claims: {sort}")));
    let (given, count, room) = (answer.refusal(), answer.number as u32 as usize, lent.words.len());
    let mut faults: Vec<u64> = of_scene(lent).iter().map(|fault| fault.0).collect();
    faults.extend((lent.text.len() > TEXT_LIMIT).then_some(TEXT_TOO_LONG));
    add(given > 0, format!("refused {given}"));
    for &other in faults.iter().filter(|&&other| before(given, other)) {
        add(SCENE_CHECKS.contains(&given), format!("{given} before {other}"));
    }
    let sizes = [lent.positions.len(), lent.edges.len(), lent.triangles.len()];
    add(given == 0 && sizes == [6 * VERTEX_LIMIT, 2 * EDGE_LIMIT, 3 * TRIANGLE_LIMIT], "a scene of full size".into());
    add(given == 0, "answered".into());
    add(given == 0 && !lent.seams.is_empty(), "answered with seams".into());
    let answers = &answer.buffers[WORDS][MARGIN..MARGIN + if given == 0 { count } else { 0 }];
    add(answers.contains(&1), "yes".into());
    add(answers.contains(&0), "no".into());
    let counted = (given == 0 || given == NO_ROOM) && count > 0;
    add(counted && room == count, "just the room".into());
    add(counted && room > count, "room left over".into());
    add(counted && room + 1 == count, "one too few".into());
    add(counted && room == 0, "no room at all".into());
    out
}

thread_local! {
    /// A text and its cells, which are dear to find: some six questions in a row are about one text. The empty one is a scene, and reaches none.
    static LAST: RefCell<(Vec<u8>, Vec<Cell>)> = RefCell::default();
}

fn texts_cells(question: &Question) -> Vec<String> {
    let cells = LAST.with_borrow_mut(|(text, cells)| {
        if *text != question.lent.text {
            *cells = faults::reached(&question.lent.text);
            text.clone_from(&question.lent.text);
        }
        cells.clone()
    });
    cells.into_iter().filter(|&cell| can_be_given(question.call, cell)).map(|cell| in_cell(question.call, cell)).collect()
}

fn of_reading(question: &Question, answer: &Answer) -> Vec<String> {
    let (lent, name) = (&question.lent, question.call.name());
    if answer.number == 0 {
        let sewn = answer.buffers[COUNTS][MARGIN + 24] > 0;
        let sorts = [Some("answered"), sewn.then_some("answered with seams")];
        return sorts.into_iter().flatten().map(|sort| format!("{name}: {sort}")).collect();
    }
    if answer.refusal() != LENT_TOO_SHORT {
        return texts_cells(question);
    }
    let few_boxes = question.call == Call::ReadBoxed && lent.boxes.len() < BOX_NUMBERS;
    let short = [
        lent.positions.len() < 3_072,
        lent.edges.len() < 2_048,
        lent.triangles.len() < 1_536,
        lent.seams.len() < 1_024,
        few_boxes,
    ];
    let alone = short == [false, false, false, false, true];
    let short = ["positions", "edges", "triangles", "seams", "boxes"].into_iter().zip(short).filter(|(_, short)| *short);
    let mut out: Vec<String> = short.map(|(buffer, _)| format!("{name}: 12, {buffer}")).collect();
    out.extend(alone.then(|| format!("{name}: 12, boxes alone")));
    match crate::text::read(&lent.text).map_err(|refusal| refusal.number) {
        Err(TEXT_TOO_LONG) => out.push(format!("{name}: 12 before 8")),
        Err(_) => out.push(format!("{name}: 12 before a line")),
        Ok(_) => {}
    }
    out
}

fn of_slices(question: &Question, answer: &Answer) -> Vec<String> {
    let call = question.call;
    let mut faults = of_scene(&question.lent);
    faults.extend(call.asked().map(|asked| of_asked(question, asked)).unwrap_or_default());
    faults.extend(call.finds_contacts().then(|| of_range(&question.lent)).flatten());
    let no_room = call.lists() && (question.lent.list.is_empty() || (call.settles_a_scene() && question.lent.words.is_empty()));
    let mut out = Vec::new();
    let given = answer.refusal();
    if SCENE_CHECKS.contains(&given) {
        out.push(format!("{}: refused {given}", call.name()));
    }
    // of so many seams some are at fault too
    let alone_or_first = match &faults[..] {
        [only] => Some(*only),
        [(number, "a seam too many"), rest @ ..] if rest.iter().all(|fault| fault.0 != BAD_SHAPE) => {
            Some((*number, "a seam too many"))
        }
        _ => None,
    };
    if SCENE_CHECKS.contains(&given) || given == BEYOND_OLD_RANGE {
        faults.extend(no_room.then_some((NO_ROOM, "no room")));
    }
    let others = faults.iter().filter(|fault| given != 0 && given != NO_ROOM && before(given, fault.0));
    out.extend(others.map(|(other, _)| format!("{}: {given} before {other}", call.name())));
    let by_a_seam = given == SHARES_A_VERTEX && of_scene(&question.lent).is_empty() && !shares_by_number(question);
    out.extend(by_a_seam.then(|| format!("{}: 6 by a seam", call.name())));
    if let Some((number, fault)) = alone_or_first {
        out.push(if SCENE_CHECKS.contains(&number) { alone(number, fault) } else { asked_for(call, number, fault) });
    } else if let Some((number, fault)) = faults.first().filter(|fault| [NOT_THERE, SHARES_A_VERTEX].contains(&fault.0)) {
        out.push(asked_for(call, *number, fault));
    }
    let sizes = [question.lent.positions.len(), question.lent.edges.len(), question.lent.triangles.len()];
    if given == 0 || given == NO_ROOM {
        let full = sizes == [6 * VERTEX_LIMIT, 2 * EDGE_LIMIT, 3 * TRIANGLE_LIMIT];
        out.extend(full.then(|| format!("{}: a scene of full size", call.name())));
    }
    let triangles = question.lent.triangles.len() / 3;
    if given == 0 && call.tells_tests() && box_tests::SIZES.contains(&triangles) {
        out.push(tested(call, triangles));
    }
    if given == 0 && call == Call::ListPairs && answer.number as usize > box_tests::ONE_PASS {
        out.push(LONG_LIST.into());
    }
    if given == 0 {
        out.push(format!("{}: answered", call.name()));
        out.extend((!question.lent.seams.is_empty()).then(|| format!("{}: answered with seams", call.name())));
        out.extend(call.asked().map(|asked| of_told(question, asked, answer)).unwrap_or_default());
        out.extend(of_rows(question, answer));
    }
    if call.takes_a_list() {
        out.extend(of_own(question, answer));
    }
    if call.lists() && (given == 0 || given == NO_ROOM) {
        out.extend(of_room(question, answer.number as u32 as usize));
    }
    out.sort();
    out.dedup();
    out
}

/// Whether the two parts that are asked for have a number in common.
fn shares_by_number(question: &Question) -> bool {
    let unsewn = Question { lent: Lent { seams: vec![], ..question.lent.clone() }, ..question.clone() };
    let asked = question.call.asked().map(|asked| of_asked(&unsewn, asked)).unwrap_or_default();
    asked.iter().any(|fault| fault.0 == SHARES_A_VERTEX)
}

fn of_told(question: &Question, asked: Asked, answer: &Answer) -> Vec<String> {
    let [first, second, piece] = question.asked;
    let name = question.call.name();
    let scene = expected::scene(&question.lent).expect("an answered scene is one");
    let pair = Pair { kind: asked.kind(), first: first as usize, second: second as usize };
    let listed = if listing::is_listed(&scene, pair) { "listed" } else { "not listed" };
    let mut out = vec![format!("{name}: {listed}"), told(question.call, piece, answer.number)];
    if asked.kind() == Kind::EdgeEdge {
        out.push(format!("{name}: {} edge first", if first < second { "lower" } else { "higher" }));
    }
    out
}

fn of_room(question: &Question, count: usize) -> Vec<String> {
    let name = question.call.name();
    let (list, words) = (question.lent.list.len(), question.lent.words.len());
    let judges = matches!(question.call, Call::SettleScene | Call::SettleStored);
    let rows = question.lent.contacts.len() / ROW;
    let room = match question.call {
        Call::ContactScene => list.min(words).min(rows),
        Call::SettleScene | Call::SettleStored => list.min(words),
        _ => list,
    };
    let mut out = Vec::new();
    let mut add = |holds: bool, sort: &str| out.extend(holds.then(|| format!("{name}: {sort}")));
    add(room == count && count > 0, "just the room");
    add(room > count && count > 0, "room left over");
    add(room + 1 == count, "one too few");
    add(room == 0 && count > 0, "no room at all");
    if judges {
        add(list < count && words >= count, "the list too short");
        add(words < count && list >= count, "the words too short");
        add(words < count && list < count, "both too short");
    }
    if question.call == Call::ContactScene {
        let short = [list < count, words < count, rows < count];
        add(short == [true, false, false], "the list too short");
        add(short == [false, true, false], "the words too short");
        add(short == [false, false, true], "the contacts too short");
        add(short == [true, true, true], "all too short");
        add(rows >= count && !question.lent.contacts.len().is_multiple_of(ROW), "a part of a row left over");
    }
    out
}

/// What a hit carries; and in a scene which rows are written.
fn of_rows(question: &Question, answer: &Answer) -> Vec<String> {
    let name = question.call.name();
    let mut out = Vec::new();
    let mut add = |holds: bool, sort: String| out.extend(holds.then(|| format!("{name}: {sort}")));
    match question.call {
        Call::Contact(asked) if answer.number == 0 => {
            let row = row(answer, 0);
            let shares = &row[2..if asked.kind() == Kind::EdgeEdge { 4 } else { 5 }];
            add(true, format!("a hit in piece {}", row[0]));
            add(row[1] == 0, "time 0".into());
            add(row[1] == 1 << 20, "time 1".into());
            add(shares.contains(&0), "share 0".into());
            add(shares.contains(&(1 << 20)), "share 1".into());
        }
        Call::ContactScene => {
            let words = &answer.buffers[WORDS][MARGIN..MARGIN + answer.number as usize];
            let hit = |word: &u8| *word == 0;
            let first_hit = words.iter().position(hit);
            add(first_hit.is_some_and(|place| place > 0), "a hit behind another pair".into());
            add(first_hit.is_some_and(|place| !words[place..].iter().all(hit)), "a pair that is not hit behind a hit".into());
        }
        _ => {}
    }
    out
}

/// The numbers of a row.
pub fn row(answer: &Answer, place: usize) -> [u32; ROW] {
    let bytes = &answer.buffers[CONTACTS][MARGIN + 4 * ROW * place..];
    std::array::from_fn(|i| u32::from_le_bytes(bytes[4 * i..][..4].try_into().unwrap()))
}
