//! Everything that is wrong with the text of a series, each check looked at on its own in every line, and the table of what was tried.

use super::*;
use crate::text::faults::{self, Cell, LIMITS};

/// The numbers that a line may be refused for, in the order of the checks.
pub const LINE_CHECKS: [u64; 8] =
    [BAD_LINE, OUT_OF_ORDER, ONE_TOO_MANY, WRONG_BLOCK, OUT_OF_RANGE, NO_SUCH_VERTEX, BROKEN_SEAM, VERTEX_TWICE];

/// The numbers that the program can give.
pub const PRINTED: [u64; 10] = [
    TEXT_TOO_LONG, BAD_LINE, OUT_OF_ORDER, ONE_TOO_MANY, WRONG_BLOCK, OUT_OF_RANGE, NO_SUCH_VERTEX, BROKEN_SEAM, VERTEX_TWICE,
    NO_ROOM,
];

/// For each line, what it could be refused for, in the order of the checks.
pub fn of_lines(text: &[u8]) -> Vec<Vec<u64>> {
    let mut above = Series::default();
    let lines: Vec<&[u8]> = text.split_inclusive(|&byte| byte == b'\n').collect();
    let count = lines.len();
    let of = |(place, line): (usize, &&[u8])| {
        let body = line.strip_suffix(b"\n");
        let faults = of_line(body.unwrap_or(line), body.is_some(), &above, place + 1 == count);
        if !faults.contains(&BAD_LINE) {
            add(&mut above, body.unwrap());
        }
        faults
    };
    lines.iter().enumerate().map(of).collect()
}

/// A line of the form more, whatever it says.
pub(super) fn add(series: &mut Series, line: &[u8]) {
    match (line, series.blocks.last_mut()) {
        (b"n", _) => series.blocks.push(vec![]),
        (_, Some(block)) => block.extend(numbers_of_block_line(line)),
        (_, None) => faults::add(&mut series.scene, text::record(line).expect("a line of the form")),
    }
}

/// Of a line that is not of the form, the fields that are numbers are looked at all the same, as a program would that looks at them too early.
pub(super) fn of_line(line: &[u8], ended: bool, above: &Series, last: bool) -> Vec<u64> {
    let vertices = above.scene.vertices.len();
    let short = |lines: usize| lines < vertices;
    let in_block = above.blocks.last();
    let kind = line.first().copied();
    let is_next = kind == Some(b'n');
    let is_end = kind == Some(b'v') && in_block.is_some();
    // whatever the line is, the text ends behind it
    let lines_after = if is_next { Some(0) } else { in_block.map(|block| block.len() + is_end as usize) };
    let ends_short = last && lines_after.is_some_and(short);
    let too_soon = is_next && in_block.is_some_and(|block| short(block.len()));
    let too_many = is_end && in_block.is_some_and(|block| block.len() >= vertices);
    let of_scene = faults::of_line(line, ended, &above.scene, LIMITS);
    LINE_CHECKS
        .into_iter()
        .filter(|&check| match (check, in_block) {
            (BAD_LINE, _) => !ended || !of_the_form(line, in_block.is_some()),
            (WRONG_BLOCK, _) => ends_short || too_soon || too_many,
            (_, _) if is_next => false,
            (OUT_OF_RANGE, _) => of_scene.contains(&check),
            (BROKEN_SEAM, Some(block)) if is_end => makes_apart(&above.scene, block, line),
            (_, Some(_)) if is_end => false,
            (OUT_OF_ORDER, Some(_)) => matches!(kind, Some(b'e' | b't' | b'w')),
            _ => of_scene.contains(&check),
        })
        .collect()
}

fn of_the_form(line: &[u8], in_block: bool) -> bool {
    let six = in_block && line.first() == Some(&b'v');
    line == b"n" || if six { numbers_of_block_line(line).is_some() } else { text::record(line).is_some() }
}

/// Whether a seam comes apart at this line, which is the last of its block.
fn makes_apart(scene: &Scene, block: &[[i64; 3]], line: &[u8]) -> bool {
    let numbers = line.split(|&byte| byte == b'\t').filter_map(text::coordinate).take(3).collect::<Vec<i64>>();
    let Ok(next) = numbers.try_into() else { return false };
    let whole = [block, &[next]].concat();
    whole.len() == scene.vertices.len() && comes_apart(scene, &whole)
}

/// The steps of the lines that could be refused for nothing, where a block has all of its lines.
pub fn faultless(text: &[u8]) -> Vec<Scene> {
    let faults = of_lines(text);
    let lines = text.split_inclusive(|&byte| byte == b'\n').zip(faults).filter(|(_, faults)| faults.is_empty());
    let mut series = Series::default();
    for line in lines.map(|(line, _)| &line[..line.len() - 1]) {
        match series.blocks.is_empty() && line != b"n" {
            // a line that is taken away above may have been a vertex that this one speaks of
            true => drop(text::take(&mut series.scene, line)),
            false => add(&mut series, line),
        }
    }
    let vertices = series.scene.vertices.len();
    series.blocks.retain(|block| block.len() == vertices);
    series.steps()
}

/// Every cell that some text can reach. A line with a next end has no vertex numbers, and a line too many stands behind the one at which a seam came
/// apart; but behind an `n` a seam may be broken in a line that is refused with 10.
pub fn cells() -> Vec<Cell> {
    let mut out: Vec<Cell> = PRINTED.into_iter().map(Cell::Given).collect();
    for (place, &given) in LINE_CHECKS.iter().enumerate() {
        let reachable = |other: u64| match (given, other) {
            (ONE_TOO_MANY, WRONG_BLOCK | BROKEN_SEAM) => false,
            (WRONG_BLOCK, other) => other == OUT_OF_RANGE,
            (OUT_OF_RANGE, other) => other == BROKEN_SEAM,
            _ => true,
        };
        let later = LINE_CHECKS[place + 1..].iter().filter(|&&other| reachable(other));
        out.extend(later.map(|&other| Cell::InOneLine(given, other)));
        out.extend(LINE_CHECKS.map(|other| Cell::InTwoLines(given, other)));
        out.extend([Cell::InTheWhole(given, NO_ROOM), Cell::InTheWhole(TEXT_TOO_LONG, given)]);
    }
    out.push(Cell::InTheWhole(TEXT_TOO_LONG, NO_ROOM));
    out
}

/// Whether a text reaches a cell: it is refused with the cell's number, and has the other one too.
pub fn reaches(text: &[u8], cell: Cell) -> bool {
    let Some(Refusal { number: given, third }) = refusal(text) else { return false };
    let at = if LINE_CHECKS.contains(&given) { third as usize } else { 0 };
    match cell {
        Cell::Given(number) => number == given,
        Cell::InOneLine(number, other) => number == given && at > 0 && of_lines(text)[at - 1].contains(&other),
        Cell::InTwoLines(number, other) => {
            number == given && at > 0 && of_lines(text)[at..].iter().flatten().any(|&n| n == other)
        }
        Cell::InTheWhole(number, NO_ROOM) => number == given && any_without_room(&faultless(text)),
        Cell::InTheWhole(number, other) => number == given && of_lines(text).iter().flatten().any(|&n| n == other),
    }
}

fn refusal(text: &[u8]) -> Option<Refusal> {
    match read(text) {
        Err(refusal) => Some(refusal),
        Ok(series) => series.steps().iter().find_map(|step| listing::list(step, REPORT_ROOM).err()),
    }
}

fn any_without_room(steps: &[Scene]) -> bool {
    steps.iter().any(|step| listing::list(step, REPORT_ROOM).is_err())
}
