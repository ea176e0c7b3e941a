//! Texts read wrongly: a check too early or too late, a form too wide or too narrow.

use super::steps::{Mistake, Steps};
use crate::list::listing;
use crate::scene::refusal::*;
use crate::scene::*;
use crate::text;
use crate::text::faults::{self, Cell, Limits, LIMITS, LINE_CHECKS};

pub fn mistakes() -> Vec<Mistake> {
    let mut out = vec![
        reading("lines-from-0", "lines counted from 0", |text| {
            text::read(text).map_err(|refusal| Refusal::new(refusal.number, refusal.third.saturating_sub(1)))
        }),
        reading("last-faulty-line", "the last faulty line given, not the first", last_faulty_line),
        reading("length-last", "8 looked for after the lines", |text| {
            read_by(text, &Rules::document())?;
            text::read(text)
        }),
        reading("length-given", "8 with the length in place of 0", |text| {
            text::read(text).map_err(|refusal| match refusal.number {
                TEXT_TOO_LONG => Refusal::new(TEXT_TOO_LONG, text.len() as u64),
                _ => refusal,
            })
        }),
        reading("triangle-below-a-seam", "a t line below a w line taken", |text| match text::read(text) {
            Err(refusal) if refusal.number == OUT_OF_ORDER && line(text, refusal.third).starts_with(b"t") => {
                text::read(&seams_last(text))
            }
            scene => scene,
        }),
        reading("room-first", "7 given where a line is faulty, for the lines that are not", |text| {
            let scene = text::read(text);
            if scene.as_ref().is_err_and(|refusal| refusal.number != TEXT_TOO_LONG) {
                listing::list(&faults::faultless(text), REPORT_ROOM)?;
            }
            scene
        }),
    ];
    out.extend(orders());
    out.extend(forms());
    out.extend(limits());
    out
}

fn reading(key: impl Into<String>, says: impl Into<String>, read: impl Fn(&[u8]) -> Result<Scene, Refusal> + 'static) -> Mistake {
    Mistake::new(key, says, Steps { read: Some(Box::new(read)), ..Steps::default() })
}

/// What a reader goes by.
struct Rules {
    limits: Limits,
    /// The line as it is understood; nothing where it is passed over.
    understood: fn(&[u8]) -> Option<Vec<u8>>,
    last_without_lf: bool,
}

impl Rules {
    fn document() -> Rules {
        Rules { limits: LIMITS, understood: |line| Some(line.to_vec()), last_without_lf: false }
    }
}

fn read_by(text: &[u8], rules: &Rules) -> Result<Scene, Refusal> {
    let mut scene = Scene::default();
    for (above, line) in text.split_inclusive(|&byte| byte == b'\n').enumerate() {
        let body = line.strip_suffix(b"\n");
        let ended = body.is_some() || rules.last_without_lf;
        let Some(body) = (rules.understood)(body.unwrap_or(line)) else { continue };
        if let Some(&number) = faults::of_line(&body, ended, &scene, rules.limits).first() {
            return Err(Refusal::new(number, above as u64 + 1));
        }
        faults::add(&mut scene, text::record(&body).expect("a line without a fault"));
    }
    Ok(scene)
}

fn last_faulty_line(text: &[u8]) -> Result<Scene, Refusal> {
    let scene = text::read(text);
    match &scene {
        Err(refusal) if LINE_CHECKS.contains(&refusal.number) => {
            let lines = faults::of_lines(text);
            let last = lines.iter().rposition(|faults| !faults.is_empty()).unwrap();
            Err(Refusal::new(lines[last][0], last as u64 + 1))
        }
        _ => scene,
    }
}

/// A line by its number, from 1.
fn line(text: &[u8], number: u64) -> &[u8] {
    text.split(|&byte| byte == b'\n').nth(number as usize - 1).unwrap_or_default()
}

/// The lines of seams behind the others.
fn seams_last(text: &[u8]) -> Vec<u8> {
    let lines = || text.split_inclusive(|&byte| byte == b'\n');
    let (seams, others) = (lines().filter(|line| line.starts_with(b"w")), lines().filter(|line| !line.starts_with(b"w")));
    others.chain(seams).flatten().copied().collect()
}

/// One check before another, in a line or in the whole text.
fn orders() -> Vec<Mistake> {
    let in_one_line = faults::cells().into_iter().filter_map(|cell| match cell {
        Cell::InOneLine(given, other) => Some((given, other)),
        _ => None,
    });
    let in_one_line = in_one_line.map(|(right, early)| {
        reading(format!("{early}-before-{right}"), format!("in one line, {early} looked for before {right}"), move |text| {
            text::read(text).map_err(|refusal| {
                let too = refusal.number == right && faults::of_lines(text)[refusal.third as usize - 1].contains(&early);
                Refusal::new(if too { early } else { refusal.number }, refusal.third)
            })
        })
    });
    let in_the_whole = LINE_CHECKS.map(|early| {
        let says = format!("{early} looked for in the whole text before the other faults of lines");
        reading(format!("{early}-before-all"), says, move |text| {
            let scene = text::read(text);
            let first = faults::of_lines(text).iter().position(|faults| faults.contains(&early));
            match (&scene, first) {
                (Err(refusal), Some(line)) if refusal.number != TEXT_TOO_LONG => Err(Refusal::new(early, line as u64 + 1)),
                _ => scene,
            }
        })
    });
    in_one_line.chain(in_the_whole).collect()
}

fn forms() -> Vec<Mistake> {
    let form = |key: &str, says: &str, understood: fn(&[u8]) -> Option<Vec<u8>>| {
        let rules = Rules { understood, ..Rules::document() };
        reading(key, says, in_length(rules))
    };
    let mut out = vec![
        form("minus-zero", "-0 taken as a number", |line| Some(each_field(line, |f| if f == b"-0" { b"0" } else { f }))),
        form("leading-zero", "leading zeros passed over", |line| Some(each_field(line, without_zeros))),
        form("plus-sign", "a plus taken as a sign", |line| Some(each_field(line, |f| f.strip_prefix(b"+").unwrap_or(f)))),
        form("carriage-return", "a carriage return at the end of a line passed over", |line| {
            Some(line.strip_suffix(b"\r").unwrap_or(line).to_vec())
        }),
        form("empty-line", "an empty line passed over", |line| if line.is_empty() { None } else { Some(line.to_vec()) }),
        form("spaces", "a space taken for a tab", |line| {
            Some(line.iter().map(|&byte| if byte == b' ' { b'\t' } else { byte }).collect())
        }),
        form("last-tab", "a tab at the end of a line passed over", |line| {
            Some(line.strip_suffix(b"\t").unwrap_or(line).to_vec())
        }),
    ];
    let rules = Rules { last_without_lf: true, ..Rules::document() };
    out.push(reading("no-last-lf", "a last line taken without its LF", in_length(rules)));
    out
}

fn limits() -> Vec<Mistake> {
    let with = |key: &str, says: &str, limits: Limits| {
        let rules = Rules { limits, ..Rules::document() };
        reading(key, says, in_length(rules))
    };
    let sizes = |step: i64| Limits { records: LIMITS.records.map(|n| (n as i64 + step) as usize), ..LIMITS };
    let range = |step: i64| Limits { coordinate: LIMITS.coordinate + step, ..LIMITS };
    vec![
        with("size-one-more", "one record more than its size taken", sizes(1)),
        with("size-one-less", "the last record of its size refused", sizes(-1)),
        with("range-one-more", "524288 taken", range(1)),
        with("range-one-less", "524287 refused", range(-1)),
        with(
            "range-as-before",
            "the limit kept as it was before coordinates had 19 bits",
            Limits { coordinate: FIRST_COORDINATE_LIMIT, ..LIMITS },
        ),
        reading("range-at-the-end", "the limit kept as it was for end positions", |text| {
            let scene = text::read(text)?;
            let far = scene.vertices.iter().position(|v| v[3..].iter().any(|n| n.abs() > FIRST_COORDINATE_LIMIT));
            far.map_or(Ok(scene), |line| Err(Refusal::new(OUT_OF_RANGE, line as u64 + 1)))
        }),
    ]
}

/// The rules behind the check of the length.
fn in_length(rules: Rules) -> impl Fn(&[u8]) -> Result<Scene, Refusal> {
    move |text| {
        if text.len() > TEXT_LIMIT {
            return Err(Refusal::bare(TEXT_TOO_LONG));
        }
        read_by(text, &rules)
    }
}

fn each_field(line: &[u8], change: fn(&[u8]) -> &[u8]) -> Vec<u8> {
    line.split(|&byte| byte == b'\t').map(change).collect::<Vec<&[u8]>>().join(&b'\t')
}

fn without_zeros(field: &[u8]) -> &[u8] {
    let zeros = field.iter().take_while(|&&byte| byte == b'0').count();
    &field[zeros.min(field.len().saturating_sub(1))..]
}
