//! A series by document 02, §2: what the document says, other ways to the same answer, and whether the comparison can fail.

use compare::calls::slices::entry;
use compare::making::generate;
use compare::making::kept;
use compare::numbers::random::Random;
use compare::report;
use compare::scene::refusal::*;
use compare::scene::*;
use compare::series::faults::{cells, of_lines, reaches, LINE_CHECKS};
use compare::series::making::{
    everywhere, falling, fixed, heaps, own, seeded, sent, series, shown, small, up_and_down, with_cell, Trial, CELL,
};
use compare::series::mistakes::{self, Outcome, Right};
use compare::series::*;
use compare::text;
use compare::text::faults::Cell;
use compare::verdicts::settled::Settled;
use std::collections::BTreeMap;

const SEEDS: u64 = 130;

fn trials(seeds: u64) -> impl Iterator<Item = Trial> {
    fixed().into_iter().chain((0..seeds).flat_map(seeded))
}

fn told_of(series: &Series) -> Told {
    ended(write(series).as_bytes(), usize::MAX).unwrap().told
}

// ---- what the document says

/// The texts that crate `meaning` shows have the refusals that it shows.
#[test]
fn the_shown_texts_have_their_faults() {
    let rows = shown();
    assert_eq!(rows.len(), 26);
    for (text, says) in rows {
        let given = read(text.as_bytes()).err().map(|refusal| (refusal.number, refusal.third));
        assert_eq!(given, says, "{text:?}");
    }
}

/// A point falls on a triangle, rests there and comes back.
#[test]
fn the_shown_series_is_told() {
    let point = Pair::pt(3, 0);
    let words: Vec<Vec<Settled>> =
        falling().steps().iter().map(|step| judged(step).iter().map(|&(_, word)| word).collect()).collect();
    assert_eq!(words, [vec![], vec![Settled::Hit], vec![Settled::Touch], vec![Settled::Hit], vec![]]);
    let told = told_of(&falling());
    assert_eq!(told.log, [2, 4].map(|step| HitAt { step, pair: point }));
    assert_eq!((told.later, told.listed, told.totals, told.first), (0, 3, [2, 0, 1, 0], 2));
    let text = write(&falling());
    let wanted = "hit\t2\tpt\t3\t0\nhit\t4\tpt\t3\t0\nlater\t0\ntotal\t3\t2\t0\t1\t0\nfirst\t2\n";
    assert_eq!(printed(text.as_bytes(), REPORT_ROOM), wanted);
}

/// Each step starts where the last ended.
#[test]
fn a_step_starts_where_the_last_ended() {
    let vertices = vec![[0, 0, 0, 0, 0, 1], [0, 0, 5, 0, 0, 6]];
    let scene = Scene { vertices, ..Scene::default() };
    let series = Series { scene, blocks: vec![vec![[0, 0, 2], [0, 0, 7]], vec![[0, 0, 3], [0, 0, 8]]] };
    let heights: Vec<Vec<[i64; 2]>> =
        series.steps().iter().map(|step| step.vertices.iter().map(|v| [v[2], v[5]]).collect()).collect();
    assert_eq!(heights, [[[0, 1], [5, 6]], [[1, 2], [6, 7]], [[2, 3], [7, 8]]]);
}

/// The log holds the first 64 hits; the rest are counted, and none is replaced.
#[test]
fn the_first_64_hits_are_held() {
    for (points, held, later) in
        [(&[1; 63][..], 63, 0), (&[1; 64], 64, 0), (&[1; 65], 64, 1), (&[60, 5, 3], 64, 4), (&[70], 64, 6)]
    {
        let told = told_of(&up_and_down(points));
        assert_eq!((told.log.len(), told.later, told.first), (held, later, 1), "{points:?}");
        assert_eq!(told.totals[0], held as u64 + later);
        let all: Vec<HitAt> =
            (1..).zip(points).flat_map(|(step, &n)| (0..n).map(move |p| HitAt { step, pair: Pair::pt(3 + p, 0) })).collect();
        assert_eq!(told.log, all[..held]);
    }
    assert_eq!(told_of(&up_and_down(&[0, 0, 0])).first, 0);
    assert_eq!(told_of(&up_and_down(&[0, 0, 1])).first, 3);
}

/// 'In step and list order, without replacing an entry': a longer series has the shorter one's log in front.
#[test]
fn a_longer_series_has_the_shorter_ones_log_in_front() {
    let mut grew = 0;
    for seed in 0..60 {
        let whole = series(seed);
        let long = told_of(&whole);
        for blocks in 0..whole.blocks.len() {
            let short = told_of(&Series { blocks: whole.blocks[..blocks].to_vec(), ..whole.clone() });
            assert_eq!(long.log[..short.log.len()], short.log[..], "seed {seed}");
            assert!(short.later <= long.later && (short.first == 0 || short.first == long.first));
            grew += (short.log.len() < long.log.len()) as u32;
        }
    }
    assert!(grew > 50, "{grew}");
}

/// 7 for the first step whose list has no room, behind every fault of lines, and nothing is reported.
#[test]
fn the_first_step_without_room() {
    for (falling, count) in
        [(&[56][..], 3_080), (&[1, 56, 56], 3_080), (&[57, 56], 3_135), (&[56, 57], 3_080), (&[0, 0, 57], 3_135)]
    {
        let text = write(&heaps(falling));
        assert_eq!(printed(text.as_bytes(), REPORT_ROOM), format!("refused\t7\t{count}\n"), "{falling:?}");
        let lines = text.lines().count();
        assert_eq!(printed((text + "x\n").as_bytes(), REPORT_ROOM), format!("refused\t9\t{}\n", lines + 1));
    }
    assert!(printed(write(&heaps(&[55, 55])).as_bytes(), REPORT_ROOM).starts_with("hit\t1\t"));
}

// ---- other ways to the same answer

/// A scene is a series of one step: the same refusal, or the report's totals and its hits.
#[test]
fn a_scene_is_a_series_of_one_step() {
    let mut hits = 0;
    let scenes = (0..SEEDS).map(|seed| text::write(&generate::scene(seed)).into_bytes());
    let kept = kept::scenes().into_iter().map(|(_, path)| std::fs::read(path).unwrap());
    for text in scenes.chain(kept) {
        let report = report::report(&text, REPORT_ROOM);
        let printed = printed(&text, REPORT_ROOM);
        if report.starts_with("refused") {
            assert_eq!(printed, report);
            continue;
        }
        let hit = report.lines().filter_map(|line| line.strip_suffix("\thit"));
        let log: String = hit.take(LOG_LIMIT).map(|pair| format!("hit\t1\t{pair}\n")).collect();
        let total = report.lines().last().unwrap();
        let first = !log.is_empty() as u32;
        hits += first;
        assert!(
            printed.starts_with(&log) && printed.ends_with(&format!("\n{total}\nfirst\t{first}\n")) || log.is_empty(),
            "{printed}"
        );
    }
    assert!(hits > 20, "{hits}");
}

/// The totals are those of the steps' reports, each step written as a scene of its own.
#[test]
fn the_totals_are_those_of_the_steps() {
    for seed in 0..60 {
        let series = series(seed);
        let mut sum = [0; 5];
        for step in series.steps() {
            let report = report::report(text::write(&step).as_bytes(), usize::MAX);
            let total = report.lines().last().unwrap().split('\t').skip(1);
            sum.iter_mut().zip(total).for_each(|(sum, total)| *sum += total.parse::<u64>().unwrap());
        }
        let told = told_of(&series);
        let [hits, misses, touches, aparts] = told.totals;
        assert_eq!([told.listed, hits, misses, touches, aparts], sum, "seed {seed}");
    }
}

/// Demand 3: one matrix for the series and a shift for each boundary keep every hit, so log, later hits and first step.
#[test]
fn one_matrix_and_a_shift_for_each_boundary_keep_the_hits() {
    let mut held = 0;
    for seed in 0..150 {
        let series = series(seed);
        let Some(sent) = sent(&mut Random::new(seed), &series) else { continue };
        let (one, other) = (told_of(&series), told_of(&sent));
        assert_eq!(
            (&one.log, one.later, one.totals[0], one.first),
            (&other.log, other.later, other.totals[0], other.first),
            "seed {seed}"
        );
        held += !one.log.is_empty() as u32;
    }
    assert!(held > 20, "{held}");
}

/// What the series from seeds are there for is among them.
#[test]
fn the_series_have_what_is_wanted() {
    let mut counts: BTreeMap<&str, u32> = BTreeMap::new();
    let mut count = |name: &'static str, there: bool| *counts.entry(name).or_default() += there as u32;
    for seed in 0..300 {
        let series = series(seed);
        let ended = ended(write(&series).as_bytes(), REPORT_ROOM);
        let Ok(Ended { told, list, .. }) = ended else { continue };
        let lists: Vec<usize> = series.steps().iter().map(|step| compare::list::listing::listed(step).len()).collect();
        count("some steps", series.blocks.len() > 1);
        count("dozens of steps", series.blocks.len() > 24);
        count("seams in blocks", !series.blocks.is_empty() && !series.scene.seams.is_empty());
        count("no vertices", series.scene.vertices.is_empty());
        count("over 64 hits", told.later > 0);
        count("touches", told.totals[2] > 0);
        count("a first step behind the scene", told.first > 1);
        count("a list that was longer before", lists.iter().any(|&before| before > list.len()));
        count("no hit", told.first == 0);
    }
    println!("{counts:?}");
    assert!(counts.values().all(|&count| count >= 3), "{counts:?}");
}

// ---- refusals

/// The first line that has a fault, and the first of its faults, is what the text is refused for.
#[test]
fn the_first_fault_of_the_first_faulty_line_is_given() {
    let mut refused = 0;
    let seeded = trials(150).map(|trial| trial.text);
    for text in seeded.chain(everywhere()).filter(|text| text.len() <= TEXT_LIMIT) {
        let lines = of_lines(&text);
        let first = lines.iter().position(|faults| !faults.is_empty());
        let wanted = first.map(|line| Refusal::new(lines[line][0], line as u64 + 1));
        let given = read(&text).err();
        assert_eq!(given, wanted, "{}", text.escape_ascii());
        refused += given.is_some() as u32;
    }
    assert!(refused > 1_000, "{refused}");
}

/// Each line of a small series left out, replaced, or with another in front: each number at each place where it can stand.
#[test]
fn each_fault_stands_at_each_place() {
    let mut places: BTreeMap<u64, Vec<u64>> = BTreeMap::new();
    for text in everywhere() {
        if let Err(Refusal { number, third }) = read(&text) {
            let lines = places.entry(number).or_default();
            if !lines.contains(&third) {
                lines.push(third);
            }
        }
    }
    places.values_mut().for_each(|lines| lines.sort());
    let scene = text::write(&small().scene).lines().count() as u64;
    let whole = write(&small()).lines().count() as u64;
    assert_eq!((scene, whole), (9, 21));
    // 9 anywhere; 10 behind an `e`, which needs two vertices; 13 behind a vertex
    assert_eq!(places[&BAD_LINE], (1..=whole + 1).collect::<Vec<u64>>());
    assert_eq!(places[&OUT_OF_ORDER], (4..=whole + 1).collect::<Vec<u64>>());
    assert_eq!(places[&WRONG_BLOCK], (2..=whole + 1).collect::<Vec<u64>>());
    // 2 in every vertex of the scene and every line of a block
    let vertices = (1..=6).chain(scene + 2..=scene + 6).chain(scene + 8..=whole);
    assert_eq!(places[&OUT_OF_RANGE], vertices.collect::<Vec<u64>>());
    // 15 at the seam, behind it, and at the last line of either block
    assert!([9, 10, 15, 21].iter().all(|line| places[&BROKEN_SEAM].contains(line)), "{:?}", places[&BROKEN_SEAM]);
    assert!(places[&NO_SUCH_VERTEX].len() > 6 && places[&VERTEX_TWICE].len() > 1);
}

#[test]
fn a_text_for_each_cell_reaches_it() {
    for cell in cells() {
        for seed in 0..3 {
            let text = with_cell(&mut Random::new(seed), cell);
            assert!(reaches(&text, cell), "{cell:?}, seed {seed}:\n{}", String::from_utf8_lossy(&text));
        }
    }
}

/// Each number is given in a scene above the blocks and, where it can be, in a block.
#[test]
fn each_number_is_given_above_and_below_the_first_n() {
    let mut given: BTreeMap<(u64, bool), u32> = BTreeMap::new();
    for (seed, cell) in (0..3).flat_map(|seed| cells().into_iter().map(move |cell| (seed, cell))) {
        let text = with_cell(&mut Random::new(seed), cell);
        if let Err(Refusal { number, third }) = read(&text) {
            let below = text.split_inclusive(|&byte| byte == b'\n').take(third as usize).any(|line| line == b"n\n");
            *given.entry((number, below)).or_default() += 1;
        }
    }
    for number in LINE_CHECKS {
        let in_a_block = ![ONE_TOO_MANY, NO_SUCH_VERTEX, VERTEX_TWICE].contains(&number);
        assert_eq!(given.contains_key(&(number, true)), in_a_block, "{number} {given:?}");
        assert_eq!(given.contains_key(&(number, false)), number != WRONG_BLOCK, "{number} {given:?}");
    }
    assert!(
        cells().contains(&Cell::InOneLine(WRONG_BLOCK, OUT_OF_RANGE))
            && cells().contains(&Cell::InOneLine(OUT_OF_RANGE, BROKEN_SEAM))
    );
}

// ---- what the call leaves

/// Buffers hold the last step in front, and the rest is as it was; a refusal changes nothing, 12 comes before all.
#[test]
fn the_buffers_hold_the_last_step() {
    let mut longer_before = 0;
    for seed in 0..80 {
        let series = series(seed);
        let text = write(&series);
        let last = series.steps().pop().unwrap();
        let before = Lent::marked(least_lengths(), 4_000);
        let mut lent = before.clone();
        let count = called(text.as_bytes(), &mut lent);
        if count >> 32 > 0 {
            assert_eq!((lent, count >> 32), (before, NO_ROOM), "seed {seed}");
            continue;
        }
        let list = compare::list::listing::listed(&last);
        assert_eq!(count, list.len() as u64);
        let front = list.len();
        assert_eq!(lent.list[..front], list.iter().map(|&pair| entry(pair)).collect::<Vec<u32>>()[..]);
        assert_eq!(lent.list[front..], before.list[front..]);
        let vertices = last.vertices.len();
        assert_eq!(lent.counts, [vertices, last.edges.len(), last.triangles.len(), last.seams.len()].map(|n| n as u64));
        assert_eq!(lent.positions[..6 * vertices], last.vertices.iter().flatten().map(|&n| n as i32).collect::<Vec<i32>>()[..]);
        assert_eq!(lent.positions[6 * vertices..], before.positions[6 * vertices..]);
        let parts = 6 * (vertices + last.edges.len() + last.triangles.len());
        assert_eq!(lent.boxes[parts..], before.boxes[parts..]);
        for (v, place) in last.vertices.iter().enumerate() {
            let of = |axis: usize| [place[axis].min(place[axis + 3]) as i32, place[axis].max(place[axis + 3]) as i32];
            let [x, y, z] = [of(0), of(1), of(2)];
            assert_eq!(lent.boxes[6 * v..6 * v + 6], [x[0], y[0], z[0], x[1], y[1], z[1]]);
        }
        let held = 2 * lent.told[0] as usize;
        assert_eq!(lent.log[held..], before.log[held..]);
        let told = told_of(&series);
        let rows: Vec<[u32; 2]> = told.log.iter().map(|hit| [hit.step as u32, entry(hit.pair)]).collect();
        assert_eq!(lent.log[..held], rows.concat()[..]);
        longer_before += series.steps().iter().any(|step| compare::list::listing::listed(step).len() > front) as u32;
    }
    assert!(longer_before > 10, "{longer_before}");
}

#[test]
fn a_refusal_changes_nothing_and_12_comes_first() {
    let texts = [write(&small()), "x".into(), "x".repeat(TEXT_LIMIT + 1), write(&heaps(&[56]))];
    for text in &texts {
        for short in 0..5 {
            let mut lengths = least_lengths();
            lengths[short] -= 1;
            let before = Lent::marked(lengths, 9);
            let mut lent = before.clone();
            assert_eq!(called(text.as_bytes(), &mut lent), LENT_TOO_SHORT << 32);
            assert_eq!(lent, before);
        }
    }
    for (text, answer) in texts[1..].iter().zip([(BAD_LINE << 32) + 1, TEXT_TOO_LONG << 32, (NO_ROOM << 32) + 3_080]) {
        let before = Lent::marked(least_lengths().map(|length| length + 3), REPORT_ROOM);
        let mut lent = before.clone();
        assert_eq!(called(text.as_bytes(), &mut lent), answer);
        assert_eq!(lent, before);
    }
}

/// The room is the list's length, of each step.
#[test]
fn just_the_room() {
    let text = write(&up_and_down(&[3, 5, 2]));
    for room in 0..8 {
        let mut lent = Lent::marked(least_lengths(), room);
        let wanted = match room {
            0..3 => (NO_ROOM << 32) + 3,
            3..5 => (NO_ROOM << 32) + 5,
            _ => 2,
        };
        assert_eq!(called(text.as_bytes(), &mut lent), wanted, "room {room}");
    }
}

// ---- whether the comparison can fail

#[test]
fn each_mistake_is_noticed_and_told_from_the_others() {
    let mistakes = mistakes::all();
    let mut keys: Vec<&str> = mistakes.iter().map(|mistake| mistake.key.as_str()).collect();
    keys.sort();
    keys.dedup();
    assert_eq!(keys.len(), mistakes.len(), "two mistakes have one name");
    let mut unnoticed: Vec<usize> = (0..mistakes.len()).collect();
    let mut alike: Vec<(usize, usize)> = (0..mistakes.len()).flat_map(|a| (0..a).map(move |b| (b, a))).collect();
    // longer ones take their time, and those with a fault of a cell need their length
    let short = |trial: &Trial| trial.text.len() <= 2_000 || trial.name.contains(CELL);
    for trial in own().into_iter().chain((0..SEEDS).flat_map(seeded).filter(short)) {
        let right = Right::of(&trial.text);
        let wanted = right.outcome();
        assert_eq!(wanted.printed, printed(&trial.text, REPORT_ROOM), "{}", trial.name);
        let outcomes: Vec<Outcome> = mistakes.iter().map(|mistake| mistake.outcome(&right)).collect();
        unnoticed.retain(|&place| outcomes[place] == wanted);
        alike.retain(|&(a, b)| outcomes[a] == outcomes[b]);
    }
    let name = |place: &usize| mistakes[*place].key.clone();
    assert!(unnoticed.is_empty(), "not noticed: {:?}", unnoticed.iter().map(name).collect::<Vec<String>>());
    assert!(alike.is_empty(), "alike: {:?}", alike.iter().map(|(a, b)| [name(a), name(b)]).collect::<Vec<[String; 2]>>());
}

// ---- the example series

/// Each series in scenes/ has its log beside it and a line on the page; no log stands alone.
#[test]
fn the_example_series_have_their_logs() {
    let page = std::fs::read_to_string(kept::folder().join("README.md")).unwrap();
    let series = kept::series();
    for (name, path) in &series {
        let wanted = std::fs::read_to_string(path.with_extension("log")).unwrap();
        assert_eq!(printed(&std::fs::read(path).unwrap(), REPORT_ROOM), wanted, "{name}");
        assert!(page.contains(&format!("+ {name}: ")), "{name} has no line");
    }
    assert_eq!(series.len(), page.lines().filter(|line| line.starts_with("+ series/")).count());
    let numbers = series.iter().filter_map(|(_, path)| read(&std::fs::read(path).unwrap()).err());
    let mut refused: Vec<u64> = numbers.map(|refusal| refusal.number).collect();
    refused.sort();
    refused.dedup();
    assert_eq!(refused, [OUT_OF_RANGE, TEXT_TOO_LONG, BAD_LINE, OUT_OF_ORDER, WRONG_BLOCK, BROKEN_SEAM]);
}

/// The sleeve is what its generator makes: nothing for eleven steps, one corner through in the twelfth, and more hits than the log holds.
#[test]
fn the_sleeve_is_made() {
    let text = std::fs::read_to_string(kept::folder().join("series/sleeve.series")).unwrap();
    assert_eq!(text, write(&sleeve::drawn()));
    assert!(text.len() < TEXT_LIMIT);
    let told = told_of(&sleeve::drawn());
    assert_eq!((told.first, told.log[0]), (12, HitAt { step: 12, pair: Pair::pt(30, 11) }));
    assert!(told.later > LOG_LIMIT as u64, "a ring would keep the first cause: {}", told.later);
}

/// What docs/FORMAT.md shows of a series is what is printed for the one that it names.
#[test]
fn the_page_tells_of_series() {
    let page = std::fs::read_to_string(kept::folder().join("../docs/FORMAT.md")).unwrap();
    let part = page.split("\n## Series\n").nth(1).unwrap().split("\n## ").next().unwrap();
    let shown: String = part
        .lines()
        .filter_map(|line| line.strip_prefix("    "))
        .filter(|line| line.contains('\t'))
        .map(|line| format!("{line}\n"))
        .collect();
    assert_eq!(printed(write(&falling()).as_bytes(), REPORT_ROOM), shown);
    for number in [format!("first {LOG_LIMIT} hits"), "3,072 pairs".into(), "9, 10, 11, 13, 2, 3, 15, 4".into()] {
        assert!(part.contains(&number), "{number}");
    }
}
