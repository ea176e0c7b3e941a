//! Series through the wrapper: against the independent program, in every lent number, and refused.

use compare::numbers::random::Random;
use compare::series::making::{everywhere, own, seeded, up_and_down};
use compare::series::{self as independent, least_lengths, LOG_LIMIT};
use makhnodri::*;

fn pair_of(pair: compare::scene::Pair) -> Pair {
    Pair {
        kind: if pair.kind == compare::scene::Kind::PointTriangle { Kind::PointTriangle } else { Kind::EdgeEdge },
        first: pair.first,
        second: pair.second,
    }
}

/// What the wrapper gives, as the program would print it.
fn printed(answer: &Result<Series, SeriesRefusal>) -> String {
    match answer {
        Err(SeriesRefusal::Line { refusal, line }) => format!("refused\t{}\t{line}\n", refusal.number()),
        Err(SeriesRefusal::NoRoom { needed }) => format!("refused\t7\t{needed}\n"),
        Err(other) => format!("refused\t{}\t0\n", other.refusal().number()),
        Ok(Series { told, .. }) => {
            let line = |Hit { step, pair }: Hit| format!("hit\t{step}\t{}\t{}\t{}\n", pair.kind, pair.first, pair.second);
            let log: String = told.into_iter().map(line).collect();
            let Told { later, listed, hits, misses, touches, aparts, first, .. } = told;
            format!(
                "{log}later\t{later}\ntotal\t{listed}\t{hits}\t{misses}\t{touches}\t{aparts}\nfirst\t{}\n",
                first.unwrap_or(0)
            )
        }
    }
}

#[test]
fn what_is_told_is_what_the_independent_program_tells() {
    let texts = own().into_iter().chain((0..60).flat_map(seeded)).map(|trial| trial.text);
    for text in texts.chain(everywhere().into_iter().step_by(5)) {
        let answer = Series::run(&text);
        assert_eq!(printed(&answer), independent::printed(&text, REPORT_ROOM), "{}", text.escape_ascii());
        if let Ok(series) = answer {
            let wanted = independent::ended(&text, REPORT_ROOM).unwrap();
            assert_eq!(series.listed, wanted.list.into_iter().map(pair_of).collect::<Vec<Pair>>());
            let positions: Vec<i32> = wanted.last.vertices.iter().flatten().map(|&n| n as i32).collect();
            assert_eq!(series.last.positions[..], positions[..]);
            assert_eq!(series.last.check_scene(), Ok(()));
        }
    }
}

/// What is told prints as words.
#[test]
fn what_is_told_prints_as_words() {
    let told = |text: &[u8]| Series::run(text).expect("a series").told.to_string();
    let falling = include_bytes!("../../../scenes/series/falling.series");
    assert_eq!(
        told(falling),
        "first hit in step 2, pt 3 0; 2 hits in the log, 0 later; of 3 listed pairs 2 hit, 0 miss, 1 touch, 0 apart"
    );
    assert_eq!(told(b""), "no hit; 0 hits in the log, 0 later; of 0 listed pairs 0 hit, 0 miss, 0 touch, 0 apart");
}

/// The last step in front of every buffer, the rest as it was; all of it after a refusal.
#[test]
fn every_lent_number_is_what_it_must_be() {
    let mut random = Random::new(5);
    for text in (0..40).flat_map(seeded).map(|trial| trial.text).filter(|text| text.len() < 6_000) {
        let mut lengths = least_lengths().map(|length| length + random.below(5));
        if random.chance(4) {
            lengths[random.below(5)] -= 9;
        }
        let mut wanted = independent::Lent::marked(lengths, random.pick(&[0, 3, 40, REPORT_ROOM]));
        let mut lent = wanted.clone();
        let number = independent::called(&text, &mut wanted);
        let answer = tell_series(
            &text, &mut lent.positions, &mut lent.edges, &mut lent.triangles, &mut lent.seams, &mut lent.boxes, &mut lent.list,
        );
        // counts, log and told are the wrapper's own
        let lists = |lent: &independent::Lent| {
            (
                lent.positions.clone(),
                lent.edges.clone(),
                lent.triangles.clone(),
                lent.seams.clone(),
                lent.boxes.clone(),
                lent.list.clone(),
            )
        };
        assert_eq!(lists(&lent), lists(&wanted), "{}", text.escape_ascii());
        match answer {
            Err(refusal) => assert_eq!(refusal.refusal().number() as u64, number >> 32),
            Ok((counts, count, told)) => {
                assert_eq!(count as u64, number);
                assert_eq!([counts.vertices, counts.edges, counts.triangles, counts.seams].map(|n| n as u64), wanted.counts);
                let rows: Vec<u32> = told.log().flat_map(|hit| [hit.step as u32, hit.pair.entry()]).collect();
                assert_eq!(rows[..], wanted.log[..2 * wanted.told[0] as usize]);
            }
        }
    }
}

/// The log is an iterator that knows its length and goes both ways; it begins with the first cause.
#[test]
fn the_log_is_gone_through() {
    let text = independent::write(&up_and_down(&[0, 40, 40, 3]));
    let told = Series::run(text.as_bytes()).unwrap().told;
    assert_eq!((told.log().len(), told.later, told.first), (LOG_LIMIT, 19, Some(2)));
    assert_eq!(told.log().next().unwrap().step, 2);
    assert_eq!(told.log().next_back().unwrap().step, 3);
    assert_eq!(told.log().rev().count(), LOG_LIMIT);
    assert!((&told).into_iter().map(|hit| hit.step).is_sorted());
}

#[test]
fn refusals_say_what_they_carry() {
    let say = |text: &str| Series::run_with_room(text.as_bytes(), 1).unwrap_err().to_string();
    assert_eq!(
        say("v\t0\t0\t0\t0\t0\t0\nn\n"),
        "line 2: refused 13: a block of a series has more or fewer v lines than there are vertices"
    );
    assert_eq!(say(&"n\n".repeat(16_385)), "refused 8: text over 32,768 bytes");
    let text = independent::write(&up_and_down(&[1, 2]));
    assert_eq!(Series::run_with_room(text.as_bytes(), 1), Err(SeriesRefusal::NoRoom { needed: 2 }));
    assert_eq!(say(&text), "refused 7: more listed pairs than room, 2 needed");
}
