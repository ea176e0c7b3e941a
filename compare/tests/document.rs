//! What document 01 says with numbers, as document 02 leaves it: the printed scene, the twelve shown cases, the facts that are only run, and
//! each refusal with each tie in the order of the checks.

use compare::calls::slices::{flat, list, pair_settled, pair_verdict, piece_settled, piece_verdict, Slices};
use compare::list::listing::is_listed;
use compare::making::cases::{shown, text_cases, PRINTED_REPORT, PRINTED_SCENE};
use compare::numbers::equations::Solutions;
use compare::numbers::whole::Whole;
use compare::report::report;
use compare::scene::pieces::pieces;
use compare::scene::refusal::*;
use compare::scene::*;
use compare::text::{read, read_lent, write};
use compare::verdicts::settled::{self, joined, Settled};
use compare::verdicts::verdict::{of_pieces, Verdict};

#[test]
fn the_printed_scene() {
    assert_eq!(report(PRINTED_SCENE.as_bytes(), REPORT_ROOM), PRINTED_REPORT);
}

#[test]
fn the_twelve_shown_cases() {
    for (place, case) in shown().iter().enumerate() {
        assert_eq!(of_pieces(&case.scene, case.pair), case.pieces, "case {}", place + 1);
        assert_eq!(settled::of_pieces(&case.scene, case.pair), case.settled, "case {}", place + 1);
        assert_eq!(is_listed(&case.scene, case.pair), case.listed, "case {}", place + 1);
    }
}

#[test]
fn case_6_is_apart_and_case_7_touch() {
    let words: Vec<Settled> = shown().iter().map(|case| settled::of_pair(&case.scene, case.pair)).collect();
    assert_eq!((words[5], words[6]), (Settled::Apart, Settled::Touch));
    assert!(words.iter().enumerate().all(|(place, word)| [5, 6].contains(&place) || word.verdict() != Verdict::Degenerate));
}

/// Hit, else touch, else apart, else miss, for every set of words that the pieces may have.
#[test]
fn the_word_of_a_pair() {
    use Settled::{Apart as A, Hit as H, Miss as M, Touch as T};
    let wanted = [
        (vec![M], M),
        (vec![A], A),
        (vec![T], T),
        (vec![H], H),
        (vec![M, A], A),
        (vec![M, T], T),
        (vec![M, H], H),
        (vec![A, T], T),
        (vec![A, H], H),
        (vec![T, H], H),
        (vec![M, A, T], T),
        (vec![M, A, H], H),
        (vec![M, T, H], H),
        (vec![A, T, H], H),
        (vec![M, A, T, H], H),
    ];
    for (mut words, word) in wanted {
        for _ in 0..words.len() {
            assert_eq!(joined(&words), word, "{words:?}");
            words.rotate_left(1);
        }
    }
}

/// No number stands for two words, nor for the third of the three-word verdicts.
#[test]
fn bytes_of_words() {
    let bytes = settled::WORDS.map(|word| (word.word(), word.byte()));
    assert_eq!(bytes, [("hit", 0), ("miss", 1), ("touch", 3), ("apart", 4)]);
}

#[test]
fn the_weights_of_case_1() {
    let case = &shown()[0];
    let piece = &pieces(&case.scene, case.pair)[1];
    let solved = Solutions::of(&piece.first, &piece.second).only();
    for ((numerator, denominator), weight) in solved.iter().zip([2, 2, 2, 0, 1, 1]) {
        // as shares of their sum, which is 4
        assert_eq!(numerator.times(&Whole::from(4)), denominator.times(&Whole::from(weight)));
    }
}

#[test]
fn run_only_facts() {
    let vertex = |x: &str| report(format!("v\t{x}\t0\t0\t0\t0\t0\n").as_bytes(), REPORT_ROOM);
    for taken in ["524287", "-524287", "262144", "-262144"] {
        assert_eq!(vertex(taken), "total\t0\t0\t0\t0\t0\n");
    }
    for refused in ["524288", "-524288"] {
        assert_eq!(vertex(refused), "refused\t2\t1\n");
    }
    assert_eq!(vertex("-0"), "refused\t9\t1\n");
    assert_eq!(report(PRINTED_SCENE.as_bytes(), 1), "refused\t7\t2\n");
    assert_eq!(report(PRINTED_SCENE.as_bytes(), 2), PRINTED_REPORT);
}

#[test]
fn texts_at_the_edges_of_the_rules() {
    for case in text_cases() {
        let report = report(&case.text, REPORT_ROOM);
        let lines: Vec<&str> = report.split_terminator('\n').collect();
        assert_eq!(*lines.last().unwrap(), case.last_line, "{}", case.name);
        assert!(report.ends_with('\n'));
        assert!(lines.len() == 1 || !case.last_line.starts_with("refused"), "{}", case.name);
    }
}

#[test]
fn lent_buffers_come_before_the_text() {
    let bad = vec![b'x'; TEXT_LIMIT + 1];
    let enough = [3_072, 2_048, 1_536, 1_024];
    for short in 0..4 {
        let mut lengths = enough;
        lengths[short] -= 1;
        assert_eq!(read_lent(&bad, lengths), Err(Refusal::bare(LENT_TOO_SHORT)));
    }
    assert_eq!(read_lent(&bad, enough), Err(Refusal::bare(TEXT_TOO_LONG)));
    assert_eq!(read_lent(b"", enough), Ok(Scene::default()));
}

#[test]
fn written_and_read_again() {
    let scene = read(PRINTED_SCENE.as_bytes()).unwrap();
    assert_eq!(write(&scene), PRINTED_SCENE);
}

fn refused(positions: &[i64], edges: &[u64], triangles: &[u64]) -> u64 {
    compare::calls::slices::scene(Slices { positions, edges, triangles, seams: &[] }).unwrap_err().number
}

#[test]
fn slices_are_checked_whole_before_the_next_check() {
    let (three, far) = ([0; 18], [0, 0, 0, 0, 0, 524_288]);
    assert_eq!(refused(&[0; 5], &[], &[]), BAD_SHAPE);
    assert_eq!(refused(&[], &[0], &[]), BAD_SHAPE);
    assert_eq!(refused(&[], &[], &[0, 1]), BAD_SHAPE);
    assert_eq!(refused(&[0; 6 * 513], &[], &[]), BAD_SHAPE);
    assert_eq!(refused(&three, &[0, 1].repeat(1_025), &[]), BAD_SHAPE);
    assert_eq!(refused(&three, &[], &[0, 1, 2].repeat(513)), BAD_SHAPE);
    assert_eq!(refused(&far, &[0], &[]), BAD_SHAPE);
    assert_eq!(refused(&far, &[0, 9], &[]), OUT_OF_RANGE);
    assert_eq!(refused(&[-524_288, 0, 0, 0, 0, 0], &[0, 0], &[]), OUT_OF_RANGE);
    assert_eq!(refused(&[i64::MIN; 6], &[], &[]), OUT_OF_RANGE);
    assert_eq!(refused(&[], &[0, 1], &[]), NO_SUCH_VERTEX);
    assert_eq!(refused(&three, &[1, 1, 0, 3], &[]), NO_SUCH_VERTEX);
    assert_eq!(refused(&three, &[1, 1], &[0, 1, 3]), NO_SUCH_VERTEX);
    assert_eq!(refused(&three, &[0, u64::MAX], &[]), NO_SUCH_VERTEX);
    assert_eq!(refused(&three, &[1, 1], &[0, 1, 2]), VERTEX_TWICE);
    assert_eq!(refused(&three, &[0, 1], &[2, 1, 2]), VERTEX_TWICE);
    let full = compare::calls::slices::scene(Slices {
        positions: &[524_287; 3_072],
        edges: &[0, 511].repeat(1_024),
        triangles: &[0, 1, 511].repeat(512),
        seams: &[],
    });
    assert!(full.is_ok());
}

#[test]
fn a_pair_or_a_piece_asked_for() {
    let flat = flat(&read(PRINTED_SCENE.as_bytes()).unwrap());
    let slices = flat.slices();
    let (pt, ee) = (Kind::PointTriangle, Kind::EdgeEdge);
    let pair = |kind, first, second| pair_verdict(slices, kind, first, second).map_err(|refusal| refusal.number);
    let piece = |kind, first, second, piece| piece_verdict(slices, kind, first, second, piece).map_err(|refusal| refusal.number);
    let word = |kind, first, second| pair_settled(slices, kind, first, second).map_err(|refusal| refusal.number);
    let piece_word = |kind, first, second, piece| piece_settled(slices, kind, first, second, piece).map_err(|r| r.number);
    for (kind, first, second) in [(pt, 3, 0), (ee, 0, 1), (pt, 5, 0), (pt, 0, 0), (ee, 1, 1), (ee, 2, 2)] {
        assert_eq!(word(kind, first, second).map(Settled::verdict), pair(kind, first, second));
        for number in 0..5 {
            let wanted = piece(kind, first, second, number);
            assert_eq!(piece_word(kind, first, second, number).map(Settled::verdict), wanted);
        }
    }
    assert_eq!(pair(pt, 3, 0), Ok(Verdict::Hit));
    assert_eq!(pair(ee, 0, 1), Ok(Verdict::Hit));
    assert_eq!(pair(ee, 1, 0), Ok(Verdict::Hit));
    assert_eq!(pair(pt, 5, 0), Err(NOT_THERE));
    assert_eq!(pair(pt, 3, 1), Err(NOT_THERE));
    assert_eq!(pair(pt, 0, u64::MAX), Err(NOT_THERE));
    assert_eq!(pair(ee, 0, 2), Err(NOT_THERE));
    assert_eq!(pair(ee, 2, 2), Err(NOT_THERE));
    assert_eq!(pair(pt, 0, 0), Err(SHARES_A_VERTEX));
    assert_eq!(pair(ee, 1, 1), Err(SHARES_A_VERTEX));
    assert_eq!(piece(pt, 3, 0, 0), Ok(Verdict::Miss));
    assert_eq!(piece(pt, 3, 0, 2), Ok(Verdict::Hit));
    assert_eq!(piece(pt, 3, 0, 3), Err(NOT_THERE));
    assert_eq!(piece(pt, 0, 0, 3), Err(NOT_THERE));
    assert_eq!(piece(pt, 0, 0, 2), Err(SHARES_A_VERTEX));
    assert_eq!(piece(ee, 0, 1, 4), Err(NOT_THERE));
    assert_eq!(piece(ee, 1, 1, 3), Err(SHARES_A_VERTEX));
    for number in 0..4 {
        assert_eq!(piece(ee, 0, 1, number), piece(ee, 1, 0, number));
    }
    let bad = Slices { positions: &slices.positions[1..], ..slices };
    assert_eq!(pair_verdict(bad, pt, 9, 9), Err(Refusal::bare(BAD_SHAPE)));
    assert_eq!(list(slices, 2), Ok(vec![3_072, 1_048_577]));
    assert_eq!(list(slices, 1), Err(Refusal::new(NO_ROOM, 2)));
    assert_eq!(list(bad, 0), Err(Refusal::bare(BAD_SHAPE)));
}
