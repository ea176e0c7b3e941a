//! Whether the comparison of the functions for C can fail: answers that are wrong in one respect are noticed, right ones pass.

use compare::raw::asking::{fixed, seeded};
use compare::raw::damaged;
use compare::raw::expected::Expecting;
use compare::raw::question::{Answer, Question};
use compare::raw::sorts;

/// The kinds of scenes, and the cells of texts, all have had their turn.
const SEEDS: u64 = 40;

/// Each damage of an answer is noticed in some question. All sorts are asked, and none that is not among them. One walk, since answers are dear.
#[test]
fn each_damage_is_noticed_and_each_sort_is_asked() {
    let (mut unnoticed, mut asked) = (damaged::all(), sorts::none_yet());
    println!("{} damages", unnoticed.len());
    let (mut expecting, wanted) = (Expecting::default(), asked.len());
    for question in fixed().into_iter().chain((0..SEEDS).flat_map(seeded)) {
        let right = expecting.answer(&question);
        assert_eq!(right.difference(&right), None);
        let mut given = right.clone();
        unnoticed.retain(|damage| {
            (damage.change)(&question, &mut given);
            // the most are of other questions
            if given == right {
                return true;
            }
            let noticed = given.difference(&right).is_some();
            given = right.clone();
            !noticed
        });
        for sort in sorts::of(&question, &right) {
            *asked.entry(sort).or_default() += 1;
        }
    }
    let names: Vec<&str> = unnoticed.iter().map(|damage| damage.name.as_str()).collect();
    assert!(names.is_empty(), "not noticed: {names:?}");
    let never: Vec<&String> = asked.iter().filter(|(_, count)| **count == 0).map(|(sort, _)| sort).collect();
    assert!(never.is_empty(), "never asked: {never:?}");
    assert_eq!(
        asked.len(),
        wanted,
        "{:?}",
        asked.keys().filter(|sort| !sorts::none_yet().contains_key(*sort)).collect::<Vec<_>>()
    );
}

/// What is read back is what was given, byte for byte.
#[test]
fn an_answer_is_read_as_it_was_given() {
    let question: Question = seeded(1).swap_remove(3);
    let answer = Expecting::default().answer(&question);
    let bytes = [answer.number.to_le_bytes().to_vec(), answer.buffers.concat()].concat();
    assert_eq!(Answer::read(&question, &mut &bytes[..]).unwrap(), answer);
    assert!(Answer::read(&question, &mut &bytes[1..]).is_err());
}

/// A driver that fails, ends too early, or gives back what it is asked.
#[test]
fn a_wrong_driver_is_noticed() {
    for driver in ["false", "true", "cat", "no such program"] {
        let run = std::process::Command::new(env!("CARGO_BIN_EXE_raw")).args(["2", driver]).output().unwrap();
        assert!(!run.status.success(), "{driver}");
    }
}
