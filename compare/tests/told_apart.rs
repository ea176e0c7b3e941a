//! Whether the comparison can fail: each report program that is wrong in one respect is told from document 01 by some
//! text, named by what it prints, and told from every other wrong one.

use compare::report::mistakes::{self, Mistake, Right};
use compare::report::trials::{self, Trial};
use compare::running::looks::like;
use compare::scene::REPORT_ROOM;

const SEEDS: u64 = 130;
/// Longer reports from seeds take their time; those of a full list are among the fixed texts.
const LONGEST: usize = 1_000;

fn texts() -> Vec<Right> {
    let right = |trial: Trial| Right::of(&trial.text, REPORT_ROOM);
    let seeded = (0..SEEDS).flat_map(trials::seeded).map(right).filter(|right| right.report().len() <= LONGEST);
    trials::fixed().into_iter().map(right).chain(seeded).collect()
}

#[test]
fn each_mistake_is_noticed_named_and_told_from_the_others() {
    let (mistakes, texts) = (mistakes::all(), texts());
    let printed: Vec<Vec<String>> =
        mistakes.iter().map(|mistake| texts.iter().map(|right| mistake.report(right)).collect()).collect();
    let wanted: Vec<String> = texts.iter().map(Right::report).collect();
    let mut keys: Vec<&str> = mistakes.iter().map(|mistake| mistake.key.as_str()).collect();
    for (place, mistake) in mistakes.iter().enumerate() {
        let noticed: Vec<usize> = (0..texts.len()).filter(|&i| printed[place][i] != wanted[i]).collect();
        let first = *noticed.first().unwrap_or_else(|| panic!("{} is not noticed", mistake.key));
        let all: Vec<&Mistake> = mistakes.iter().collect();
        let like = like(&all, &texts[first], &printed[place][first]);
        assert!(like.iter().any(|named| named.key == mistake.key), "{} is not named", mistake.key);
        for (other, prints) in mistakes.iter().zip(&printed).skip(place + 1) {
            assert!(*prints != printed[place], "{} and {} print the same", mistake.key, other.key);
        }
        println!("{}: {} of {} texts", mistake.key, noticed.len(), texts.len());
    }
    keys.sort();
    keys.dedup();
    assert_eq!(keys.len(), mistakes.len(), "two mistakes have one name");
}
