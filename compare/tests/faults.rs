//! The table of faults: a second way to the refusal of a text, and a text for each cell.

use compare::making::cases::text_cases;
use compare::making::generate;
use compare::numbers::random::Random;
use compare::scene::refusal::Refusal;
use compare::text::crossed;
use compare::text::damage::damaged;
use compare::text::faults::{cells, of_lines, reached, LINE_CHECKS};
use compare::text::{read, write};

/// The first line that has a fault, and the first of its faults, is what the text is refused for.
#[test]
fn the_first_fault_of_the_first_faulty_line_is_given() {
    let mut texts: Vec<Vec<u8>> = text_cases().into_iter().map(|case| case.text).collect();
    for seed in 0..150 {
        let mut random = Random::new(seed);
        let text = write(&generate::scene(seed));
        texts.push(damaged(&mut random, &text));
        texts.extend(cells().into_iter().map(|cell| crossed::text(&mut random, cell)).skip(seed as usize % 7).step_by(7));
    }
    for text in texts {
        let lines = of_lines(&text);
        let first = lines.iter().position(|faults| !faults.is_empty());
        let wanted = first.map(|line| Refusal::new(lines[line][0], line as u64 + 1));
        let given = read(&text).err().filter(|refusal| LINE_CHECKS.contains(&refusal.number));
        if text.len() <= compare::scene::TEXT_LIMIT {
            assert_eq!(given, wanted, "{}", text.escape_ascii());
        }
    }
}

#[test]
fn a_text_for_each_cell_reaches_it() {
    for cell in cells() {
        for seed in 0..8 {
            let text = crossed::text(&mut Random::new(seed), cell);
            assert!(reached(&text).contains(&cell), "{cell:?}: {:?}", reached(&text));
        }
    }
}
