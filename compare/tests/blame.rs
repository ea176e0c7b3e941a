//! What is wrong with a refused text is told in words, and told of every refused text.

use compare::report::trials::{fixed, seeded};
use compare::scene::refusal::BAD_LINE;
use compare::scene::COORDINATE_LIMIT;
use compare::text::blame::in_words;

/// The words below the line for a text, joined.
fn blamed(text: &[u8]) -> String {
    let refusal = compare::text::read(text).expect_err("a text that is refused");
    in_words(text, refusal).lines().skip(2).map(str::trim).collect::<Vec<_>>().join("; ")
}

#[test]
fn what_other_programs_write_is_named() {
    for (text, wanted) in [
        ("v 0 0 0 0 0 0\n", "spaces part the fields: one tab goes between two"),
        ("v\t0\t0\t0\t0\t0\t0\r\n", "a CR stands before the end of the line: end lines with LF alone"),
        ("\u{feff}v\t0\t0\t0\t0\t0\t0\n", "a byte-order mark stands in front: save the file without one"),
        ("v\t0\t0\t0\t0\t0\t0", "the last line has no LF behind it: every line ends with one"),
        ("\n", "the line is empty"),
        ("# cloth\n", "there are no comments"),
        ("V\t0\t0\t0\t0\t0\t0\n", "it begins with \"V\", where a record begins with v, e, t or w and a tab"),
        ("v\t0\t0\t0\t0\t0\n", "v takes 6 numbers, and here are 5"),
        (
            "v\t0\t0\t0\t0\t0\t0\t\n",
            "number 7, \"\", is empty: one tab goes between two numbers, and none at the end; v takes 6 numbers, and here are 7",
        ),
    ] {
        assert_eq!(blamed(text.as_bytes()), wanted);
    }
    for (field, wanted) in [
        ("0.5", "has a decimal point: numbers are whole (docs/FORMAT.md tells how to come from floating point)"),
        ("1e3", "is no whole number in digits"),
        ("+1", "has a plus"),
        ("-0", "is 0 with a minus: write 0"),
        ("007", "has a 0 in front"),
        ("1000000000", "has more than nine digits"),
        (" 1", "has a space"),
    ] {
        assert_eq!(blamed(format!("v\t0\t{field}\t0\t0\t0\t0\n").as_bytes()), format!("number 2, {field:?}, {wanted}"));
    }
    // all that can be seen at once: a text from a spreadsheet
    let several = blamed(b"\xef\xbb\xbfv\t0,5\t0\t0\t0\t0\t0\r\n");
    assert!(several.contains("byte-order mark") && several.contains("CR") && several.contains("decimal point"), "{several}");
}

#[test]
fn the_other_faults_name_what_stands_there() {
    let v = "v\t0\t0\t0\t0\t0\t0\n";
    for (text, wanted) in [
        (format!("{v}{v}e\t0\t2\n"), "there is no vertex 2: the v lines above are vertices 0 to 1"),
        ("e\t0\t1\n".to_string(), "no v line stands above, so there is no vertex yet"),
        (format!("{v}{v}e\t1\t1\n"), "vertex 1 stands twice"),
        (
            format!("{v}{v}e\t0\t1\n{v}"),
            "a v line below line 3, which is e: all v come first, then all e, then all t, then all w",
        ),
        (v.repeat(513), "512 v lines stand above, and there may be 512"),
    ] {
        assert_eq!(blamed(text.as_bytes()), wanted);
    }
    let (most, far) = (COORDINATE_LIMIT, COORDINATE_LIMIT + 1);
    let wanted = format!("-{far}: a coordinate goes from -{most} to {most}; {far}: a coordinate goes from -{most} to {most}");
    assert_eq!(blamed(format!("v\t{most}\t-{far}\t0\t0\t0\t{far}\n").as_bytes()), wanted);
    let long = vec![b'\n'; 32_769];
    let refusal = compare::text::read(&long).unwrap_err();
    assert_eq!(in_words(&long, refusal), "refused\t8\t0\nthe text has 32769 bytes, and at most 32768 are taken\n");
}

/// Damaged texts from seeds, and a text for each two faults: something is said of each.
#[test]
fn something_is_said_of_every_refused_text() {
    let (mut refused, mut bad) = (0, 0);
    for trial in fixed().into_iter().chain((0..200).flat_map(seeded)) {
        if let Err(refusal) = compare::text::read(&trial.text) {
            let words = in_words(&trial.text, refusal);
            assert!(words.starts_with(&format!("refused\t{}\t{}\n", refusal.number, refusal.third)));
            assert!(words.lines().count() >= if refusal.third == 0 { 2 } else { 3 }, "{}: {words}", trial.name);
            refused += 1;
            bad += (refusal.number == BAD_LINE) as usize;
        }
    }
    assert!(refused > 300 && bad > 100, "{refused} refused, {bad} bad lines");
}
