//! What docs/FORMAT.md says of lines that are written wrong, and of limits, is what the reader does.

use compare::making::kept;
use compare::scene::refusal::Refusal;
use compare::scene::*;
use compare::text::{read, take, write};

fn page() -> String {
    std::fs::read_to_string(kept::folder().join("../docs/FORMAT.md")).unwrap()
}

/// The cells of each row below the table's head.
fn rows(head: &str) -> Vec<Vec<String>> {
    let page = page();
    let table = page.split(&format!("\n{head}\n")).nth(1).unwrap_or_else(|| panic!("no table: {head}"));
    let cells = |line: &str| line.trim_matches('|').split('|').map(|cell| cell.trim().to_string()).collect();
    table.lines().skip(1).take_while(|line| line.starts_with('|')).map(cells).collect()
}

/// The numbers in a sentence, in order: digits with commas between thousands.
fn numbers(words: &str) -> Vec<i64> {
    let word = |word: &str| word.trim_matches(|c: char| !c.is_ascii_digit() && c != '-').replace(',', "").parse().ok();
    words.split_whitespace().filter_map(word).collect()
}

/// A line with those that stand above and below it.
struct Placed {
    above: Vec<String>,
    line: String,
    below: Vec<String>,
}

impl Placed {
    fn new(above: Vec<String>, line: &str) -> Placed {
        Placed { above, line: line.to_string(), below: vec![] }
    }

    /// What the text is refused with, which is a fault of the line and not of another.
    fn number(&self) -> u64 {
        let lines = [self.above.clone(), vec![self.line.clone()], self.below.clone()].concat();
        let text: String = lines.iter().map(|line| format!("{line}\n")).collect();
        let Refusal { number, third } = read(text.as_bytes()).expect_err(&self.line);
        assert_eq!(third, self.above.len() as u64 + 1, "{}", self.line);
        number
    }
}

fn vertices(count: usize) -> Vec<String> {
    (0..count).map(|v| format!("v\t{v}\t0\t0\t{v}\t0\t0")).collect()
}

/// The lines that a cell names: each as it stands, below so many vertices, or told in words.
fn placed(cell: &str, count: usize) -> Vec<Placed> {
    let tabbed = |quoted: &str| quoted.trim_matches('`').replace('>', "\t");
    let full_and_an_edge = || [vertices(VERTEX_LIMIT), vec!["e\t0\t1".to_string()]].concat();
    let line = |words: &str| match words {
        "an empty line" => Placed::new(vertices(count), ""),
        "a line that ends CR LF" => Placed::new(vertices(count), "v\t0\t0\t0\t0\t0\t0\r"),
        "the 513th `v` line below an `e` line" => Placed::new(full_and_an_edge(), "v\t0\t0\t0\t0\t0\t0"),
        "the 513th `v` line with a coordinate out of range" => Placed::new(vertices(VERTEX_LIMIT), "v\t0\t0\t0\t0\t0\t524288"),
        words => match words.strip_suffix(" above every `v` line") {
            Some(quoted) => Placed { below: vertices(count), ..Placed::new(vec![], &tabbed(quoted)) },
            None if words.starts_with('`') && words.ends_with('`') => Placed::new(vertices(count), &tabbed(words)),
            None => panic!("no such line: {words}"),
        },
    };
    cell.split(", ").map(line).collect()
}

#[test]
fn lines_that_are_often_written_wrong() {
    let rows = rows("| line | number | why |");
    assert!(rows.len() > 10, "{} rows", rows.len());
    let mut lines = 0;
    for row in rows {
        let (number, unless) = row[1].split_once(" (").unwrap_or((&row[1], ""));
        for placed in placed(&row[0], 4) {
            assert_eq!(placed.number().to_string(), number, "{}", row[0]);
            lines += 1;
        }
        // another number where there are fewer vertices
        if let Some((other, vertex)) = unless.trim_end_matches(')').split_once(" where there is no vertex ") {
            for placed in placed(&row[0], vertex.parse().unwrap()) {
                assert_eq!(placed.number().to_string(), other, "{}", row[0]);
            }
        } else {
            assert_eq!(unless, "", "{}", row[0]);
        }
    }
    assert!(lines > 14, "{lines} lines");
}

/// The page's scene is the one that the repository keeps as the printed one.
#[test]
fn the_scene_of_the_page() {
    let page = page();
    let shown = page.split("This is a scene (tabs between the fields):\n\n").nth(1).unwrap();
    let lines = shown.lines().map_while(|line| line.strip_prefix("    "));
    let shown: String = lines.map(|line| format!("{line}\n")).collect();
    assert_eq!(shown, std::fs::read_to_string(kept::folder().join("printed.scene")).unwrap());
}

#[test]
fn the_table_of_limits() {
    let limits: Vec<Vec<i64>> = rows("| limit | value |").iter().map(|row| numbers(&row[1])).collect();
    let sizes = [VERTEX_LIMIT, EDGE_LIMIT, TRIANGLE_LIMIT, SEAM_LIMIT].map(|size| size as i64);
    assert_eq!(limits, [vec![-COORDINATE_LIMIT, COORDINATE_LIMIT], sizes.to_vec(), vec![TEXT_LIMIT as i64]]);
}

/// The longest lines of a kind are as long as the page says; with a digit more in any field they are refused.
#[test]
fn the_longest_lines() {
    let page = page();
    let sentence = page.split("Mind the bytes too. ").nth(1).unwrap().split(". ").next().unwrap();
    let last = |count: usize| VERTEX_LIMIT - count;
    let largest = Scene {
        vertices: vec![[-COORDINATE_LIMIT; 6]; VERTEX_LIMIT],
        edges: vec![[last(1), last(2)]; EDGE_LIMIT],
        triangles: vec![[last(1), last(2), last(3)]; TRIANGLE_LIMIT],
        seams: vec![[last(112), last(113)]],
    };
    let text = write(&largest);
    let (mut scene, mut longest) = (Scene::default(), vec![0; 4]);
    for line in text.lines() {
        let kind = ["v", "e", "t", "w"].iter().position(|kind| line.starts_with(kind)).unwrap();
        let fields: Vec<&str> = line.split('\t').collect();
        for i in 1..fields.len() {
            let mut more: Vec<String> = fields.iter().map(|field| field.to_string()).collect();
            more[i].push('0');
            assert!(take(&mut scene, more.join("\t").as_bytes()).is_err());
        }
        assert_eq!(take(&mut scene, line.as_bytes()), Ok(()));
        longest[kind] = longest[kind].max(line.len() as i64 + 1);
    }
    assert_eq!(scene, largest);
    assert_eq!(numbers(sentence), [longest, vec![TEXT_LIMIT as i64]].concat(), "{sentence}");
    assert!(text.len() > TEXT_LIMIT);
}
