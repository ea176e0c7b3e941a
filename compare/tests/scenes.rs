//! The example scenes: each has its report beside it and a line in the table that tells what it shows.

use compare::making::kept;
use compare::report::report;
use compare::scene::REPORT_ROOM;

#[test]
fn each_scene_has_its_report_and_its_line() {
    let table = std::fs::read_to_string(kept::folder().join("README.md")).unwrap();
    let scenes = kept::scenes();
    for (name, path) in &scenes {
        let wanted = std::fs::read_to_string(path.with_extension("report")).unwrap();
        assert_eq!(report(&std::fs::read(path).unwrap(), REPORT_ROOM), wanted, "{}", path.display());
        assert!(table.contains(&format!("| {name} |")), "{name} has no line in the table");
    }
    assert_eq!(scenes.len(), table.lines().filter(|line| line.starts_with("| ")).count() - 1);
}
