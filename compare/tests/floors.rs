//! The files of src/ stand on floors: no file names one that leads back to it, and a folder names those alone that src/lib.rs has before it.

use std::collections::{BTreeMap, BTreeSet};
use std::path::Path;

/// A file by its module's path, `["raw", "asking"]`; that of a folder's mod.rs is the folder's.
type Module = Vec<String>;
type Sources = BTreeMap<Module, String>;
type Named = BTreeMap<Module, BTreeSet<Module>>;

fn module(words: &[&str]) -> Module {
    words.iter().map(|word| word.to_string()).collect()
}

/// Every file of a folder but those of the programs and lib.rs.
fn sources(folder: &Path, above: &Module) -> Sources {
    let mut out = Sources::new();
    for path in std::fs::read_dir(folder).unwrap().map(|entry| entry.unwrap().path()) {
        let name = path.file_stem().unwrap().to_string_lossy().into_owned();
        let here = if name == "mod" { above.clone() } else { [&above[..], std::slice::from_ref(&name)].concat() };
        match (path.is_dir(), &name[..]) {
            (_, "bin" | "lib") => (),
            (true, _) => out.extend(sources(&path, &here)),
            (false, _) => drop(out.insert(here, std::fs::read_to_string(&path).unwrap())),
        }
    }
    out
}

/// What a `use` names, one by one: `a::{b, c::d}` is a::b and a::c::d.
fn expanded(before: &str, tree: &str) -> Vec<String> {
    let (mut depth, mut part, mut parts) = (0, String::new(), Vec::new());
    for letter in tree.chars().chain([',']) {
        depth += (letter == '{') as i32 - (letter == '}') as i32;
        if letter == ',' && depth == 0 {
            parts.push(std::mem::take(&mut part));
        } else {
            part.push(letter);
        }
    }
    let one = |part: String| match part.trim().split_once('{') {
        Some((front, rest)) => expanded(&format!("{before}{}", front.trim()), rest.trim_end().strip_suffix('}').unwrap_or(rest)),
        None => vec![format!("{before}{}", part.trim())],
    };
    parts.into_iter().filter(|part| !part.trim().is_empty()).flat_map(one).collect()
}

/// Every path of the text, in a `use` or elsewhere, without what stands behind ` as `.
fn paths(text: &str) -> Vec<Vec<String>> {
    let mut out = Vec::new();
    for part in text.split("use ").skip(1) {
        out.extend(expanded("", part.split(';').next().unwrap()));
    }
    let no_path = |letter: char| !letter.is_alphanumeric() && letter != '_' && letter != ':';
    out.extend(text.split(no_path).filter(|word| word.contains("::")).map(str::to_string));
    let words = |path: &String| path.split("::").map(|word| word.split(' ').next().unwrap().to_string()).collect();
    out.iter().map(words).collect()
}

/// The module that a path leads to, said in a file: by `crate::`, from the file up by `super::`, or down to a file of its folder.
fn led_to(path: &[String], here: &Module, all: &Sources) -> Option<Module> {
    let ups = path.iter().take_while(|word| *word == "super").count();
    let whole = match path.first().map(String::as_str) {
        Some("crate") => path[1..].to_vec(),
        Some("self") => [here, &path[1..]].concat(),
        _ => [&here[..here.len().saturating_sub(ups)], &path[ups..]].concat(),
    };
    let found = (1..=whole.len()).rev().map(|length| whole[..length].to_vec()).find(|path| all.contains_key(path));
    found.filter(|found| found != here && (ups > 0 || found.len() > here.len() || path[0] == "crate"))
}

/// Which files each file names; its own tests are one module deeper.
fn named(all: &Sources) -> Named {
    let mut out = Named::new();
    for (here, text) in all {
        let text: Vec<&str> = text.lines().map(|line| line.split("//").next().unwrap()).collect();
        let text = text.join("\n");
        let (own, tests) = text.split_once("#[cfg(test)]").unwrap_or((&text, ""));
        let deeper = [&here[..], &module(&["tests"])].concat();
        let own = paths(own).into_iter().filter_map(|path| led_to(&path, here, all));
        let tests = paths(tests).into_iter().filter_map(|path| led_to(&path, &deeper, all));
        out.insert(here.clone(), own.chain(tests).filter(|other| other != here).collect());
    }
    out
}

/// The files that lead back to themselves.
fn circles(named: &Named) -> BTreeSet<Module> {
    let reached = |from: &Module| {
        let (mut seen, mut next) = (BTreeSet::new(), vec![from]);
        while let Some(file) = next.pop() {
            next.extend(named[file].iter().filter(|other| seen.insert((*other).clone())));
        }
        seen
    };
    named.keys().filter(|file| reached(file).contains(*file)).cloned().collect()
}

/// The folders in the order of lib.rs.
fn floors(lib: &str) -> Vec<String> {
    lib.lines().filter_map(|line| line.strip_prefix("pub mod ")?.strip_suffix(';')).map(str::to_string).collect()
}

/// A file that names one of a folder which stands after its own.
fn climbing(named: &Named, floors: &[String]) -> Vec<String> {
    let floor =
        |file: &Module| floors.iter().position(|name| *name == file[0]).unwrap_or_else(|| panic!("{file:?} is on no floor"));
    let all = named.iter().flat_map(|(file, others)| others.iter().map(move |other| (file, other)));
    let up = all.filter(|(file, other)| floor(other) > floor(file));
    up.map(|(file, other)| format!("{} names {}", file.join("/"), other.join("/"))).collect()
}

#[test]
fn no_file_leads_back_to_itself_and_no_folder_names_a_later_one() {
    let src = Path::new(env!("CARGO_MANIFEST_DIR")).join("src");
    let lib = std::fs::read_to_string(src.join("lib.rs")).unwrap();
    let named = named(&sources(&src, &vec![]));
    assert!(named.values().map(BTreeSet::len).sum::<usize>() > 200, "few names were found: {named:?}");
    assert_eq!(circles(&named), BTreeSet::new());
    assert_eq!(climbing(&named, &floors(&lib)), Vec::<String>::new());
}

#[test]
fn a_circle_is_noticed_however_it_is_said() {
    let low = (module(&["low"]), "");
    for (one, other) in [
        ("use crate::b::y::Y;", "use crate::a::x::X;"),
        ("use crate::{low, b::{y::{Y, Z}}};", "fn f() { crate::a::x::f() }"),
        ("use super::super::b::y;", "use crate::a::x as right;"),
        ("use crate::b::y;", "fn f() {}\n#[cfg(test)]\nmod tests {\n    use super::super::super::a::x;\n}"),
    ] {
        let files = [(module(&["a", "x"]), one), (module(&["b", "y"]), other), low.clone()];
        let all: Sources = files.map(|(file, text)| (file, text.to_string())).into();
        assert_eq!(circles(&named(&all)), [module(&["a", "x"]), module(&["b", "y"])].into(), "{one} {other}");
        assert_eq!(climbing(&named(&all), &floors("pub mod low;\npub mod a;\npub mod b;\n")), ["a/x names b/y"]);
    }
    // a folder's file, and one in it
    let files = [(module(&["a"]), "mod x;\nfn all() { x::all() }"), (module(&["a", "x"]), "use super::All;"), low.clone()];
    let all: Sources = files.map(|(file, text)| (file, text.to_string())).into();
    assert_eq!(circles(&named(&all)), [module(&["a"]), module(&["a", "x"])].into());
    // what is told alone is no name, and names in one direction are no circle
    let files = [(module(&["a"]), "use crate::b; // as crate::low"), (module(&["b"]), "// use crate::a;\nuse crate::low;"), low];
    let all: Sources = files.map(|(file, text)| (file, text.to_string())).into();
    assert_eq!(circles(&named(&all)), BTreeSet::new());
}
