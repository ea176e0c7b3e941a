//! What a comparison does with each text: the program runs on it, what it prints is held to what is wanted, and of a difference the text is kept and
//! the line told.

use super::looks::parting;
use super::{Failed, Program};
use std::collections::BTreeMap;
use std::fmt::Debug;
use std::path::PathBuf;
use std::process::{exit, Command, Stdio};

/// Differences that are shown; after so many nothing further is tried.
pub const MOST_SHOWN: usize = 3;

/// Where a comparison keeps its files: a folder of its own among the temporary ones, made with the first file.
pub struct Folder {
    path: PathBuf,
}

impl Folder {
    pub fn new(name: &str) -> Folder {
        Folder { path: std::env::temp_dir().join(format!("compare-{name}-{}", std::process::id())) }
    }

    /// The path of the file, which has this text then. Its name may have a folder in front.
    pub fn keep(&self, file: &str, text: &[u8]) -> std::io::Result<PathBuf> {
        let path = self.path.join(file);
        std::fs::create_dir_all(path.parent().expect("a folder"))?;
        std::fs::write(&path, text)?;
        Ok(path)
    }

    /// Takes a folder in it away again, if that is there, and itself where nothing is left in it.
    pub fn clear(&self, folder: &str) -> std::io::Result<()> {
        let folder = self.path.join(folder);
        if folder.exists() {
            std::fs::remove_dir_all(folder)?;
        }
        if self.path.read_dir()?.next().is_none() {
            std::fs::remove_dir(&self.path)?;
        }
        Ok(())
    }
}

/// A program of texts, and what was seen of it.
pub struct Comparison {
    name: &'static str,
    program: Program,
    folder: Folder,
    pub texts: usize,
    pub differences: usize,
    wanted: BTreeMap<String, usize>,
}

impl Comparison {
    pub fn new(name: &'static str, program: Program) -> Comparison {
        let folder = Folder::new(name);
        Comparison { name, program, folder, texts: 0, differences: 0, wanted: BTreeMap::new() }
    }

    /// Runs the program on a text, kept with this ending where it differs. `like` tells which mistakes print what it printed.
    pub fn hold<Like: Debug>(&mut self, trial: &str, text: &[u8], ending: &str, wanted: &str, like: impl FnOnce(&str) -> Like) {
        self.texts += 1;
        let given = match self.program.run(text, 1 + self.texts % 3) {
            Ok(bytes) => String::from_utf8_lossy(&bytes).into_owned(),
            Err(Failed::ToStart(fault)) => give_up(self.name, &format!("the program cannot be run: {fault}")),
            Err(failed) => format!("{failed:?}\n"),
        };
        let Some(parting) = parting(wanted, &given) else { return };
        self.differences += 1;
        let kept = self.folder.keep(&format!("difference-{}.{ending}", self.differences), text);
        let kept = kept.unwrap_or_else(|error| give_up(self.name, &error.to_string()));
        println!("{}: {trial} (kept as {})", self.name, kept.display());
        println!("    at line {}: {:?} and should be {:?}", parting.line, parting.got, parting.wanted);
        println!("    it looks like {:?}", like(&given));
        if self.differences == MOST_SHOWN {
            exit(1);
        }
    }

    /// Counts the sorts of lines that are wanted.
    pub fn count(&mut self, wanted: &str, sort: fn(&str) -> String) {
        wanted.lines().for_each(|line| *self.wanted.entry(sort(line)).or_default() += 1);
    }

    pub fn counted(&self, sort: &str) -> usize {
        self.wanted.get(sort).copied().unwrap_or(0)
    }

    /// A sort that was never wanted is as bad as a difference.
    pub fn must_have(&mut self, sorts: &[String]) {
        for sort in sorts.iter().filter(|sort| !self.wanted.contains_key(*sort)) {
            println!("{}: never wanted: {sort}", self.name);
            self.differences += 1;
        }
    }

    /// Its last line and its status.
    pub fn close(&self, seen: &str) -> ! {
        println!("{}: {} texts, {seen}, each byte compared: {} differences", self.name, self.texts, self.differences);
        exit((self.differences > 0) as i32);
    }
}

/// Programs that take files by name, and how often one of them printed something else than was wanted.
pub struct OfFiles {
    name: &'static str,
    launcher: Vec<String>,
    folder: Folder,
    pub differences: usize,
}

impl OfFiles {
    pub fn new(name: &'static str, launcher: &[String]) -> OfFiles {
        OfFiles { name, launcher: launcher.to_vec(), folder: Folder::new(name), differences: 0 }
    }

    /// Where the files of a difference are kept. Those of the next one stand there while a program runs on them, and stay if it is one.
    fn place(number: usize) -> String {
        format!("difference-{number}")
    }

    /// What the program prints for these files, if that is not what is wanted, or if it tells something else on standard error; and the folder that
    /// they are kept in then.
    pub fn differing(&mut self, program: &str, files: &[(&str, &[u8])], wanted: &str, told: &str) -> Option<(String, PathBuf)> {
        let place = OfFiles::place(self.differences + 1);
        let keep = |(name, text): &(&str, &[u8])| self.folder.keep(&format!("{place}/{name}"), text);
        let paths = files.iter().map(keep).collect::<std::io::Result<Vec<PathBuf>>>();
        let paths = paths.unwrap_or_else(|error| give_up(self.name, &error.to_string()));
        let given =
            self.printed(program, &paths, told).unwrap_or_else(|error| give_up(self.name, &format!("{program}: {error}")));
        if given == wanted {
            return None;
        }
        self.differences += 1;
        Some((given, self.folder.path.join(place)))
    }

    /// What a program prints; how it ended where it failed, or told something else than it must.
    fn printed(&self, program: &str, files: &[PathBuf], told: &str) -> std::io::Result<String> {
        let words = [&self.launcher[..], &[program.to_string()]].concat();
        let run = Command::new(&words[0]).args(&words[1..]).args(files).stdin(Stdio::null()).output()?;
        if !run.status.success() || run.stderr != told.as_bytes() {
            return Ok(format!("{} {}", run.status, String::from_utf8_lossy(&run.stderr)));
        }
        Ok(String::from_utf8_lossy(&run.stdout).into_owned())
    }

    /// Takes away the files of the last run, if that was no difference.
    pub fn clear(&self) {
        let cleared = self.folder.clear(&OfFiles::place(self.differences + 1));
        cleared.unwrap_or_else(|error| give_up(self.name, &error.to_string()));
    }
}

/// The bytes of a file that is named. One that cannot be read has the status that it has in every program of this house.
pub fn read_named(name: &str, file: &str) -> Vec<u8> {
    std::fs::read(file).unwrap_or_else(|error| {
        eprintln!("compare-{name}: {file}: {error}");
        exit(1)
    })
}

/// Why a comparison cannot go on.
pub fn give_up(name: &str, why: &str) -> ! {
    eprintln!("compare-{name}: {why}");
    exit(2);
}
