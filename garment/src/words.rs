//! The words of the command line, understood.

use crate::before::quoted;
use crate::judge::Which;
use crate::mark;
use crate::obj;
use crate::report::{word_of, Form};
use crate::shares::Share;
use crate::work;
use makhnodri::Settled;
use std::ffi::OsString;
use std::iter::Peekable;

/// What `--help` prints; the manual page and the completion are made from the same file.
pub const USAGE: &str = include_str!("usage.txt");

#[derive(Clone, Debug, PartialEq)]
pub struct Options {
    pub step: Option<f64>,
    pub seams: bool,
    pub form: Form,
    /// All listed pairs, or the near ones.
    pub which: Which,
    pub no_hits: bool,
    pub threads: usize,
    pub quiet: bool,
    /// Whether each line tells where the pair is.
    pub told_where: bool,
    /// The file that a coloured mesh is written to.
    pub mark: Option<String>,
    /// The names that the body has.
    pub body: Vec<String>,
    /// Two names each.
    pub between: Vec<[String; 2]>,
    /// The body's own files: start and end; of a frame one; of a series one that rests, or one for each frame. None where it has none.
    pub body_files: Vec<String>,
    /// The options that say what the report is, as they were given; not how it is made, nor the step.
    pub kept: Vec<String>,
}

#[derive(Debug, PartialEq)]
pub enum Command {
    Report { files: [String; 2] },
    Check { file: String },
    Series { files: Vec<String> },
    Rows { share: Share, files: [String; 2] },
    Total { files: Vec<String> },
    Scene { files: [String; 2] },
    Help,
    Version,
}

/// A word of the command line, or what is wrong with it.
type Word = Result<String, String>;

/// The command and its options, which may stand anywhere; behind `--` all are files.
pub fn understood(words: impl Iterator<Item = OsString>) -> Result<(Command, Options), String> {
    let mut options = Options::none();
    let (mut plain, mut given, mut asked, mut only_files) = (Vec::new(), Vec::new(), None, false);
    let mut words = words.map(|word| word.into_string().map_err(|word| format!("{word:?} is no UTF-8"))).peekable();
    while let Some(word) = words.next().transpose()? {
        if only_files || !word.starts_with('-') || word == "-" {
            plain.push(word);
            continue;
        }
        match word.as_str() {
            "--" => only_files = true,
            "--help" | "-h" => asked = Some(Command::Help),
            "--version" => asked = Some(Command::Version),
            BODY_FILES => given.push(options.take_files(plain.first().map(String::as_str), &mut words)?),
            _ => given.push(options.take(&word, &mut words)?),
        }
    }
    let command = asked.map_or_else(|| command_of(plain), Ok).map_err(|wrong| wrong + &options.swallowed())?;
    if let Some(name) = given.iter().find(|name| !command.takes(name)) {
        return Err(format!("{name} says nothing to this command"));
    }
    options.of_files(&command, &given)?;
    if options.form.contacts && given.iter().any(|name| name == "--only") {
        return Err("--only says nothing beside --contacts, which has lines of hits alone".to_string());
    }
    Ok((command, options))
}

impl Command {
    /// The word that it is called by; the report has none.
    pub fn name(&self) -> Option<&'static str> {
        match self {
            Command::Check { .. } => Some("check"),
            Command::Series { .. } => Some("series"),
            Command::Rows { .. } => Some("rows"),
            Command::Total { .. } => Some("total"),
            Command::Scene { .. } => Some("scene"),
            Command::Report { .. } | Command::Help | Command::Version => None,
        }
    }

    /// The files that it is given.
    pub fn places(&self) -> Vec<&str> {
        match self {
            Command::Report { files } | Command::Scene { files } | Command::Rows { files, .. } => {
                files.iter().map(String::as_str).collect()
            }
            Command::Series { files } | Command::Total { files } => files.iter().map(String::as_str).collect(),
            Command::Check { file } => vec![file],
            Command::Help | Command::Version => Vec::new(),
        }
    }

    /// How many files a body has here, where it has some.
    fn body_files(&self) -> Option<usize> {
        match self {
            Command::Check { .. } => Some(1),
            // as many as there are frames, which a list may name, or one
            Command::Series { .. } => None,
            _ => Some(2),
        }
    }

    /// Whether an option does anything here; one that does not is refused, since whoever gave it waits for something.
    fn takes(&self, option: &str) -> bool {
        let taken: &[&str] = match self {
            Command::Report { .. } => return true,
            Command::Check { .. } => &[
                "--step", "--seams", "--json", "--where", "--mark", "--body", "--body-files", "--between", "--threads", "--quiet",
            ],
            Command::Series { .. } => &[
                "--step", "--seams", "--json", "--where", "--mark", "--body", "--body-files", "--between", "--no-hits",
                "--threads", "--quiet",
            ],
            Command::Rows { .. } => &[
                "--step", "--seams", "--contacts", "--near", "--only", "--body", "--body-files", "--between", "--threads",
                "--quiet",
            ],
            Command::Total { .. } => &["--json", "--no-hits", "--quiet"],
            Command::Scene { .. } => &["--step", "--seams", "--body-files", "--quiet"],
            Command::Help | Command::Version => &[],
        };
        taken.contains(&option)
    }
}

/// The commands that are called by a word.
const NAMED: [&str; 5] = ["check", "series", "rows", "total", "scene"];

fn command_of(mut plain: Vec<String>) -> Result<Command, String> {
    let named = NAMED.into_iter().find(|name| plain.first().is_some_and(|first| first == name));
    if named.is_some() {
        plain.remove(0);
    }
    let name = named.unwrap_or("garment");
    match named {
        Some("scene") => exactly("two files", name, plain).map(|files| Command::Scene { files }),
        Some("check") => exactly("a file", name, plain).map(|[file]| Command::Check { file }),
        Some("rows") => {
            let [share, start, end] = exactly("a share, as 3/8, and two files", name, plain)?;
            let share = Share::understood(&share)
                .ok_or_else(|| format!("rows does not take {share:?} for a share; the third of eight is 3/8"))?;
            Ok(Command::Rows { share, files: [start, end] })
        }
        Some("series") => match &plain[..] {
            [list] if list == obj::STANDARD_INPUT => Ok(Command::Series { files: plain }),
            [] | [_] => Err(wants("two files or more, or - for a list of them on standard input", name, &plain)),
            _ => Ok(Command::Series { files: plain }),
        },
        Some(_) if plain.is_empty() => Err(wants("the files of all shares", name, &plain)),
        Some(_) => Ok(Command::Total { files: plain }),
        None => exactly("two files", name, plain).map(|files| Command::Report { files }),
    }
}

fn wants(what: &str, name: &str, plain: &[String]) -> String {
    format!("{name} wants {what}, and here are {}", plain.len())
}

fn exactly<const N: usize>(what: &str, name: &str, plain: Vec<String>) -> Result<[String; N], String> {
    <[String; N]>::try_from(plain).map_err(|plain| wants(what, name, &plain))
}

/// The options that a value follows.
const WITH_VALUE: [&str; 5] = ["--step", "--threads", "--only", "--mark", "--body"];

const BETWEEN: &str = "--between";
const BODY_FILES: &str = "--body-files";

/// The options that change nothing of what is reported, or that are told apart from the others.
const NOT_KEPT: [&str; 4] = ["--step", "--threads", "--quiet", "--mark"];

impl Options {
    fn none() -> Options {
        Options {
            step: None,
            seams: false,
            form: Form::default(),
            which: Which::Listed,
            no_hits: false,
            threads: work::all_cores(),
            quiet: false,
            told_where: false,
            mark: None,
            body: Vec::new(),
            between: Vec::new(),
            body_files: Vec::new(),
            kept: Vec::new(),
        }
    }

    /// Takes an option, with the value that stands behind it, and hands back its name.
    fn take(&mut self, word: &str, rest: &mut impl Iterator<Item = Word>) -> Word {
        if word == BETWEEN {
            let both = [next_value(BETWEEN, "two values", rest)?, next_value(BETWEEN, "two values", rest)?];
            self.kept.push(both.iter().fold(BETWEEN.to_string(), |words, name| words + " " + &quoted(name)));
            self.between.push(both);
            return Ok(BETWEEN.to_string());
        }
        let (name, within) = match word.split_once('=') {
            Some((name, value)) if WITH_VALUE.contains(&name) => (name, Some(value.to_string())),
            _ => (word, None),
        };
        let value = match within {
            None if WITH_VALUE.contains(&name) => next_value(name, "a value", rest)?,
            within => within.unwrap_or_default(),
        };
        match self.set(name, &value) {
            Some(()) => {
                self.keep(name, &value);
                Ok(name.to_string())
            }
            None if WITH_VALUE.contains(&name) => Err(format!("{name} does not take {value:?}")),
            None => Err(format!("{word} is not known")),
        }
    }

    /// Two files, of a check one; of a series all up to the next option, since a shell may have written them out.
    fn take_files(&mut self, command: Option<&str>, rest: &mut Peekable<impl Iterator<Item = Word>>) -> Word {
        let is_file = |word: &Word| word.as_ref().is_ok_and(|word| !word.starts_with('-') || word == obj::STANDARD_INPUT);
        let (wants, count) = match command {
            Some("check") => ("a file", 1),
            Some("series") => ("a file, or one for each frame", 1),
            _ => ("two values", 2),
        };
        let mut files = Vec::new();
        while files.len() < count {
            files.push(next_value(BODY_FILES, wants, rest)?);
        }
        while let Some(file) = rest.next_if(|word| command == Some("series") && is_file(word)) {
            files.push(file?);
        }
        self.kept.push(files.iter().fold(BODY_FILES.to_string(), |words, file| words + " " + &quoted(file)));
        self.body_files = files;
        Ok(BODY_FILES.to_string())
    }

    /// What may have become of files that are missed.
    fn swallowed(&self) -> String {
        match self.body_files.len() {
            0 | 1 => String::new(),
            count => format!("; {BODY_FILES} has taken {count} files: let -- stand behind the last of them"),
        }
    }

    fn keep(&mut self, name: &str, value: &str) {
        if !NOT_KEPT.contains(&name) {
            self.kept.push(if WITH_VALUE.contains(&name) { format!("{name}={}", quoted(value)) } else { name.to_string() });
        }
    }

    /// Of all files that are named, one at most is standard input, none is written over, and none is passed over since another was named.
    fn of_files(&self, command: &Command, given: &[String]) -> Result<(), String> {
        let twice = |name: &&str| given.iter().filter(|given| given == name).count() > 1;
        if let Some(name) = [BODY_FILES, "--mark"].into_iter().find(twice) {
            return Err(format!("{name} stands here twice"));
        }
        let bodies = self.body_files.len();
        if let Some(count) = command.body_files().filter(|&count| bodies != 0 && bodies != count) {
            return Err(format!("a body has {count} files here, and {BODY_FILES} names {bodies}"));
        }
        let named: Vec<&str> = command.places().into_iter().chain(self.body_files.iter().map(String::as_str)).collect();
        if named.iter().filter(|&&name| name == obj::STANDARD_INPUT).count() > 1 {
            return Err("standard input is one file, and - stands here twice".to_string());
        }
        match self.mark.as_deref().filter(|mark| named.iter().any(|name| mark::same_file(mark, name))) {
            Some(mark) => Err(format!("--mark would write over {mark}, which is read")),
            None => Ok(()),
        }
    }

    fn set(&mut self, name: &str, value: &str) -> Option<()> {
        match name {
            "--step" => self.step = Some(value.parse().ok().filter(|step: &f64| step.is_normal() && *step > 0.0)?),
            "--threads" => self.threads = value.parse().ok().filter(|threads| (1..=MOST_THREADS).contains(threads))?,
            "--only" => {
                self.form.shown = value.split(',').map(|word| word_of(word.as_bytes())).collect::<Option<Vec<Settled>>>()?
            }
            "--mark" => self.mark = Some(Some(value.to_string()).filter(|name| mark::is_taken(name))?),
            "--body" => self.body.push(value.to_string()),
            "--where" => self.told_where = true,
            "--seams" => self.seams = true,
            "--near" => self.which = Which::Near,
            "--contacts" => self.form.contacts = true,
            "--json" => self.form.json = true,
            "--no-hits" => self.no_hits = true,
            "--quiet" => self.quiet = true,
            _ => return None,
        }
        Some(())
    }
}

fn next_value(name: &str, wants: &str, rest: &mut impl Iterator<Item = Word>) -> Word {
    rest.next().transpose()?.ok_or_else(|| format!("{name} wants {wants}"))
}

/// More is a slip of the pen.
const MOST_THREADS: usize = 1_024;
