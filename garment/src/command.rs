//! What each command does, and the status that it ends with.

use crate::choice::Choice;
use crate::clean::{self, Pierced};
use crate::digest::Digest;
use crate::fault::Fault;
use crate::judge::{Judge, Which};
use crate::mesh::{self, Mesh};
use crate::names::Names;
use crate::obj::{self, Obj};
use crate::progress::Bar;
use crate::report::{About, Tally};
use crate::rounding::{onto_grid_on, Grid, Rounded};
use crate::shares::{self, Closing, Counted, Of, Share};
use crate::whereabouts::Whereabouts;
use crate::whole::{self, Asked, Beside};
use crate::words::{understood, Command, Options, USAGE};
use crate::work::both;
use crate::{before, edges, mark, of_frames, scene_text, total};
use makhnodri::Settled;
use std::ffi::OsString;
use std::io::{stderr, stdout, BufWriter, Write};

const DONE: u8 = 0;
const NO_REPORT: u8 = 1;
const NOT_UNDERSTOOD: u8 = 2;
const HITS: u8 = 3;
const PIERCED: u8 = 4;

/// What the status goes by: how many pairs are hit, and how often an edge is through a triangle at the start.
#[derive(Default)]
pub struct Ended {
    hits: u64,
    pierced: u64,
}

impl Ended {
    pub fn of(tally: &Tally, pierced: &Pierced) -> Ended {
        Ended { hits: tally.of(Settled::Hit), pierced: pierced.count }
    }
}

/// The status to end with. What went wrong is told on standard error.
pub fn run(words: impl Iterator<Item = OsString>) -> u8 {
    let (command, options) = match understood(words) {
        Ok(both) => both,
        Err(wrong) => {
            tell(&format!("{wrong}\n{}", USAGE.trim_end()));
            return NOT_UNDERSTOOD;
        }
    };
    match done(&command, &options) {
        Ok(ended) if ended.pierced > 0 => PIERCED,
        Ok(ended) if options.no_hits && ended.hits > 0 => HITS,
        Ok(_) => DONE,
        Err(faults) => {
            faults.iter().for_each(|fault| tell(&fault.words));
            if faults.iter().any(|fault| fault.misunderstood) {
                NOT_UNDERSTOOD
            } else {
                NO_REPORT
            }
        }
    }
}

fn done(command: &Command, options: &Options) -> Result<Ended, Vec<Fault>> {
    let nothing = |()| Ended::default();
    match command {
        Command::Help => print(USAGE.as_bytes()).map(nothing).map_err(alone),
        Command::Version => print(format!("{}\n", makhnodri::VERSION).as_bytes()).map(nothing).map_err(alone),
        Command::Report { files } => report(command, files, options),
        Command::Check { file } => of_frames::check(command, file, options),
        Command::Series { files } => of_frames::series(command, files, options),
        Command::Rows { share, files } => rows(command, *share, files, options).map(|()| Ended::default()),
        Command::Total { files } => total(files, options),
        Command::Scene { files } => scene(command, files, options).map(nothing),
    }
}

/// What is read of two files, or of four.
pub struct Garment {
    pub mesh: Mesh,
    pub about: About,
    pub names: Names,
    pub grid: Grid,
    /// The SHA-256 of each file, parted by commas.
    digests: String,
}

fn report(command: &Command, files: &[String; 2], options: &Options) -> Result<Ended, Vec<Fault>> {
    let Garment { mut mesh, about, names, grid, .. } = read(command, files, options)?;
    let choice = options.choice(&mesh, &names);
    let whereabouts = options.told_where.then(|| Whereabouts::new(&mesh, names, grid));
    let judge = Judge::sparing(&mut mesh, options.mark.is_some()).map_err(alone)?;
    let pierced = start_checked(&judge, choice.as_ref(), "the start", options).map_err(alone)?;
    let beside = Beside { choice, whereabouts, marked: options.mark.is_some() };
    let mut bar = Bar::new("judging", !options.quiet);
    let asked = Asked { mesh: judge.mesh(), about: &about, form: &options.form, which: options.which, beside: &beside };
    let told = whole::told(&asked, &judge, options.threads, &mut bar, buffered()).map_err(alone)?;
    drop(bar);
    options.note(|| note_of_pairs(options.which, told.tally.listed(), beside.choice.as_ref().map(|_| told.left)));
    if let Some(name) = &options.mark {
        let time = mark::write(name, &mesh, &grid, &told.marked).map_err(alone)?;
        options.note(|| note_of_mark(name, time, told.marked.len()));
    }
    Ok(Ended::of(&told.tally, &pierced))
}

pub fn note_of_mark(name: &str, time: u32, pairs: usize) -> String {
    format!("{name} has the mesh at {time} of 1048576 from start to end, with {pairs} pairs marked")
}

/// Whether an edge is through a triangle at the start, said in one line.
pub fn start_checked(judge: &Judge, choice: Option<&Choice>, what: &str, options: &Options) -> Result<Pierced, Fault> {
    let mut bar = Bar::new("checking", !options.quiet);
    let pierced = clean::at_start(judge, choice, options.threads, &mut bar, |_| Ok(()))?;
    drop(bar);
    options.note(|| pierced.words(what, choice.is_some()));
    Ok(pierced)
}

/// One share of the rows, with its closing line.
fn rows(command: &Command, share: Share, files: &[String; 2], options: &Options) -> Result<(), Vec<Fault>> {
    let Garment { mesh, about, names, digests, .. } = read(command, files, options)?;
    let choice = options.choice(&mesh, &names);
    let beside = Beside { choice, ..Beside::default() };
    let asked = Asked { mesh: &mesh, about: &about, form: &options.form, which: options.which, beside: &beside };
    let judge = Judge::new(&mesh).map_err(alone)?;
    let pierced = shares::pierced(&judge, share, beside.choice.as_ref(), options.threads).map_err(alone)?;
    let mut bar = Bar::new("judging", !options.quiet);
    let mut out = Counted::new(buffered());
    let told = shares::told(&asked, &judge, share, options.threads, &mut bar, &mut out).map_err(alone)?;
    drop(bar);
    let (tally, left) = (told.tally, beside.choice.as_ref().map(|_| told.left));
    let (contacts, which, options_kept) = (options.form.contacts, options.which, shares::options_of(&options.kept));
    let of = Of { contacts, which, options: options_kept, files: digests, about: about.clone() };
    out.close(|lines, digest| Closing { share, lines, digest, tally, left, pierced, of })
        .map_err(|error| alone(whole::unwritten(error)))?;
    options.note(|| format!("{} pairs of share {} of {}", tally.listed(), share.number, share.of));
    Ok(())
}

/// All shares together.
fn total(files: &[String], options: &Options) -> Result<Ended, Vec<Fault>> {
    let whole = total::checked(files).map_err(|mut faults| {
        faults.push(Fault::new("nothing is printed"));
        faults
    })?;
    options.note(|| format!("a step is {}, that of the {} shares", whole.step(), whole.count()));
    let told = whole.write(options.form.json, buffered()).map_err(alone)?;
    options.note(|| told.pierced.words("the start", told.chosen));
    Ok(Ended::of(&told.tally, &told.pierced))
}

fn scene(command: &Command, files: &[String; 2], options: &Options) -> Result<(), Vec<Fault>> {
    let garment = read(command, files, options)?;
    print(scene_text::of_mesh(&garment.mesh).as_bytes()).map_err(alone)
}

/// The mesh of two files, start first; what is wrong with either is told, and what is to be known before its report is read.
fn read(command: &Command, files: &[String; 2], options: &Options) -> Result<Garment, Vec<Fault>> {
    let (times, note, digests) = all_read(files, options, matches!(command, Command::Rows { .. }))?;
    let mut garment = meshed(command, &files[0], times, note, options)?;
    garment.digests = digests;
    options.tell_all(before::of_mesh(&garment.mesh, options.seams));
    Ok(garment)
}

/// Two times put onto one grid; the file is that of the first.
pub fn meshed(command: &Command, file: &str, times: [Obj; 2], of_file: String, options: &Options) -> Result<Garment, Vec<Fault>> {
    let [mut start, end] = times;
    let names = std::mem::take(&mut start.names);
    options.all_known(&names)?;
    let (threads, half) = (options.threads, options.threads.div_ceil(2));
    let (edges, rounded) = both(
        threads,
        || edges::made_on(start.places.len(), &start.triangles, half),
        || onto_grid_on(half, &start.places, &end.places, options.step, options.limit(command)),
    );
    let rounded = rounded.map_err(alone)?;
    let of_steps = note_of_steps(&rounded, options.step.is_none(), matches!(command, Command::Check { .. }));
    let grid = Grid { step: rounded.step, middle: rounded.middle };
    let mesh = mesh::join_with(obj::shown_name(file), &mut start, &end, rounded, edges, options.seams).map_err(alone)?;
    let about = about(&mesh, grid.step);
    options.note(|| format!("{of_steps}; the same grid again: {}", before::again(command, options, grid.step)));
    options.note(|| format!("{} vertices, {} edges, {} triangles{of_file}", about.vertices, about.edges, about.triangles));
    if options.seams {
        options.note(|| format!("{} vertices stand for another in their place", about.seams));
    }
    Ok(Garment { mesh, about, names, grid, digests: String::new() })
}

/// Start and end, with the body's own files behind the cloth's where there are any; what is to be noted of them, and their digests where they are wanted.
fn all_read(files: &[String; 2], options: &Options, digested: bool) -> Result<([Obj; 2], String, String), Vec<Fault>> {
    let (mut times, mut note, mut digests) = same_read(files, digested, options.threads)?;
    if let [from, to] = &options.body_files[..] {
        let files = [from.clone(), to.clone()];
        let (body, more, of_body) = same_read(&files, digested, options.threads)?;
        note += &more;
        digests = format!("{digests},{of_body}");
        for ((file, cloth), body) in files.iter().zip(&mut times).zip(body) {
            cloth.join_body(obj::shown_name(file), body).map_err(alone)?;
        }
    }
    Ok((times, note, digests))
}

fn same_read(files: &[String; 2], digested: bool, threads: usize) -> Result<([Obj; 2], String, String), Vec<Fault>> {
    let [(start, one), (end, other)] = both_read(files, digested, threads)?;
    let [from, to] = files.each_ref().map(|name| obj::shown_name(name));
    mesh::same_faces([from, to], &start, &end).map_err(alone)?;
    let note = note_of_file(from, &start);
    // faces, lines and names are those of the start
    let end = Obj { places: end.places, ..Obj::default() };
    Ok(([start, end], note, format!("{one},{other}")))
}

pub fn about(mesh: &Mesh, step: f64) -> About {
    let count = |length: usize| length as u64;
    About {
        vertices: count(mesh.positions.len()),
        edges: count(mesh.edges.len()),
        triangles: count(mesh.triangles.len()),
        seams: mesh.seams(),
        step,
    }
}

/// What a file has, and its digest.
type Read = (Obj, String);

fn both_read(files: &[String; 2], digested: bool, threads: usize) -> Result<[Read; 2], Vec<Fault>> {
    let read = |name: &String| {
        let bytes = obj::bytes_of(name)?;
        let digest = || if digested { Digest::of(&bytes) } else { String::new() };
        let (digest, obj) = both(threads / 2, digest, || obj::of_bytes_on(obj::shown_name(name), &bytes, threads.div_ceil(2)));
        Ok((obj?, digest))
    };
    let (start, end) = both(threads, || read(&files[0]), || read(&files[1]));
    match (start, end) {
        (Ok(start), Ok(end)) => Ok([start, end]),
        (start, end) => Err([start.err(), end.err()].into_iter().flatten().collect()),
    }
}

pub fn note_of_file(name: &str, obj: &Obj) -> String {
    let mut note = String::new();
    let cut = [(obj.noted.quads, "quads"), (obj.noted.larger, "larger faces")];
    for (count, what) in cut.iter().filter(|(count, _)| *count > 0) {
        note += &format!("; {count} {what} cut from their lowest corner");
    }
    if obj.noted.loose > 0 {
        note += &format!("; {} lines l and p of {name} passed over, since pairs are made of faces", obj.noted.loose);
    }
    note
}

pub fn note_of_pairs(which: Which, judged: u64, left: Option<u64>) -> String {
    let near = if which == Which::Near { "near " } else { "" };
    let Some(left) = left else {
        return format!("{judged} {near}pairs found, and as many judged");
    };
    let none = if judged == 0 { ": this report speaks of no pair" } else { "" };
    format!("{} {near}pairs found: {judged} judged, {left} left out by --body, --body-files or --between{none}", judged + left)
}

/// One frame stands there as two times that are alike, and is counted once.
fn note_of_steps(rounded: &Rounded, chosen: bool, one_frame: bool) -> String {
    let Rounded { positions, step, moved, farthest, fallen, least: _, middle: _ } = rounded;
    let how = if chosen { "chosen" } else { "given" };
    let (moved, all) = if one_frame { (moved / 2, 3 * positions.len()) } else { (*moved, 6 * positions.len()) };
    let mut note =
        format!("a step is {step} ({how}); {moved} of {all} coordinates were rounded, by at most {farthest:.3} of a step");
    if *fallen > 0 {
        note += &format!("; {fallen} vertices fell into one place with another");
    }
    note
}

impl Options {
    /// Whether the library is asked for contacts: a time and a place are told in lines of contacts, behind words, and by a mesh that is marked. One frame
    /// has no time.
    fn wants_contacts(&self) -> bool {
        self.form.contacts || self.told_where || self.mark.is_some()
    }

    /// The largest coordinate. Contacts are given in the range that coordinates had at first, and refused with 16 in a mesh of which any
    /// coordinate is beyond it: so the whole mesh is held to it, before a pair is asked for.
    pub fn limit(&self, command: &Command) -> i32 {
        if self.wants_contacts() && !matches!(command, Command::Check { .. }) {
            makhnodri::CONTACT_LIMIT
        } else {
            makhnodri::COORDINATE_LIMIT
        }
    }

    /// Each name that is asked for is one of the files'.
    pub fn all_known(&self, names: &Names) -> Result<(), Vec<Fault>> {
        let asked = self.body.iter().chain(self.between.iter().flatten());
        let unknown: Vec<Fault> = asked.filter(|name| names.known(name).is_none()).map(|name| misnamed(name, names)).collect();
        if unknown.is_empty() {
            Ok(())
        } else {
            Err(unknown)
        }
    }

    pub fn note(&self, words: impl FnOnce() -> String) {
        if !self.quiet {
            tell(&words());
        }
    }

    pub fn tell_all(&self, words: impl IntoIterator<Item = String>) {
        if !self.quiet {
            words.into_iter().for_each(|words| tell(&words));
        }
    }

    pub fn choice(&self, mesh: &Mesh, names: &Names) -> Option<Choice> {
        Choice::of(mesh, names, &self.body, &self.between)
    }
}

/// With the names that there are, as many as a message can bear.
fn misnamed(name: &str, names: &Names) -> Fault {
    const MOST: usize = 20;
    let more = if names.words.len() > MOST { ", .." } else { "" };
    let there = match names.words.len() {
        0 => "none has a name".to_string(),
        count => format!("there are {}{more}", names.words[..count.min(MOST)].join(", ")),
    };
    Fault::misunderstood(format!("{name:?} is no object and no group of the start; {there}"))
}

/// Standard error may be closed or full; the report and the status are what counts.
fn tell(words: &str) {
    let _ = writeln!(stderr(), "garment: {words}");
}

pub fn alone(fault: Fault) -> Vec<Fault> {
    vec![fault]
}

pub fn buffered() -> BufWriter<std::io::Stdout> {
    BufWriter::with_capacity(1 << 16, stdout())
}

fn print(bytes: &[u8]) -> Result<(), Fault> {
    let mut out = buffered();
    out.write_all(bytes).and_then(|()| out.flush()).map_err(|error| Fault::new(format!("standard output: {error}")))
}
