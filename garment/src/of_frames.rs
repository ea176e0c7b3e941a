//! The commands on frames: `check` of one, `series` of many.

use crate::before;
use crate::choice::Choice;
use crate::clean::{Found, Pierced, Told};
use crate::command::{about, alone, buffered, meshed, note_of_file, note_of_mark, note_of_pairs, start_checked, Ended, Garment};
use crate::fault::Fault;
use crate::frames::{Files, Frames, Wanted};
use crate::judge::{Judge, Which};
use crate::mark;
use crate::mesh::Mesh;
use crate::obj::{self, Obj};
use crate::progress::Bar;
use crate::report::{About, Tally};
use crate::rounding::Grid;
use crate::series::{self, Asked, Log, Shown};
use crate::whereabouts::Whereabouts;
use crate::whole::unwritten;
use crate::words::{Command, Options};
use std::io::Write;

/// One frame: every edge that is through a triangle.
pub fn check(command: &Command, file: &str, options: &Options) -> Result<Ended, Vec<Fault>> {
    let (frame, note) = frame_read(file, options)?;
    let at_rest = Obj { places: frame.places.clone(), ..Obj::default() };
    let Garment { mesh, about, names, grid, .. } = meshed(command, file, [frame, at_rest], note, options)?;
    options.tell_all(before::of_frame(&mesh, options.seams));
    let choice = options.choice(&mesh, &names);
    let whereabouts = options.told_where.then(|| Whereabouts::new(&mesh, names, grid));
    let judge = Judge::new(&mesh).map_err(alone)?;
    let mut bar = Bar::new("checking", !options.quiet);
    let found = Found::of(&judge, choice.as_ref(), options.threads, &mut bar).map_err(alone)?;
    drop(bar);
    options.note(|| note_of_frame(&found, choice.is_some(), about.triangles == 0));
    let told = Told { mesh: &mesh, about: &about, chosen: choice.is_some(), whereabouts: whereabouts.as_ref() };
    let mut out = buffered();
    let written = told.write(&found, &options.form, &mut out);
    written.and_then(|()| out.flush()).map_err(|error| alone(unwritten(error)))?;
    if let Some(name) = &options.mark {
        mark::write_pierced(name, &mesh, &grid, &found.kept).map_err(alone)?;
        options.note(|| format!("{name} has the mesh, with {} pairs marked", found.kept.len()));
    }
    Ok(Ended::of(&Tally::default(), &found.pierced()))
}

/// A frame with the body behind it, and what is to be noted of both files.
fn frame_read(file: &str, options: &Options) -> Result<(Obj, String), Vec<Fault>> {
    let mut frame = obj::read_on(file, options.threads).map_err(alone)?;
    let mut note = note_of_file(obj::shown_name(file), &frame);
    for file in &options.body_files {
        let body = obj::read_file(file).map_err(alone)?;
        note += &note_of_file(obj::shown_name(file), &body);
        frame.join_body(obj::shown_name(file), body).map_err(alone)?;
    }
    Ok((frame, note))
}

/// A frame without a face has nothing that could be through anything, and is not called clean.
fn note_of_frame(found: &Found, chosen: bool, empty: bool) -> String {
    let words = if empty { "this frame has no faces".to_string() } else { found.pierced().words("this frame", chosen) };
    let left = if chosen { format!("; {} times one is so within what is left out", found.left) } else { String::new() };
    words + &left
}

/// Many frames: the log of the first hits, and the totals over all steps.
pub fn series(command: &Command, files: &[String], options: &Options) -> Result<Ended, Vec<Fault>> {
    let drape = Drape::begun(command, series_files(files, options)?, options)?;
    let pierced = drape.first_checked(options)?;
    let asked = drape.asked(options);
    let mut bar = Bar::new("judging", !options.quiet);
    let log = series::judged(&asked, &drape.frames, &mut bar).map_err(alone)?;
    drop(bar);
    options.note(|| note_of_series(&log, drape.about.triangles == 0));
    if options.seams {
        options.note(|| format!("{} vertices at most stand for another in their place", log.sewn));
    }
    let left = asked.choice.map(|_| log.left);
    options.note(|| note_of_pairs(Which::Near, log.tally.listed(), left));
    let mut out = buffered();
    let written = series::write(&log, &drape.about, drape.frames.count(), &asked, &mut out);
    written.and_then(|()| out.flush()).map_err(|error| alone(unwritten(error)))?;
    if let (Some(name), Some(Shown { mesh, grid, marked })) = (&options.mark, &log.shown) {
        let step = if log.first > 0 { log.first } else { drape.frames.steps() };
        let time = mark::write(name, mesh, grid, marked).map_err(alone)?;
        options.note(|| format!("of step {step} {}", note_of_mark(name, time, marked.len())));
    }
    Ok(Ended::of(&log.tally, &pierced))
}

/// What is known before a step is judged.
struct Drape {
    frames: Frames,
    /// Faces and edges alone.
    mesh: Mesh,
    about: About,
    choice: Option<Choice>,
    whereabouts: Option<Whereabouts>,
}

impl Drape {
    /// The first frame read, and all others where the step is to be chosen.
    fn begun(command: &Command, files: Files, options: &Options) -> Result<Drape, Vec<Fault>> {
        let (mut frames, mut first) = Frames::begun(files, options.limit(command)).map_err(alone)?;
        options.all_known(&first.names)?;
        let mut bar = Bar::new("reading", !options.quiet);
        let Wanted { step, chosen } = frames.set_step(options.step, options.threads, &mut bar).map_err(alone)?;
        drop(bar);
        let how = if chosen { "chosen from all frames" } else { "given" };
        options.note(|| format!("a step is {step} ({how}); the same grid again: {}", before::again(command, options, step)));
        let note = note_of_file("the first frame", &first);
        let mut mesh = Mesh::new(vec![[0; 6]; first.places.len()], std::mem::take(&mut first.triangles));
        let (about, choice) = (about(&mesh, step), options.choice(&mesh, &first.names));
        let (count, About { vertices, edges, triangles, .. }) = (frames.count(), &about);
        options.note(|| format!("{count} frames of {vertices} vertices, {edges} edges, {triangles} triangles{note}"));
        let grid = Grid { step, middle: [0; 3] };
        let whereabouts = options.told_where.then(|| Whereabouts::new(&mesh, first.names, grid));
        mesh.positions = Vec::new();
        Ok(Drape { frames, mesh, about, choice, whereabouts })
    }

    /// The first frame as the first step has it, sewn where it is: what is in one place there, and what is through each other.
    fn first_checked(&self, options: &Options) -> Result<Pierced, Vec<Fault>> {
        let (mesh, _) = self.frames.of_step(&self.mesh, 0, options.seams).map_err(alone)?;
        options.tell_all(before::unsewn(&mesh, options.seams));
        let judge = Judge::new(&mesh).map_err(alone)?;
        start_checked(&judge, self.choice.as_ref(), "the first frame", options).map_err(alone)
    }

    fn asked<'a>(&'a self, options: &'a Options) -> Asked<'a> {
        Asked {
            mesh: &self.mesh,
            choice: self.choice.as_ref(),
            whereabouts: self.whereabouts.as_ref(),
            form: &options.form,
            marked: options.mark.is_some(),
            sewn: options.seams,
            threads: options.threads,
        }
    }
}

/// The files that are named, or listed; each is there, and none is written over.
fn series_files(files: &[String], options: &Options) -> Result<Files, Vec<Fault>> {
    let frames = frame_names(files)?;
    let (count, bodies) = (frames.len(), options.body_files.len());
    if bodies > 1 && bodies != count {
        let words = format!("a body rests in one file, or has one for each of the {count} frames; --body-files names {bodies}");
        return Err(alone(Fault::misunderstood(words)));
    }
    if let Some(mark) = options.mark.as_ref().filter(|mark| frames.iter().any(|frame| mark::same_file(mark, frame))) {
        return Err(alone(Fault::misunderstood(format!("--mark would write over {mark}, which is read"))));
    }
    let files = Files { frames, body: options.body_files.clone() };
    let missing = files.missing();
    if missing.is_empty() {
        Ok(files)
    } else {
        Err(missing)
    }
}

/// The frames as they are named, or as a list on standard input names them, a line each.
fn frame_names(files: &[String]) -> Result<Vec<String>, Vec<Fault>> {
    if files != [obj::STANDARD_INPUT] {
        return Ok(files.to_vec());
    }
    let list = String::from_utf8(obj::bytes_of(obj::STANDARD_INPUT).map_err(alone)?);
    let list = list.map_err(|_| alone(Fault::misunderstood("the list of frames on standard input is no UTF-8")))?;
    let names: Vec<String> = list.lines().filter(|line| !line.is_empty()).map(str::to_string).collect();
    if names.len() < 2 {
        let words = format!("series wants two frames or more, and the list on standard input has {}", names.len());
        return Err(alone(Fault::misunderstood(words)));
    }
    Ok(names)
}

fn note_of_series(log: &Log, empty: bool) -> String {
    if empty {
        return "there are no faces, and so no pair: this speaks of no cloth; export the faces too".to_string();
    }
    let (lengths, step) = log.farthest;
    let far = if lengths > before::FAR { before::TOO_FAR } else { "" };
    match step {
        0 => "nothing moves: this speaks of no drape".to_string(),
        _ => format!("the farthest move is {lengths:.2} edge lengths, in step {step}{far}"),
    }
}
