//! The frames of a drape, from their files: each is read once, a few are held at a time, and every step is put onto one grid.
//!
//! Where the step of the grid is given, a frame is read for the first step that asks for it. Where it is not, it goes by all frames, so all are read before
//! one is judged; as many as there is room for are held until then, and the others are read a second time.

use crate::fault::Fault;
use crate::mesh::{self, Mesh};
use crate::obj::{self, Obj};
use crate::progress::Bar;
use crate::rounding::{least_step, too_fine, Bounds, Grid, Place};
use crate::work::in_order;
use std::fs;
use std::sync::atomic::{AtomicUsize, Ordering::Relaxed};
use std::sync::{Arc, Mutex, MutexGuard};

/// The files of a series.
#[derive(Clone, Debug, Default, PartialEq)]
pub struct Files {
    /// Two or more.
    pub frames: Vec<String>,
    /// None, one of a body that rests, or one for each frame.
    pub body: Vec<String>,
}

impl Files {
    /// Each file that is not there.
    pub fn missing(&self) -> Vec<Fault> {
        let named = self.frames.iter().chain(&self.body).filter(|&name| name != obj::STANDARD_INPUT);
        named.filter_map(|name| fs::metadata(name).err().map(|error| Fault::of_file(name, &error))).collect()
    }

    /// Whether what a frame is read from can be read a second time: a pipe can't.
    fn stays(&self, at: usize) -> bool {
        let is_file = |name: &String| name != obj::STANDARD_INPUT && fs::metadata(name).is_ok_and(|about| about.is_file());
        let body = self.body.get(at).filter(|_| self.body.len() > 1);
        is_file(&self.frames[at]) && body.is_none_or(is_file)
    }
}

/// A frame, with the body behind it.
#[derive(Debug, PartialEq)]
struct Frame {
    places: Vec<Place>,
    bounds: Bounds,
}

impl Frame {
    fn of(places: Vec<Place>) -> Frame {
        Frame { bounds: Bounds::of(&places), places }
    }

    fn bytes(&self) -> usize {
        std::mem::size_of_val(&self.places[..])
    }
}

/// A frame while a step needs it.
#[derive(Default)]
struct Slot {
    /// How many steps have been put together with it.
    used: usize,
    frame: Option<Arc<Frame>>,
}

pub struct Frames {
    files: Files,
    /// The first frame, and the first of the body: what all others are held to.
    cloth: Obj,
    body: Option<Obj>,
    /// The line of the face that each triangle of both is of.
    lines: Vec<u64>,
    grid: Wanted,
    limit: i32,
    /// So many bytes of frames are held at most until the step is chosen; and beyond that those that can't be read a second time.
    pub room: usize,
    slots: Vec<Mutex<Slot>>,
}

/// The step of the grid, and whether it was chosen.
#[derive(Clone, Copy, Debug, PartialEq)]
pub struct Wanted {
    pub step: f64,
    pub chosen: bool,
}

/// A few hundred frames of a usual garment; a step that is judged takes as much as some twenty frames.
const ROOM: usize = 1 << 28;

impl Frames {
    /// With the first frame read, which is handed back with the body behind it: its names and its faces are those of all. The step is still to be set.
    pub fn begun(files: Files, limit: i32) -> Result<(Frames, Obj), Fault> {
        let mut cloth = obj::read_file(&files.frames[0])?;
        let mut body = files.body.first().map(|name| obj::read_file(name)).transpose()?;
        let mut first = taken(&mut cloth);
        if let Some(body) = &mut body {
            first.join_body(obj::shown_name(&files.body[0]), taken(body))?;
        }
        let slots: Vec<Mutex<Slot>> = files.frames.iter().map(|_| Mutex::default()).collect();
        let (lines, places) = (first.lines.clone(), first.places.clone());
        let grid = Wanted { step: 1.0, chosen: false };
        let frames = Frames { files, cloth, body, lines, grid, limit, room: ROOM, slots };
        frames.slot(0).frame = Some(Arc::new(Frame::of(places)));
        Ok((frames, first))
    }

    pub fn count(&self) -> usize {
        self.files.frames.len()
    }

    pub fn steps(&self) -> usize {
        self.count() - 1
    }

    /// The step that is wanted; where none is, the least with which all frames together fit, which are read for it.
    pub fn set_step(&mut self, wanted: Option<f64>, threads: usize, bar: &mut Bar) -> Result<Wanted, Fault> {
        let step = match wanted {
            Some(step) => step,
            None => least_step(&self.read_through(threads, bar)?, self.limit)?,
        };
        self.grid = Wanted { step, chosen: wanted.is_none() };
        Ok(self.grid)
    }

    /// Every frame is read, and held where there is room; hands back the bounds of all.
    fn read_through(&self, threads: usize, bar: &mut Bar) -> Result<Bounds, Fault> {
        let held = AtomicUsize::new(0);
        let read = |at: usize| {
            let frame = self.read(at + 1)?;
            let bounds = frame.bounds;
            if held.fetch_add(frame.bytes(), Relaxed) + frame.bytes() <= self.room || !self.files.stays(at + 1) {
                self.slot(at + 1).frame = Some(Arc::new(frame));
            }
            Ok(bounds)
        };
        let mut bounds = self.frame(0)?.bounds;
        in_order(self.steps(), threads, read, |at, of_frame: Result<Bounds, Fault>| {
            bounds = bounds.with(&of_frame?);
            bar.draw(at + 1, self.steps(), 0);
            Ok(())
        })?;
        Ok(bounds)
    }

    /// A step of the drape on its grid, with the faces of the mesh. The numbers of each step count from the middle of its own two frames, on one grid for
    /// all: a shift by whole steps changes no answer, and so a drape may go any way.
    pub fn of_step(&self, mesh: &Mesh, at: usize, sewn: bool) -> Result<(Mesh, Grid), Fault> {
        let (start, end) = (self.frame(at)?, self.frame(at + 1)?);
        let bounds = start.bounds.with(&end.bounds);
        let grid = Grid::of(&bounds, Some(self.grid.step), self.limit)?;
        let [from, to] = [&start, &end].map(|frame| grid.frame(&frame.places, self.limit));
        let (from, to) = from.zip(to).ok_or_else(|| self.beyond(at, &bounds))?;
        let both = from.places.into_iter().zip(to.places);
        let positions = both.map(|([a, b, c], [d, e, f])| [a, b, c, d, e, f]).collect();
        let mut mesh = Mesh { positions, ..mesh.clone() };
        if sewn {
            let places = [&start.places[..], &end.places[..]];
            mesh.sew().map_err(|triangle| self.unsewable(&mesh, at, triangle, places, &bounds))?;
        }
        Ok((mesh, grid))
    }

    /// This step is put together: a frame that no other one will ask for is let go.
    pub fn behind(&self, at: usize) {
        for at in [at, at + 1] {
            let mut slot = self.slot(at);
            slot.used += 1;
            if slot.used == (at > 0) as usize + (at < self.steps()) as usize {
                slot.frame = None;
            }
        }
    }

    fn slot(&self, at: usize) -> MutexGuard<'_, Slot> {
        self.slots[at].lock().expect("nobody panics who holds it")
    }

    fn frame(&self, at: usize) -> Result<Arc<Frame>, Fault> {
        let mut slot = self.slot(at);
        let frame = match &slot.frame {
            Some(frame) => frame.clone(),
            None => Arc::new(self.read(at)?),
        };
        slot.frame = Some(frame.clone());
        Ok(frame)
    }

    fn read(&self, at: usize) -> Result<Frame, Fault> {
        let mut places = alike(&self.files.frames, at, &self.cloth)?;
        match &self.body {
            Some(body) if self.files.body.len() == 1 => places.extend(&body.places),
            Some(body) => places.extend(alike(&self.files.body, at, body)?),
            None => {}
        }
        Ok(Frame::of(places))
    }

    fn beyond(&self, at: usize, bounds: &Bounds) -> Fault {
        let [from, to] = [at, at + 1].map(|at| obj::shown_name(&self.files.frames[at]));
        if self.grid.chosen {
            return Fault::new(format!("{from} or {to} has changed since it was read first"));
        }
        Fault::new(format!("{from} and {to}: {}", too_fine(self.grid.step, bounds, self.limit)))
    }

    fn unsewable(&self, mesh: &Mesh, at: usize, triangle: usize, places: [&[Place]; 2], bounds: &Bounds) -> Fault {
        let of_body = triangle >= self.cloth.triangles.len();
        let (files, before) = if of_body { (&self.files.body, self.cloth.places.len()) } else { (&self.files.frames, 0) };
        let name = files.get(at).unwrap_or(&files[0]);
        // a smaller step than one that was chosen has no room for all frames
        let least = if self.grid.chosen { Some(self.grid.step) } else { least_step(bounds, self.limit).ok() };
        Fault::in_line(obj::shown_name(name), self.lines[triangle], mesh::unsewn(mesh, triangle, before, places, least))
    }
}

/// The places of a frame, or of a body, that has the faces of the first.
fn alike(files: &[String], at: usize, first: &Obj) -> Result<Vec<Place>, Fault> {
    let next = obj::read_file(&files[at])?;
    mesh::same_faces([&files[0], &files[at]].map(|name| obj::shown_name(name)), first, &next)?;
    Ok(next.places)
}

/// The same once more, with the names, which are then its alone.
fn taken(obj: &mut Obj) -> Obj {
    let names = std::mem::take(&mut obj.names);
    let (places, triangles, lines) = (obj.places.clone(), obj.triangles.clone(), obj.lines.clone());
    Obj { places, triangles, lines, noted: obj.noted, names, behind: None }
}
