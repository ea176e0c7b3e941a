//! The steps of a report program, right or with one of them wrong.

use crate::list::listing as right_listing;
use crate::report::written;
use crate::scene::refusal::{Refusal, NO_ROOM};
use crate::scene::{Pair, Scene};
use crate::text;
use crate::verdicts::settled::{self, Settled};
use std::collections::HashMap;

type Read = Box<dyn Fn(&[u8]) -> Result<Scene, Refusal>>;
type List = Box<dyn Fn(&Scene) -> Vec<Pair>>;
type Judge = Box<dyn Fn(&Scene, Pair) -> Settled>;
type Print = Box<dyn Fn(&[Pair], usize, &dyn Fn(Pair) -> Settled) -> String>;

/// The four steps of a report program, of which a mistake has one; the others go right.
#[derive(Default)]
pub(super) struct Steps {
    pub(super) read: Option<Read>,
    pub(super) list: Option<List>,
    pub(super) judge: Option<Judge>,
    pub(super) print: Option<Print>,
}

/// What the steps come to when they go right, found once for all the mistakes that are tried on a text.
pub struct Right {
    text: Vec<u8>,
    scene: Result<Scene, Refusal>,
    listed: Vec<Pair>,
    words: HashMap<Pair, Settled>,
    room: usize,
}

impl Right {
    pub fn of(text: &[u8], room: usize) -> Right {
        let scene = text::read(text);
        let listed = scene.as_ref().map(right_listing::listed).unwrap_or_default();
        let judged = if listed.len() > room { &[][..] } else { &listed[..] };
        let words = judged.iter().map(|&pair| (pair, settled::of_pair(scene.as_ref().unwrap(), pair))).collect();
        Right { text: text.to_vec(), scene, listed, words, room }
    }

    pub fn report(&self) -> String {
        self.report_after(&Steps::default())
    }

    fn report_after(&self, steps: &Steps) -> String {
        let scene = steps.read.as_ref().map_or_else(|| self.scene.clone(), |read| read(&self.text));
        let scene = match scene {
            Err(refusal) => return written(&Err(refusal)),
            Ok(scene) => scene,
        };
        let same = self.scene.as_ref() == Ok(&scene);
        let listed = match &steps.list {
            Some(list) => list(&scene),
            None if same => self.listed.clone(),
            None => right_listing::listed(&scene),
        };
        let found = |pair| if same { self.words.get(&pair).copied() } else { None };
        let judge = |pair| match &steps.judge {
            Some(judge) => judge(&scene, pair),
            None => found(pair).unwrap_or_else(|| settled::of_pair(&scene, pair)),
        };
        match &steps.print {
            Some(print) => print(&listed, self.room, &judge),
            None => print_right(&listed, self.room, &judge),
        }
    }
}

pub(super) fn print_right(listed: &[Pair], room: usize, judge: &dyn Fn(Pair) -> Settled) -> String {
    written(&fitting(listed, room).map(|listed| with_words(listed, judge)))
}

pub(super) fn fitting(listed: &[Pair], room: usize) -> Result<&[Pair], Refusal> {
    if listed.len() > room {
        return Err(Refusal::new(NO_ROOM, listed.len() as u64));
    }
    Ok(listed)
}

pub(super) fn with_words(listed: &[Pair], judge: &dyn Fn(Pair) -> Settled) -> Vec<(Pair, Settled)> {
    listed.iter().map(|&pair| (pair, judge(pair))).collect()
}

pub struct Mistake {
    /// A word to call it by.
    pub key: String,
    /// What is done wrong.
    pub says: String,
    steps: Steps,
}

impl Mistake {
    pub(super) fn new(key: impl Into<String>, says: impl Into<String>, steps: Steps) -> Mistake {
        Mistake { key: key.into(), says: says.into(), steps }
    }

    /// Its report of the text that the right steps were found for.
    pub fn report(&self, right: &Right) -> String {
        right.report_after(&self.steps)
    }
}
