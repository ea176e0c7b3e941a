//! usage: make-garment KIND VERTICES SEED START.obj END.obj
//!        make-garment drape VERTICES FRAME OUT.obj
//! Writes the two files of a garment: a sheet, a sheet in 8 folds, or one in 32 tight ones; or a frame, counted from 0, of a drape that falls.

use garment_check::cloth::{cloth, drape, obj, KINDS};
use std::process::ExitCode;

fn main() -> ExitCode {
    let words: Vec<String> = std::env::args().skip(1).collect();
    match made(&words) {
        Ok(()) => ExitCode::SUCCESS,
        Err(wrong) => {
            eprintln!("make-garment: {wrong}\nusage: make-garment sheet|folds|tight VERTICES SEED START.obj END.obj");
            eprintln!("       make-garment drape VERTICES FRAME OUT.obj");
            ExitCode::from(2)
        }
    }
}

fn made(words: &[String]) -> Result<(), String> {
    let number = |word: &String| word.parse::<u64>().map_err(|error| format!("{word}: {error}"));
    let write = |name: &String, text: String| std::fs::write(name, text).map_err(|error| format!("{name}: {error}"));
    match words {
        [kind, vertices, frame, out] if kind == "drape" => {
            let (places, faces) = drape(number(vertices)? as usize, number(frame)? as usize, 1);
            write(out, obj(&places, &faces))
        }
        [kind, vertices, seed, start, end] => {
            let kind = KINDS.into_iter().find(|known| known.name == kind).ok_or("no such kind")?;
            let [from, to] = cloth(kind, number(vertices)? as usize, number(seed)?).objs();
            write(start, from)?;
            write(end, to)
        }
        _ => Err("five words are wanted, or four of a drape".into()),
    }
}
