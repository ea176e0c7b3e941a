//! A program under test: text in, report out, and no longer than it may take.

pub mod comparing;
pub mod looks;
pub mod streams;

use std::io::{Read, Write};
use std::process::{Child, Command, Stdio};
use std::sync::mpsc;
use std::time::{Duration, Instant};

/// The longest report that is waited for; one of 3,072 pairs is well below.
const LONGEST: u64 = 1 << 20;

pub struct Program {
    /// The program, and in front of it whatever starts it.
    pub command: Vec<String>,
    pub limit: Duration,
}

#[derive(Debug, PartialEq, Eq)]
pub enum Failed {
    /// It cannot be started at all.
    ToStart(String),
    /// It was still running when its time was up.
    ToEnd,
    /// It ended with a bad status, or printed without end.
    Otherwise(String),
}

impl Program {
    /// What it prints for the text, which it gets in this many parts, as from a pipe.
    pub fn run(&self, text: &[u8], parts: usize) -> Result<Vec<u8>, Failed> {
        let deadline = Instant::now() + self.limit;
        let mut command = Command::new(&self.command[0]);
        let spawned = command.args(&self.command[1..]).stdin(Stdio::piped()).stdout(Stdio::piped()).spawn();
        let mut child = spawned.map_err(|error| Failed::ToStart(format!("{}: {error}", self.command.join(" "))))?;
        let printed = read_and_write(&mut child, text, parts, deadline);
        let status = ended(&mut child, deadline);
        if printed.is_none() || status.is_none() {
            // a child that is gone already is no matter
            let _ = child.kill();
            let _ = child.wait();
        }
        let (Some(printed), Some(status)) = (printed, status) else { return Err(Failed::ToEnd) };
        if !status.success() {
            return Err(Failed::Otherwise(format!(
                "it ended with {status}, where a report program ends with status 0, refused or not"
            )));
        }
        if printed.len() as u64 >= LONGEST {
            return Err(Failed::Otherwise(format!("it printed {LONGEST} bytes and more")));
        }
        Ok(printed)
    }
}

/// Everything that the child prints, or nothing if it has not closed its output in time. The two threads are not
/// waited for, since the pipes may be held by a process that the child has started.
fn read_and_write(child: &mut Child, text: &[u8], parts: usize, deadline: Instant) -> Option<Vec<u8>> {
    let (mut input, output) = (child.stdin.take().unwrap(), child.stdout.take().unwrap());
    let (text, part) = (text.to_vec(), 1 + text.len() / parts.max(1));
    // a program that has seen enough may close its input
    std::thread::spawn(move || text.chunks(part).try_for_each(|part| input.write_all(part)));
    let (sender, receiver) = mpsc::channel();
    std::thread::spawn(move || {
        let mut printed = Vec::new();
        let _ = output.take(LONGEST).read_to_end(&mut printed);
        sender.send(printed)
    });
    receiver.recv_timeout(deadline.saturating_duration_since(Instant::now())).ok()
}

fn ended(child: &mut Child, deadline: Instant) -> Option<std::process::ExitStatus> {
    let mut pause = Duration::from_micros(50);
    loop {
        if let Ok(Some(status)) = child.try_wait() {
            return Some(status);
        }
        if Instant::now() >= deadline {
            return None;
        }
        std::thread::sleep(pause);
        pause = (pause * 2).min(Duration::from_millis(50));
    }
}
