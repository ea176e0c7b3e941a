//! `garment --help` tells how it is called.

use std::process::ExitCode;

fn main() -> ExitCode {
    ExitCode::from(garment::command::run(std::env::args_os().skip(1)))
}
