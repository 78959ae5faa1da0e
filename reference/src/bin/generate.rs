//! `generate SEED` prints the script of a seed.

use reference::generator::generate;
use std::io::{self, Write};
use std::process::ExitCode;

fn main() -> io::Result<ExitCode> {
    let seed = std::env::args().nth(1).and_then(|seed| seed.parse().ok());
    let Some(seed) = seed else {
        eprintln!("usage: generate SEED");
        return Ok(ExitCode::FAILURE);
    };
    io::stdout().lock().write_all(&generate(seed))?;
    Ok(ExitCode::SUCCESS)
}
