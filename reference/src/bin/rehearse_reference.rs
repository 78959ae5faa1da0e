//! Plays the script on standard input and answers on standard output, line by line.

use reference::rehearsal::Rehearsal;
use std::io::{self, BufRead, Write};

fn main() -> io::Result<()> {
    let mut rehearsal = Rehearsal::default();
    let mut output = io::BufWriter::new(io::stdout().lock());
    for line in io::stdin().lock().split(b'\n') {
        for answer in rehearsal.play_line(&line?) {
            writeln!(output, "{answer}")?;
        }
        output.flush()?;
    }
    Ok(())
}
