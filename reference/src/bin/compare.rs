//! `compare PROGRAM FIRST COUNT` plays the scripts of so many seeds, from the first on, with a
//! program and with this library, and compares what they answer, line by line.
//!
//! The program reads a script on standard input. It may say more behind a refusal (`refused 4 33:
//! why`). At the first difference the seed and the line are printed and the status is 1; else what
//! was compared, counted, so that one can see what the scripts reach.

use reference::generator::generate;
use reference::rehearsal::{script_lines, Rehearsal};
use std::collections::BTreeMap;
use std::io::{self, Write};
use std::process::{Command, ExitCode, Output, Stdio};
use std::sync::atomic::{AtomicU64, Ordering};
use std::thread;

const THREADS: usize = 2;
const LONGEST_PRINTED: usize = 300;

fn main() -> ExitCode {
    let arguments: Vec<String> = std::env::args().skip(1).collect();
    let [program, first, count] = &arguments[..] else {
        eprintln!("usage: compare PROGRAM FIRST COUNT");
        return ExitCode::FAILURE;
    };
    let (Ok(first), Ok(count)) = (first.parse::<u64>(), count.parse::<u64>()) else {
        eprintln!("FIRST and COUNT are numbers");
        return ExitCode::FAILURE;
    };
    match compare_all(program, first, first + count) {
        Ok(tally) => {
            tally.print();
            ExitCode::SUCCESS
        }
        Err(difference) => {
            println!("seed {}, {}", difference.seed, difference.text);
            ExitCode::FAILURE
        }
    }
}

/// Where the two differ.
struct Difference {
    seed: u64,
    text: String,
}

/// Shares the seeds out among the threads, in their order. Once one finds a difference no more are
/// begun, but those begun are finished, so that the lowest seed with a difference is told.
fn compare_all(program: &str, first: u64, end: u64) -> Result<Tally, Difference> {
    let next = AtomicU64::new(first);
    let work = || {
        let mut tally = Tally::default();
        loop {
            let seed = next.fetch_add(1, Ordering::Relaxed);
            if seed >= end {
                return Ok(tally);
            }
            if let Err(text) = compare_one(program, seed, &mut tally) {
                next.store(end, Ordering::Relaxed);
                return Err(Difference { seed, text });
            }
        }
    };
    thread::scope(|scope| {
        let threads: Vec<_> = (0..THREADS).map(|_| scope.spawn(work)).collect();
        let mut whole = Ok(Tally::default());
        for thread in threads {
            whole = join(whole, thread.join().expect("the library doesn't panic"));
        }
        whole
    })
}

fn join(
    one: Result<Tally, Difference>,
    other: Result<Tally, Difference>,
) -> Result<Tally, Difference> {
    match (one, other) {
        (Ok(one), Ok(other)) => Ok(one.with(other)),
        (Err(one), Err(other)) if other.seed < one.seed => Err(other),
        (Err(difference), _) | (_, Err(difference)) => Err(difference),
    }
}

/// Plays the script of a seed with both.
fn compare_one(program: &str, seed: u64, tally: &mut Tally) -> Result<(), String> {
    let script = generate(seed);
    let output = run(program, &script).map_err(|error| format!("{program}: {error}"))?;
    let mut answers = output.stdout.split_inclusive(|&byte| byte == b'\n');
    let mut rehearsal = Rehearsal::default();
    tally.count("scripts");
    for (line, number) in script_lines(&script).zip(1..) {
        tally.count("lines of script");
        for expected in rehearsal.play_line(line) {
            let answer = answers.next().unwrap_or(b"");
            if !is_same(&expected, answer) {
                let expected = brief(expected.as_bytes());
                return Err(format!(
                    "line {number}: {}\nexpected: {expected}\nanswered: {}\nin the end: {}",
                    brief(line),
                    brief(answer),
                    output.status,
                ));
            }
            tally.count_answer(&expected);
        }
    }
    if let Some(more) = answers.next() {
        return Err(format!("behind the last answer: {}", brief(more)));
    }
    if !output.status.success() {
        return Err(format!("in the end: {}", output.status));
    }
    Ok(())
}

/// What a program answers to a script; it may answer before it has read all.
fn run(program: &str, script: &[u8]) -> io::Result<Output> {
    let mut child = Command::new(program)
        .stdin(Stdio::piped())
        .stdout(Stdio::piped())
        .spawn()?;
    let mut input = child.stdin.take().expect("standard input is piped");
    thread::scope(|scope| {
        // A program that ends early is found out by what it answered.
        scope.spawn(move || input.write_all(script).ok());
        child.wait_with_output()
    })
}

/// A line for people to read, cut where it is long.
fn brief(line: &[u8]) -> String {
    let line = String::from_utf8_lossy(line);
    let start: String = line
        .trim_end_matches('\n')
        .chars()
        .take(LONGEST_PRINTED)
        .collect();
    let is_cut = start.len() < line.trim_end_matches('\n').len();
    start + if is_cut { " .." } else { "" }
}

/// Is an answer the expected line with its end, or a refusal with words behind it.
fn is_same(expected: &str, answer: &[u8]) -> bool {
    let Some(rest) = answer.strip_prefix(expected.as_bytes()) else {
        return false;
    };
    rest == b"\n"
        || (expected.starts_with("refused ") && rest.starts_with(b": ") && rest.ends_with(b"\n"))
}

/// How often each thing was answered.
#[derive(Default)]
struct Tally {
    counts: BTreeMap<String, u64>,
}

impl Tally {
    fn count(&mut self, what: &str) {
        *self.counts.entry(what.to_string()).or_default() += 1;
    }

    fn count_answer(&mut self, answer: &str) {
        self.count("lines of answers");
        let words: Vec<&str> = answer.split(' ').collect();
        match words[..] {
            ["refused", number] => self.count(&format!("refused {number}")),
            ["refused", number, _] => self.count(&format!("refused {number} NAME")),
            [word @ ("made" | "taken" | "waits" | "back"), ..] => self.count(word),
            ["<<"] => self.count("blocks of two or more"),
            _ => {}
        }
    }

    fn with(mut self, other: Tally) -> Tally {
        for (what, count) in other.counts {
            *self.counts.entry(what).or_default() += count;
        }
        self
    }

    fn print(&self) {
        for (what, count) in &self.counts {
            println!("{count:>9} {what}");
        }
    }
}
