//! Playing a script: up to four books in memory.

use crate::book::{Book, Outcome, Request};
use crate::bytes::{self, hex, letter_bytes, names_bytes, read_change, read_letter, read_names};
use crate::change::{Name, Plant, Refusal};
use crate::command::{read_line, Command, ScriptLine};
use crate::sheet;
use std::collections::{BTreeMap, BTreeSet};

pub const MOST_PLANTS: usize = 4;

/// The books of a script, each made when a line first names its plant.
#[derive(Default)]
pub struct Rehearsal {
    desks: BTreeMap<Plant, Desk>,
}

/// A plant's book, and the adds and kills so far.
struct Desk {
    book: Book,
    request: Request,
}

/// What a whole script answers.
pub fn play(script: &[u8]) -> Vec<String> {
    let mut rehearsal = Rehearsal::default();
    script_lines(script)
        .flat_map(|line| rehearsal.play_line(line))
        .collect()
}

/// The lines of a script; the last may be without its end.
pub fn script_lines(script: &[u8]) -> impl Iterator<Item = &[u8]> {
    script
        .split_inclusive(|&byte| byte == b'\n')
        .map(|line| line.strip_suffix(b"\n").unwrap_or(line))
}

impl Rehearsal {
    pub fn book(&self, plant: Plant) -> Option<&Book> {
        self.desks.get(&plant).map(|desk| &desk.book)
    }

    pub fn request(&self, plant: Plant) -> Option<&Request> {
        self.desks.get(&plant).map(|desk| &desk.request)
    }

    /// Plays one line and gives the lines of its answer.
    pub fn play_line(&mut self, line: &[u8]) -> Vec<String> {
        match read_line(line) {
            Some(ScriptLine::Tell(plant, command)) if self.seat(&[plant]) => {
                self.desk(plant).obey(command)
            }
            Some(ScriptLine::Pass(from, to)) if self.seat(&[from, to]) => {
                let names = self.desk(to).book.names();
                let letter = letter_bytes(&self.desk(from).book.letter_for(&names));
                self.desk(to).take(&letter)
            }
            _ => vec![refused(Refusal::Malformed)],
        }
    }

    /// Makes the books of these plants where they aren't there, unless that would be too many.
    fn seat(&mut self, plants: &[Plant]) -> bool {
        let all: BTreeSet<Plant> = self.desks.keys().chain(plants).copied().collect();
        if all.len() > MOST_PLANTS {
            return false;
        }
        for &plant in plants {
            self.desks.entry(plant).or_insert_with(|| Desk {
                book: Book::new(plant),
                request: Request::default(),
            });
        }
        true
    }

    fn desk(&mut self, plant: Plant) -> &mut Desk {
        self.desks
            .get_mut(&plant)
            .expect("the plant has been seated")
    }
}

impl Desk {
    fn obey(&mut self, command: Command) -> Vec<String> {
        let sheet = self.request.sheet;
        match command {
            Command::Sheet(sheet) => {
                self.request = Request {
                    sheet,
                    ..Request::default()
                };
                vec![]
            }
            Command::Add(add) => {
                self.request.adds.push(add);
                vec![]
            }
            Command::Kill(line) => {
                self.request.kills.push(line);
                vec![]
            }
            Command::Unreadable => vec![refused(Refusal::Malformed)],
            Command::Make => self.make(),
            Command::Take(bytes) => self.take(&bytes),
            Command::Back(name) => vec![self.take_back(name)],
            Command::Have => vec![hex(&names_bytes(&self.book.names()))],
            Command::Send(names) => vec![self.send(&names)],
            Command::Show => sheet::shown(self.book.changes(), sheet),
            Command::Lines => self.lines(),
        }
    }

    fn make(&mut self) -> Vec<String> {
        match self.book.make(&self.request) {
            Err(refusal) => vec![refused(refusal)],
            Ok((change, outcomes)) => {
                self.request = Request {
                    sheet: self.request.sheet,
                    ..Request::default()
                };
                let mut made = format!("made {}", change.name.0);
                for (line, _) in change.new_lines() {
                    made += &format!(" {}", line.0);
                }
                std::iter::once(made)
                    .chain(outcomes.iter().map(answer))
                    .collect()
            }
        }
    }

    fn take(&mut self, message: &[u8]) -> Vec<String> {
        let changes = match message.first() {
            Some(&bytes::CHANGE) => read_change(message).map(|change| vec![change]),
            Some(&bytes::LETTER) => read_letter(message),
            _ => None,
        };
        match changes {
            None => vec![refused(Refusal::Malformed)],
            Some(changes) => changes
                .into_iter()
                .flat_map(|change| self.book.take(change))
                .map(|outcome| answer(&outcome))
                .collect(),
        }
    }

    fn take_back(&mut self, name: Name) -> String {
        match self.book.take_back(name) {
            Ok(()) => format!("back {}", name.0),
            Err(refusal) => format!("{} {}", refused(refusal), name.0),
        }
    }

    fn send(&self, names: &[u8]) -> String {
        match read_names(names) {
            Some(names) => hex(&letter_bytes(&self.book.letter_for(&names))),
            None => refused(Refusal::Malformed),
        }
    }

    fn lines(&self) -> Vec<String> {
        sheet::lines(self.book.changes(), self.request.sheet)
            .into_iter()
            .map(|(number, line)| {
                let state = if line.is_alive { "alive" } else { "dead" };
                format!("{} {state} {}", number.0, line.text)
            })
            .collect()
    }
}

fn refused(refusal: Refusal) -> String {
    format!("refused {}", refusal.number())
}

fn answer(outcome: &Outcome) -> String {
    match *outcome {
        Outcome::Taken(name) => format!("taken {}", name.0),
        Outcome::Waits(name) => format!("waits {}", name.0),
        Outcome::Refused(refusal, name) => format!("{} {}", refused(refusal), name.0),
    }
}
