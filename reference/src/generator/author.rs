//! What has been written so far, and what the books then hold.

use super::random::Random;
use crate::book::Book;
use crate::bytes::{change_bytes, hex, letter_bytes};
use crate::change::{Add, Change, Line, Name, Plant, Sheet};
use crate::order::Order;
use crate::rehearsal::Rehearsal;
use crate::sheet::{blocks, lines};

/// Plays each line as it is written, so that the next can speak of changes and lines that are there.
pub struct Author {
    pub random: Random,
    pub plants: Vec<Plant>,
    pub sheets: Vec<Sheet>,
    /// The changes made or forged so far, wherever they are now.
    pub known: Vec<Change>,
    /// Letters that were sent, as digits.
    pub letters: Vec<String>,
    rehearsal: Rehearsal,
    script: Vec<u8>,
    length: usize,
}

impl Author {
    pub fn new(seed: u64) -> Author {
        let mut random = Random::new(seed);
        let mut plants: Vec<Plant> = (0..16).collect();
        if random.chance(50) {
            random.shuffle(&mut plants);
        }
        plants.truncate(4);
        let mut sheets = vec![0, 1, 7, 255];
        sheets.truncate(random.between(1, 3));
        Author {
            random,
            plants,
            sheets,
            known: Vec::new(),
            letters: Vec::new(),
            rehearsal: Rehearsal::default(),
            script: Vec::new(),
            length: 0,
        }
    }

    pub fn into_script(self) -> Vec<u8> {
        self.script
    }

    /// How many lines have been written.
    pub fn length(&self) -> usize {
        self.length
    }

    pub fn plant(&mut self) -> Plant {
        self.plants[self.random.below(self.plants.len())]
    }

    pub fn sheet(&mut self) -> Sheet {
        self.sheets[self.random.below(self.sheets.len())]
    }

    pub fn book(&self, plant: Plant) -> Book {
        self.rehearsal
            .book(plant)
            .cloned()
            .unwrap_or_else(|| Book::new(plant))
    }

    /// The sheet that a plant is at, and how many adds it has so far.
    pub fn place(&self, plant: Plant) -> (Sheet, usize) {
        let request = self.rehearsal.request(plant);
        request.map_or((0, 0), |request| (request.sheet, request.adds.len()))
    }
}

/// Writing.
impl Author {
    pub fn say(&mut self, line: &[u8]) -> Vec<String> {
        self.script.extend(line);
        self.script.push(b'\n');
        self.length += 1;
        self.rehearsal.play_line(line)
    }

    pub fn tell(&mut self, plant: Plant, command: &str) -> Vec<String> {
        self.say(format!("{plant} {command}").as_bytes())
    }

    pub fn pass(&mut self, from: Plant, to: Plant) -> Vec<String> {
        self.say(format!("pass {from} {to}").as_bytes())
    }

    /// Asks for a change; was it made?
    pub fn make(&mut self, plant: Plant) -> bool {
        let name = self.book(plant).next_name();
        let is_made = self.tell(plant, "make")[0].starts_with("made");
        if is_made {
            let changes = self.book(plant).changes().to_vec();
            self.known
                .extend(changes.into_iter().filter(|change| change.name == name));
        }
        is_made
    }

    /// Has bytes taken, their digits in either case.
    pub fn take(&mut self, plant: Plant, bytes: &[u8]) -> Vec<String> {
        let digits = hex(bytes);
        let digits = if self.random.chance(10) {
            digits.to_uppercase()
        } else {
            digits
        };
        self.tell(plant, &format!("take {digits}"))
    }

    pub fn take_change(&mut self, plant: Plant, change: &Change) -> Vec<String> {
        self.take(plant, &change_bytes(change))
    }

    pub fn take_letter(&mut self, plant: Plant, changes: &[Change]) -> Vec<String> {
        self.take(plant, &letter_bytes(changes))
    }

    pub fn add(&mut self, plant: Plant, (after, before): (Line, Line), text: &str) {
        self.tell(plant, &format!("add {} {} {text}", after.0, before.0));
    }

    pub fn kill(&mut self, plant: Plant, line: Line) {
        self.tell(plant, &format!("kill {}", line.0));
    }
}

/// Choosing lines and texts.
impl Author {
    /// Two lines of a sheet between which a writer would put a new one.
    pub fn gap(&mut self, book: &Book, sheet: Sheet) -> (Line, Line) {
        let mut shown = blocks(book.changes(), sheet).concat();
        shown.insert(0, Line::START);
        shown.push(Line::END);
        let place = self.random.below(shown.len() - 1);
        (shown[place], shown[place + 1])
    }

    /// Two lines of a sheet, dead or alive, that stand one before the other.
    pub fn ordered_pair(&mut self, book: &Book, sheet: Sheet) -> (Line, Line) {
        let mut all: Vec<Line> = lines(book.changes(), sheet).into_keys().collect();
        all.push(Line::START);
        let after = self.random.pick(&all).unwrap_or(Line::START);
        let mut behind: Vec<Line> = Order::of(book.changes())
            .all_behind(after)
            .into_iter()
            .collect();
        behind.sort();
        behind.retain(|&line| line == Line::END || all.contains(&line));
        (after, self.random.pick(&behind).unwrap_or(Line::END))
    }

    pub fn line_of(&mut self, book: &Book, sheet: Sheet) -> Option<Line> {
        let all: Vec<Line> = lines(book.changes(), sheet).into_keys().collect();
        self.random.pick(&all)
    }

    /// Some line of any change that was ever made or forged.
    pub fn line_of_any(&mut self) -> Line {
        let change = self.random.pick(&self.known);
        change.map_or(Line(1024), |change| {
            change
                .name
                .line(self.random.below(change.adds.len() + 1).min(63))
        })
    }

    /// A number that is hardly any line's.
    pub fn odd_line(&mut self) -> Line {
        let odd = [
            0,
            1,
            2,
            63,
            64,
            1023,
            1024,
            1025,
            1087,
            65_536,
            4_294_967_295,
        ];
        Line(self.random.pick(&odd).unwrap_or(0))
    }

    pub fn text(&mut self) -> String {
        if self.random.chance(8) {
            let odd = [
                "", " ", "<", "<<<", "<< ", " >>", ">", "~", "1024 x", "a  b ", "\"\\'",
            ];
            return self.random.pick(&odd).unwrap_or("").to_string();
        }
        if self.random.chance(2) {
            return "=".repeat(self.random.between(119, 120));
        }
        let verbs = [
            "Open", "Torque", "Seal", "Inspect", "Fit", "Remove", "Clean", "Grease",
        ];
        let parts = [
            "panel 4",
            "the bolts",
            "safety wire",
            "the duct",
            "the hinge",
            "bearing 2",
        ];
        let verb = self.random.pick(&verbs).unwrap_or("");
        format!("{verb} {}.", self.random.pick(&parts).unwrap_or(""))
    }

    pub fn new_line(&mut self, (after, before): (Line, Line)) -> Add {
        Add {
            after,
            before,
            text: self.text(),
        }
    }

    pub fn name_of_any(&mut self) -> Name {
        self.random
            .pick(&self.known)
            .map_or(Name(16), |change| change.name)
    }
}
