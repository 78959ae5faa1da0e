//! What a change is, the limits on it, and the refusals.

use std::collections::BTreeSet;

pub type Plant = u8;
pub type Sheet = u8;

pub const HIGHEST_PLANT: Plant = 15;
pub const HIGHEST_COUNT: u32 = 4_194_303;
pub const MOST_NEEDS: usize = 32;
pub const MOST_ADDS: usize = 64;
pub const MOST_KILLS: usize = 64;
pub const LONGEST_TEXT: usize = 120;

/// The name of a change: its count times 16, plus its plant.
#[derive(Clone, Copy, PartialEq, Eq, PartialOrd, Ord, Hash, Debug)]
pub struct Name(pub u32);

impl Name {
    pub fn of(plant: Plant, count: u32) -> Name {
        Name(count * 16 + u32::from(plant))
    }

    pub fn plant(self) -> Plant {
        (self.0 % 16) as Plant
    }

    pub fn count(self) -> u32 {
        self.0 / 16
    }

    pub fn is_right(self) -> bool {
        (1..=HIGHEST_COUNT).contains(&self.count())
    }

    /// The line that the add at this place of the change brings.
    pub fn line(self, place: usize) -> Line {
        Line(u64::from(self.0) * 64 + place as u64)
    }
}

/// The number of a line: the name of its change times 64, plus the add's place in the change.
///
/// 64 bits, so that the lines of a change whose count has passed the limit have a number too.
#[derive(Clone, Copy, PartialEq, Eq, PartialOrd, Ord, Hash, Debug)]
pub struct Line(pub u64);

impl Line {
    pub const START: Line = Line(0);
    pub const END: Line = Line(1);

    pub fn is_edge(self) -> bool {
        self == Line::START || self == Line::END
    }

    /// The name that the number tells, whether there is such a change or not.
    pub fn name(self) -> Name {
        Name((self.0 / 64) as u32)
    }

    pub fn place(self) -> usize {
        (self.0 % 64) as usize
    }
}

/// A new line: the two lines between which it goes, and its text.
#[derive(Clone, PartialEq, Eq, Debug)]
pub struct Add {
    pub after: Line,
    pub before: Line,
    pub text: String,
}

#[derive(Clone, PartialEq, Eq, Debug)]
pub struct Change {
    pub name: Name,
    pub sheet: Sheet,
    pub needs: Vec<Name>,
    pub adds: Vec<Add>,
    pub kills: Vec<Line>,
}

impl Change {
    /// The new lines, each with its add.
    pub fn new_lines(&self) -> impl Iterator<Item = (Line, &Add)> {
        let name = self.name;
        self.adds
            .iter()
            .enumerate()
            .map(move |(place, add)| (name.line(place), add))
    }

    pub fn brings(&self, line: Line) -> bool {
        self.brings_before(self.adds.len(), line)
    }

    /// Is this the line of an add before this place.
    pub fn brings_before(&self, place: usize, line: Line) -> bool {
        self.new_lines().take(place).any(|(new, _)| new == line)
    }

    /// The lines that adds and kills name.
    pub fn named_lines(&self) -> impl Iterator<Item = Line> + '_ {
        let of_adds = self.adds.iter().flat_map(|add| [add.after, add.before]);
        of_adds.chain(self.kills.iter().copied())
    }

    /// The names of the other changes that the named lines come from, told by the numbers alone;
    /// rising, once each.
    pub fn sources(&self) -> Vec<Name> {
        let names: BTreeSet<Name> = self
            .named_lines()
            .filter(|line| !line.is_edge())
            .map(Line::name)
            .filter(|&name| name != self.name)
            .collect();
        names.into_iter().collect()
    }
}

/// Is this the text of a line: short enough, printable, and no mark of a block.
pub fn is_text(bytes: &[u8]) -> bool {
    bytes.len() <= LONGEST_TEXT
        && bytes.iter().all(|byte| (32..=126).contains(byte))
        && bytes != b"<<"
        && bytes != b">>"
}

/// Why something is turned away.
#[derive(Clone, Copy, PartialEq, Eq, PartialOrd, Ord, Debug)]
pub enum Refusal {
    Malformed = 1,
    Known = 2,
    Unrelated = 3,
    Unordered = 4,
    Full = 5,
    Needed = 6,
    Missing = 7,
    Exhausted = 8,
}

impl Refusal {
    pub fn number(self) -> u8 {
        self as u8
    }
}
