//! Changes, letters and lists of names as bytes; every number has its high byte first.
//!
//! What is read must be the whole of the bytes. Reading answers `None` where they are cut short,
//! malformed or too long: all of these are one refusal.

use crate::change::{
    is_text, Add, Change, Line, Name, LONGEST_TEXT, MOST_ADDS, MOST_KILLS, MOST_NEEDS,
};

pub const CHANGE: u8 = 1;
pub const LETTER: u8 = 2;
pub const NAMES: u8 = 3;
/// The most changes in a letter, and the most names in a list.
pub const MOST_LISTED: usize = 1024;

pub fn read_change(bytes: &[u8]) -> Option<Change> {
    whole(bytes, |reader| reader.change())
}

pub fn read_letter(bytes: &[u8]) -> Option<Vec<Change>> {
    whole(bytes, |reader| {
        reader.kind(LETTER)?;
        let count = reader.at_most(2, MOST_LISTED)?;
        (0..count).map(|_| reader.change()).collect()
    })
}

pub fn read_names(bytes: &[u8]) -> Option<Vec<Name>> {
    whole(bytes, |reader| {
        reader.kind(NAMES)?;
        let count = reader.at_most(2, MOST_LISTED)?;
        reader.names(count)
    })
}

fn whole<T>(bytes: &[u8], read: impl FnOnce(&mut Reader) -> Option<T>) -> Option<T> {
    let mut reader = Reader { rest: bytes };
    let value = read(&mut reader)?;
    reader.rest.is_empty().then_some(value)
}

struct Reader<'a> {
    rest: &'a [u8],
}

impl<'a> Reader<'a> {
    fn part(&mut self, length: usize) -> Option<&'a [u8]> {
        if self.rest.len() < length {
            return None;
        }
        let (part, rest) = self.rest.split_at(length);
        self.rest = rest;
        Some(part)
    }

    fn number(&mut self, width: usize) -> Option<u32> {
        let part = self.part(width)?;
        Some(
            part.iter()
                .fold(0, |number, &byte| number * 256 + u32::from(byte)),
        )
    }

    fn at_most(&mut self, width: usize, limit: usize) -> Option<usize> {
        let number = self.number(width)? as usize;
        (number <= limit).then_some(number)
    }

    fn kind(&mut self, kind: u8) -> Option<()> {
        (self.number(1)? == u32::from(kind)).then_some(())
    }

    fn line(&mut self) -> Option<Line> {
        self.number(4).map(|number| Line(u64::from(number)))
    }

    fn name(&mut self) -> Option<Name> {
        self.number(4).map(Name).filter(|name| name.is_right())
    }

    fn names(&mut self, count: usize) -> Option<Vec<Name>> {
        let names: Vec<Name> = (0..count).map(|_| self.name()).collect::<Option<_>>()?;
        is_rising(&names).then_some(names)
    }

    fn lines(&mut self, count: usize) -> Option<Vec<Line>> {
        let lines: Vec<Line> = (0..count).map(|_| self.line()).collect::<Option<_>>()?;
        is_rising(&lines).then_some(lines)
    }

    fn add(&mut self) -> Option<Add> {
        let after = self.line()?;
        let before = self.line()?;
        let length = self.at_most(1, LONGEST_TEXT)?;
        let text = self.part(length).filter(|text| is_text(text))?;
        Some(Add {
            after,
            before,
            text: String::from_utf8(text.to_vec()).ok()?,
        })
    }

    fn change(&mut self) -> Option<Change> {
        self.kind(CHANGE)?;
        let name = self.name()?;
        let sheet = self.number(1)? as u8;
        let needs = self.at_most(1, MOST_NEEDS)?;
        let needs = self.names(needs)?;
        let adds = self.at_most(1, MOST_ADDS)?;
        let adds = (0..adds).map(|_| self.add()).collect::<Option<_>>()?;
        let kills = self.at_most(1, MOST_KILLS)?;
        let kills = self.lines(kills)?;
        Some(Change {
            name,
            sheet,
            needs,
            adds,
            kills,
        })
    }
}

fn is_rising<T: Ord>(items: &[T]) -> bool {
    items.windows(2).all(|pair| pair[0] < pair[1])
}

pub fn change_bytes(change: &Change) -> Vec<u8> {
    let mut bytes = vec![CHANGE];
    push_name(&mut bytes, change.name);
    bytes.push(change.sheet);
    bytes.push(change.needs.len() as u8);
    change
        .needs
        .iter()
        .for_each(|&need| push_name(&mut bytes, need));
    bytes.push(change.adds.len() as u8);
    for add in &change.adds {
        push_line(&mut bytes, add.after);
        push_line(&mut bytes, add.before);
        bytes.push(add.text.len() as u8);
        bytes.extend(add.text.bytes());
    }
    bytes.push(change.kills.len() as u8);
    change
        .kills
        .iter()
        .for_each(|&kill| push_line(&mut bytes, kill));
    bytes
}

pub fn letter_bytes(changes: &[Change]) -> Vec<u8> {
    let mut bytes = vec![LETTER];
    push_count(&mut bytes, changes.len());
    bytes.extend(changes.iter().flat_map(change_bytes));
    bytes
}

pub fn names_bytes(names: &[Name]) -> Vec<u8> {
    let mut bytes = vec![NAMES];
    push_count(&mut bytes, names.len());
    names.iter().for_each(|&name| push_name(&mut bytes, name));
    bytes
}

fn push_count(bytes: &mut Vec<u8>, count: usize) {
    bytes.extend((count as u16).to_be_bytes());
}

fn push_name(bytes: &mut Vec<u8>, name: Name) {
    bytes.extend(name.0.to_be_bytes());
}

fn push_line(bytes: &mut Vec<u8>, line: Line) {
    bytes.extend((line.0 as u32).to_be_bytes());
}

pub fn hex(bytes: &[u8]) -> String {
    bytes.iter().map(|byte| format!("{byte:02x}")).collect()
}

/// The bytes that hexadecimal digits of either case tell, two digits a byte.
pub fn read_hex(digits: &[u8]) -> Option<Vec<u8>> {
    let digits: Vec<u32> = digits
        .iter()
        .map(|&digit| char::from(digit).to_digit(16))
        .collect::<Option<_>>()?;
    if digits.len() % 2 == 1 {
        return None;
    }
    Some(
        digits
            .chunks(2)
            .map(|pair| (pair[0] * 16 + pair[1]) as u8)
            .collect(),
    )
}
