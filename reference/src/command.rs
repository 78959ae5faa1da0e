//! The lines of a script.

use crate::bytes::read_hex;
use crate::change::{is_text, Add, Line, Name, Plant, Sheet, HIGHEST_PLANT};

/// What a plant's book is told.
#[derive(Clone, PartialEq, Eq, Debug)]
pub enum Command {
    Sheet(Sheet),
    Add(Add),
    Kill(Line),
    Make,
    Take(Vec<u8>),
    Back(Name),
    Have,
    Send(Vec<u8>),
    Show,
    Lines,
    /// A command with digits that are no bytes, or with a text that no line may have: refused, though it says which book it is for.
    Unreadable,
}

#[derive(Clone, PartialEq, Eq, Debug)]
pub enum ScriptLine {
    Tell(Plant, Command),
    Pass(Plant, Plant),
}

/// The line of a script that some bytes are, if they are one.
pub fn read_line(line: &[u8]) -> Option<ScriptLine> {
    let (first, rest) = split_word(line);
    let rest = rest?;
    if first == b"pass" {
        let (from, to) = split_word(rest);
        return Some(ScriptLine::Pass(plant(from)?, plant(to?)?));
    }
    Some(ScriptLine::Tell(plant(first)?, command(rest)?))
}

fn command(words: &[u8]) -> Option<Command> {
    let (word, rest) = split_word(words);
    match (word, rest) {
        (b"make", None) => Some(Command::Make),
        (b"have", None) => Some(Command::Have),
        (b"show", None) => Some(Command::Show),
        (b"lines", None) => Some(Command::Lines),
        (b"sheet", Some(rest)) => number(rest)?.try_into().ok().map(Command::Sheet),
        (b"add", Some(rest)) => add(rest),
        (b"kill", Some(rest)) => line(rest).map(Command::Kill),
        (b"back", Some(rest)) => Some(Command::Back(Name(number(rest)?))),
        (b"take", Some(rest)) => Some(read_hex(rest).map_or(Command::Unreadable, Command::Take)),
        (b"send", Some(rest)) => Some(read_hex(rest).map_or(Command::Unreadable, Command::Send)),
        _ => None,
    }
}

fn add(words: &[u8]) -> Option<Command> {
    let (after, rest) = split_word(words);
    let (before, text) = split_word(rest?);
    let (after, before) = (line(after)?, line(before)?);
    let text = text.unwrap_or(b"");
    if !is_text(text) {
        return Some(Command::Unreadable);
    }
    Some(Command::Add(Add {
        after,
        before,
        text: String::from_utf8_lossy(text).into_owned(),
    }))
}

/// What stands before the first space, and what stands behind it.
fn split_word(words: &[u8]) -> (&[u8], Option<&[u8]>) {
    match words.iter().position(|&byte| byte == b' ') {
        Some(space) => (&words[..space], Some(&words[space + 1..])),
        None => (words, None),
    }
}

/// A number of at most 32 bits in decimal digits, without sign or leading zero.
fn number(word: &[u8]) -> Option<u32> {
    if !word.iter().all(u8::is_ascii_digit) || (word.len() > 1 && word[0] == b'0') {
        return None;
    }
    std::str::from_utf8(word).ok()?.parse().ok()
}

fn line(word: &[u8]) -> Option<Line> {
    number(word).map(|number| Line(u64::from(number)))
}

fn plant(word: &[u8]) -> Option<Plant> {
    let plant = number(word)?.try_into().ok()?;
    (plant <= HIGHEST_PLANT).then_some(plant)
}
