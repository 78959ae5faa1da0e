//! Changes and bytes that nobody made.

use super::author::Author;
use crate::book::Book;
use crate::bytes::{change_bytes, letter_bytes, names_bytes};
use crate::change::{Add, Change, Line, Name, Plant, HIGHEST_COUNT, MOST_NEEDS};
use std::collections::BTreeSet;

/// A well-formed change on the plant's book or on another's, which may fit it or not.
pub fn forge(author: &mut Author, plant: Plant) -> Change {
    let other = author.plant();
    let is_for_plant = author.random.chance(60);
    let book = author.book(if is_for_plant { plant } else { other });
    let sheet = author.sheet();
    let name = forged_name(author, &book);
    let mut change = Change {
        name,
        sheet,
        needs: vec![],
        adds: vec![],
        kills: vec![],
    };
    for place in 0..author.random.below(4) {
        let (after, before) = author.ordered_pair(&book, sheet);
        let is_chained = place > 0 && author.random.chance(30);
        let after = if is_chained {
            change.name.line(place - 1)
        } else {
            after
        };
        let before = if is_chained {
            change.adds[place - 1].before
        } else {
            before
        };
        let add = author.new_line((after, before));
        change.adds.push(add);
    }
    for _ in 0..author.random.below(3) {
        change.kills.extend(author.line_of(&book, sheet));
    }
    if author.random.chance(10) {
        // Waits for what the plant makes next.
        let add = author.new_line((book.next_name().line(0), Line::END));
        change.adds.push(add);
    }
    change.needs = change.sources();
    if author.random.chance(50) {
        spoil(author, &mut change);
    }
    tidy(&mut change);
    author.known.push(change.clone());
    change
}

fn forged_name(author: &mut Author, book: &Book) -> Name {
    match author.random.weighted(&[50, 20, 28, 2]) {
        0 => Name::of(
            author.random.below(16) as u8,
            author.random.between(1, 40) as u32,
        ),
        1 => author.name_of_any(),
        2 => book.next_name(),
        _ => Name::of(
            author.plant(),
            HIGHEST_COUNT - author.random.below(2) as u32,
        ),
    }
}

/// Does one thing to a change that may make it unfit.
fn spoil(author: &mut Author, change: &mut Change) {
    match author.random.below(10) {
        0 => {
            change.needs.pop();
        }
        1 | 2 => change.needs.push(author.name_of_any()),
        3 => change.needs.push(change.name),
        4 => {
            for add in &mut change.adds {
                (add.after, add.before) = (add.before, add.after);
            }
        }
        5 => change.kills.push(Line(author.random.below(2) as u64)),
        6 => change.kills.push(change.name.line(0)),
        7 => change.sheet = author.sheet(),
        8 => {
            let place = author.random.below(4);
            if let Some(add) = change.adds.last_mut() {
                add.after = change.name.line(place);
            }
        }
        _ => change.kills.push(author.line_of_any()),
    }
}

/// Puts needs and kills into rising order, once each, and within their limits.
fn tidy(change: &mut Change) {
    let needs: BTreeSet<Name> = change
        .needs
        .drain(..)
        .filter(|need| need.is_right())
        .collect();
    change.needs = needs.into_iter().take(MOST_NEEDS).collect();
    let kills: BTreeSet<Line> = change.kills.drain(..).collect();
    change.kills = kills.into_iter().collect();
}

/// Some known changes, in no order.
pub fn some_known(author: &mut Author) -> Vec<Change> {
    let mut changes = author.known.clone();
    author.random.shuffle(&mut changes);
    changes.truncate(author.random.below(9));
    if author.random.chance(60) {
        changes.sort_by_key(|change| change.name);
    }
    changes
}

/// A change that breaks one rule of its form, alone or in a letter.
fn malformed(author: &mut Author) -> Vec<u8> {
    let plant = author.plant();
    let mut change = forge(author, plant);
    match author.random.below(5) {
        0 => change.needs.extend(change.needs.last().copied()),
        1 => change.kills.extend(change.kills.last().copied()),
        2 => change.needs.push(wrong_name(author)),
        3 => change.name = wrong_name(author),
        _ => {
            let long = "=".repeat(121);
            let texts = ["<<", ">>", "\u{1f}", "\u{7f}", "\u{e9}", "\n", &long];
            let text = author.random.pick(&texts).unwrap_or("").to_string();
            change.adds.push(Add {
                after: Line::START,
                before: Line::END,
                text,
            });
        }
    }
    if author.random.chance(60) {
        return change_bytes(&change);
    }
    let mut letter = some_known(author);
    letter.push(change);
    letter_bytes(&letter)
}

/// A number just outside of the names.
fn wrong_name(author: &mut Author) -> Name {
    let wrong = [0, 15, 16 * HIGHEST_COUNT + 16, u32::MAX];
    Name(author.random.pick(&wrong).unwrap_or(0))
}

/// A change or a letter with one thing done to its bytes.
pub fn damaged(author: &mut Author) -> Vec<u8> {
    if author.random.chance(40) {
        return malformed(author);
    }
    let mut bytes = match author.random.pick(&author.known) {
        Some(change) if author.random.chance(60) => change_bytes(&change),
        _ => letter_bytes(&some_known(author)),
    };
    damage(author, &mut bytes);
    bytes
}

fn damage(author: &mut Author, bytes: &mut Vec<u8>) {
    let place = author.random.below(bytes.len());
    match author.random.below(7) {
        0 => bytes.truncate(place),
        1 => bytes.push(author.random.below(256) as u8),
        2 => bytes[place] = author.random.below(256) as u8,
        3 => bytes[place] = bytes[place].wrapping_add(1),
        4 => bytes[place] = bytes[place].wrapping_sub(1),
        5 => bytes[0] = author.random.below(6) as u8,
        _ => {
            bytes.remove(place);
        }
    }
}

/// A list of names: what some book has, a part of it, others besides, or one that is none.
pub fn list_of_names(author: &mut Author) -> Vec<u8> {
    let plant = author.plant();
    let mut names = author.book(plant).names();
    match author.random.weighted(&[40, 20, 15, 5, 5, 5, 10]) {
        0 => {}
        1 => names.retain(|_| author.random.chance(60)),
        2 => {
            names.extend((0..3).map(|_| author.name_of_any()));
            names.push(Name::of(9, author.random.between(1, 99) as u32));
            names.sort();
            names.dedup();
        }
        3 => names.reverse(),
        4 => names.push(wrong_name(author)),
        5 => names.extend(names.last().copied()),
        _ => {
            let mut bytes = names_bytes(&names);
            damage(author, &mut bytes);
            return bytes;
        }
    }
    names_bytes(&names)
}
