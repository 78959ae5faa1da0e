//! Writers at work, with letters that come late, twice, forged or damaged.

use super::author::Author;
use super::forging::{damaged, forge, list_of_names, some_known};
use crate::bytes::hex;
use crate::change::{Line, Plant};

/// How often each action is taken, in the order of [`act`], in one kind of script.
type Habits = [usize; 11];

/// Writers who exchange what they make; letters that come in no order; forgers.
const HABITS: [Habits; 3] = [
    [40, 20, 6, 4, 2, 1, 8, 3, 4, 14, 2],
    [28, 6, 16, 12, 8, 4, 7, 4, 8, 10, 4],
    [20, 8, 10, 6, 30, 8, 6, 2, 4, 10, 6],
];

pub fn write(author: &mut Author) {
    let habits = author.random.pick(&HABITS).unwrap_or(HABITS[0]);
    let length = author.random.between(25, 95);
    begin(author);
    while author.length() < length {
        act(author, &habits);
    }
    finish(author);
}

/// One plant writes a few lines and passes them on, so that the others have something to differ on.
fn begin(author: &mut Author) {
    let first = author.plants[0];
    for place in 0..author.random.below(5) {
        let name = author.book(first).next_name();
        let after = if place == 0 {
            Line::START
        } else {
            name.line(place - 1)
        };
        let text = author.text();
        author.add(first, (after, Line::END), &text);
    }
    author.make(first);
    for &plant in &author.plants.clone()[1..] {
        if author.random.chance(80) {
            author.pass(first, plant);
        }
    }
}

fn act(author: &mut Author, habits: &Habits) {
    let plant = author.plant();
    match author.random.weighted(habits) {
        0 => edit(author, plant),
        1 => {
            let from = author.plant();
            author.pass(from, plant);
        }
        2 => {
            if let Some(change) = author.random.pick(&author.known) {
                author.take_change(plant, &change);
            }
        }
        3 => {
            let changes = some_known(author);
            author.take_letter(plant, &changes);
        }
        4 => {
            let change = forge(author, plant);
            author.take_change(plant, &change);
        }
        5 => {
            let bytes = damaged(author);
            author.take(plant, &bytes);
        }
        6 => take_back(author, plant),
        7 => {
            author.tell(plant, "have");
        }
        8 => post(author, plant),
        9 => look(author, plant),
        _ => say_nonsense(author, plant),
    }
}

fn edit(author: &mut Author, plant: Plant) {
    if author.random.chance(30) {
        let sheet = author.sheet();
        author.tell(plant, &format!("sheet {sheet}"));
    }
    for _ in 0..author.random.weighted(&[15, 50, 20, 10, 5]) {
        let gap = choose_gap(author, plant);
        let text = author.text();
        author.add(plant, gap, &text);
    }
    for _ in 0..author.random.weighted(&[60, 25, 10, 5]) {
        let line = choose_kill(author, plant);
        author.kill(plant, line);
    }
    let is_made = author.make(plant);
    if !is_made && author.random.chance(75) {
        let (sheet, _) = author.place(plant);
        author.tell(plant, &format!("sheet {sheet}"));
    }
}

fn choose_gap(author: &mut Author, plant: Plant) -> (Line, Line) {
    let book = author.book(plant);
    let (sheet, adds) = author.place(plant);
    match author.random.weighted(&[50, 22, 12, 4, 3, 3, 6]) {
        0 => author.gap(&book, sheet),
        1 => author.ordered_pair(&book, sheet),
        2 => {
            // Mostly a line of an earlier add, now and then one that is still to come.
            let is_to_come = adds == 0 || author.random.chance(10);
            let place = if is_to_come {
                adds
            } else {
                author.random.below(adds)
            };
            let own = book.next_name().line(place);
            let (_, before) = author.gap(&book, sheet);
            (own, before)
        }
        3 => {
            let (after, before) = author.ordered_pair(&book, sheet);
            (before, after)
        }
        4 => {
            let sheet = author.sheet();
            author.ordered_pair(&book, sheet)
        }
        5 => (author.line_of_any(), Line::END),
        _ if author.random.chance(50) => (Line::START, author.odd_line()),
        _ => (author.odd_line(), Line::END),
    }
}

fn choose_kill(author: &mut Author, plant: Plant) -> Line {
    let book = author.book(plant);
    let (sheet, _) = author.place(plant);
    let line = match author.random.weighted(&[86, 5, 5, 4]) {
        0 => author.line_of(&book, sheet),
        1 => Some(author.odd_line()),
        2 => Some(author.line_of_any()),
        _ => Some(book.next_name().line(0)),
    };
    line.unwrap_or(Line(1024))
}

/// Takes back the latest change, any, or one that isn't there.
fn take_back(author: &mut Author, plant: Plant) {
    let changes = author.book(plant).changes().to_vec();
    let name = match author.random.weighted(&[45, 40, 15]) {
        0 => changes.last().map(|change| change.name),
        1 => author.random.pick(&changes).map(|change| change.name),
        _ => Some(author.name_of_any()),
    };
    let number = name.map_or(author.random.below(40) as u32, |name| name.0);
    author.tell(plant, &format!("back {number}"));
}

/// Sends a letter, or has one taken that was sent before.
fn post(author: &mut Author, plant: Plant) {
    match author.random.pick(&author.letters) {
        Some(letter) if author.random.chance(50) => {
            author.tell(plant, &format!("take {letter}"));
        }
        _ => {
            let names = list_of_names(author);
            let letter = author
                .tell(plant, &format!("send {}", hex(&names)))
                .remove(0);
            if !letter.starts_with("refused") {
                author.letters.push(letter);
            }
        }
    }
}

fn look(author: &mut Author, plant: Plant) {
    let command = if author.random.chance(75) {
        "show"
    } else {
        "lines"
    };
    author.tell(plant, command);
}

/// A line that is none, or hardly one.
fn say_nonsense(author: &mut Author, plant: Plant) {
    let commands = [
        "",
        " ",
        "show ",
        " show",
        "shows",
        "Show",
        "make 1",
        "make ",
        "have 3",
        "lines  ",
        "sheet",
        "sheet ",
        "sheet 256",
        "sheet 00",
        "sheet -1",
        "sheet 255",
        "sheet 1 ",
        "add",
        "add 0",
        "add 0 ",
        "add 0  1",
        "add 0 1",
        "add 0 1 ",
        "add 00 1 a",
        "add 0 4294967296 a",
        "add 0 1 <<",
        "add 0 1 >>",
        "add 0 1 a\tb",
        "add 0 1 \u{7f}",
        "add 0 1 \u{e9}",
        "add 0 1 a\r",
        "kill",
        "kill ",
        "kill 01",
        "kill 4294967296",
        "kill 1024 1025",
        "back",
        "back ",
        "back 4294967295",
        "back x",
        "back 4294967296",
        "back 016",
        "take",
        "take ",
        "take 0",
        "take 0G",
        "take 01 ",
        "take 03",
        "take 020000",
        "take 020401",
        "take 0200",
        "take 02000000",
        "send",
        "send ",
        "send 03",
        "send 030000",
        "send 03000000",
        "send 0300010000000f",
        "send 03000104000000",
        "send 03000103ffffff",
        "send 020000",
        "pass 0 1",
    ];
    let plants = ["16", "00", "-1", "x", "", "15", "99999999999", "pass"];
    let lines = [
        "",
        " ",
        "pass",
        "pass 0",
        "pass 0 ",
        "pass 16 0",
        "pass 0 0 ",
        "pass 0 x",
        "0",
        "make",
    ];
    match author.random.weighted(&[60, 15, 15, 5, 5]) {
        0 => {
            let command = author.random.pick(&commands).unwrap_or("");
            author.tell(plant, command);
        }
        1 => {
            let plant = author.random.pick(&plants).unwrap_or("");
            author.say(format!("{plant} show").as_bytes());
        }
        2 => {
            let line = author.random.pick(&lines).unwrap_or("");
            author.say(line.as_bytes());
        }
        3 => {
            let text = "=".repeat(121);
            author.tell(plant, &format!("add 0 1 {text}"));
        }
        _ => name_fifth_plant(author, plant),
    }
}

/// A line with a plant that is likely one too many.
fn name_fifth_plant(author: &mut Author, plant: Plant) {
    let other = author.random.below(16);
    match author.random.below(4) {
        0 => author.say(format!("pass {other} {plant}").as_bytes()),
        1 => author.say(format!("pass {plant} {other}").as_bytes()),
        2 => author.say(format!("pass {other} {other}").as_bytes()),
        _ => author.say(format!("{other} make").as_bytes()),
    };
}

/// Everything is passed around, or much of it, and every sheet shown.
fn finish(author: &mut Author) {
    let plants = author.plants.clone();
    let mut pairs: Vec<(Plant, Plant)> = plants
        .iter()
        .flat_map(|&from| plants.iter().map(move |&to| (from, to)))
        .collect();
    pairs.retain(|(from, to)| from != to);
    author.random.shuffle(&mut pairs);
    pairs.truncate(author.random.between(2, 12));
    for (from, to) in pairs {
        author.pass(from, to);
    }
    for plant in plants {
        for sheet in author.sheets.clone() {
            author.tell(plant, &format!("sheet {sheet}"));
            author.tell(plant, "show");
        }
        look(author, plant);
    }
    let plant = author.plant();
    author.tell(plant, "have");
    author.tell(plant, "send 030000");
}
