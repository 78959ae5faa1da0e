//! Scripts that go to the limits of books and changes, and one step further.

use super::author::Author;
use crate::bytes::{hex, names_bytes};
use crate::change::{Add, Change, Line, Name, Plant, Sheet, HIGHEST_COUNT};

const LIMITS: [fn(&mut Author); 9] = [
    waiting, needs, adds, kills, changes, lines, counts, long_lists, plants,
];

pub fn write(author: &mut Author, number: u64) {
    LIMITS[number as usize % LIMITS.len()](author);
    let plant = author.plants[0];
    for command in ["show", "lines", "have", "send 030000"] {
        author.tell(plant, command);
    }
}

fn empty(name: Name, sheet: Sheet) -> Change {
    Change {
        name,
        sheet,
        needs: vec![],
        adds: vec![],
        kills: vec![],
    }
}

/// A change with so many lines between start and end.
fn with_lines(name: Name, sheet: Sheet, lines: usize) -> Change {
    let add = Add {
        after: Line::START,
        before: Line::END,
        text: name.0.to_string(),
    };
    Change {
        adds: vec![add; lines],
        ..empty(name, sheet)
    }
}

/// A change with so many lines between end and start.
fn out_of_order(name: Name, lines: usize) -> Change {
    let mut change = with_lines(name, 0, lines);
    for add in &mut change.adds {
        (add.after, add.before) = (add.before, add.after);
    }
    change
}

/// Names of plants that have no book in the script.
fn stranger(number: usize) -> Name {
    Name::of(8 + (number % 8) as Plant, 1 + (number / 8) as u32)
}

/// Plants 0 to 3, so that no stranger has a book.
fn plants_apart_from_strangers(author: &mut Author) -> Plant {
    author.plants = vec![0, 1, 2, 3];
    0
}

/// 64 changes wait, and a 65th; then what they wait for comes.
fn waiting(author: &mut Author) {
    let plant = plants_apart_from_strangers(author);
    let need = with_lines(Name::of(1, author.random.between(1, 9) as u32), 0, 2);
    let mut waiting: Vec<Change> = (0..67)
        .map(|number| waiting_change(author, number, &need))
        .collect();
    author.random.shuffle(&mut waiting);
    author.take_letter(plant, &waiting[..60]);
    for change in &waiting[60..] {
        author.take_change(plant, change);
    }
    author.take_change(plant, &waiting[3]);
    author.make(plant);
    author.tell(plant, "have");
    author.take_change(plant, &need);
    author.take_letter(plant, &waiting);
    author.make(plant);
}

/// Waits for the need, or for another that waits for it; some will be turned away then.
fn waiting_change(author: &mut Author, number: usize, need: &Change) -> Change {
    let name = match number % 9 {
        0 => Name::of(0, 1 + number as u32),
        _ => stranger(number),
    };
    let gap = match author.random.weighted(&[60, 30, 10]) {
        0 => (need.name.line(0), Line::END),
        1 => (Line::START, need.name.line(1)),
        _ => (need.name.line(0), need.name.line(1)),
    };
    let mut change = empty(name, 0);
    change.needs = vec![need.name];
    let add = author.new_line(gap);
    change.adds.push(add);
    match author.random.below(12) {
        0 => change.kills.push(Line::END),
        1 => change.kills.push(need.name.line(0)),
        2 if number > 0 => {
            change.needs.push(stranger(author.random.below(number)));
            change.needs.sort();
            change.needs.dedup();
        }
        3 => change.sheet = 1,
        _ => {}
    }
    change
}

/// Lines of 32 changes are named, and of 33.
fn needs(author: &mut Author) {
    let plant = plants_apart_from_strangers(author);
    let sources: Vec<Change> = (0..34)
        .map(|number| with_lines(stranger(number), 0, 1))
        .collect();
    let other_sheet = with_lines(stranger(40), 1, 1);
    author.take_letter(plant, &sources);
    author.take_change(plant, &other_sheet);
    let line = |number: usize| sources[number].name.line(0);
    for last in [33, 32] {
        author.tell(plant, "sheet 0");
        (0..last).for_each(|number| author.kill(plant, line(number)));
        let own = author.book(plant).next_name().line(0);
        author.add(plant, (line(0), Line::END), "with needs");
        author.add(plant, (own, Line::END), "behind it");
        author.make(plant);
    }
    // One more that isn't there, one of another sheet, one out of order.
    for extra in [stranger(90).line(0), other_sheet.name.line(0), line(33)] {
        author.tell(plant, "sheet 0");
        (0..32).for_each(|number| author.kill(plant, line(number)));
        author.add(plant, (extra, Line::END), "one more");
        author.make(plant);
        author.add(plant, (Line::END, line(1)), "out of order");
        author.make(plant);
    }
    for count in [32, 33] {
        let mut names: Vec<Name> = sources[..count].iter().map(|source| source.name).collect();
        names.sort();
        let change = Change {
            needs: names,
            ..empty(stranger(50 + count), 0)
        };
        author.take_change(plant, &change);
    }
}

/// 64 adds, and 65; what is out of order in the 65th is told before that it is one too many.
fn adds(author: &mut Author) {
    let plant = author.plants[0];
    let mut last = Line::START;
    for place in 0..64 {
        let own = author.book(plant).next_name().line(place);
        let text = author.text();
        let after = if author.random.chance(50) {
            last
        } else {
            Line::START
        };
        author.add(plant, (after, Line::END), &text);
        last = own;
    }
    author.make(plant);
    for (count, out_of_order) in [(65, 64), (65, 63), (64, 63), (65, 65), (64, 64)] {
        author.tell(plant, "sheet 0");
        for place in 0..count {
            let is_out = place == out_of_order;
            let gap = if is_out {
                (Line::END, Line::START)
            } else {
                (Line::START, Line::END)
            };
            author.add(plant, gap, "loose");
        }
        if author.random.chance(30) {
            let odd = author.odd_line();
            author.kill(plant, odd);
        }
        author.make(plant);
    }
    for count in [64, 65] {
        let change = with_lines(stranger(count), 0, count);
        author.take_change(plant, &change);
    }
}

/// 64 kills, and 65; doubles are dropped first.
fn kills(author: &mut Author) {
    let plant = plants_apart_from_strangers(author);
    let sources: Vec<Change> = (0..3)
        .map(|number| with_lines(stranger(number), 0, 25))
        .collect();
    author.take_letter(plant, &sources);
    let mut lines: Vec<Line> = sources
        .iter()
        .flat_map(|source| (0..25).map(|place| source.name.line(place)))
        .collect();
    author.random.shuffle(&mut lines);
    for count in [65, 64] {
        author.tell(plant, "sheet 0");
        for &line in lines[..count].iter().chain(&lines[..4]) {
            author.kill(plant, line);
        }
        author.make(plant);
    }
    author.tell(plant, "show");
    for count in [64, 65] {
        let mut killed = lines[..count].to_vec();
        killed.sort();
        let mut needs: Vec<Name> = sources.iter().map(|source| source.name).collect();
        needs.sort();
        let change = Change {
            kills: killed,
            needs,
            ..empty(stranger(60 + count), 0)
        };
        author.take_change(plant, &change);
    }
}

/// 1,024 changes, and 1,025; what waits is turned away when its turn comes.
fn changes(author: &mut Author) {
    let plant = plants_apart_from_strangers(author);
    let late = empty(stranger(2000), 0);
    let waiting = Change {
        needs: vec![late.name],
        ..empty(stranger(2001), 0)
    };
    let unrelated = Change {
        kills: vec![Line::START],
        ..empty(stranger(2002), 0)
    };
    author.take_change(plant, &waiting);
    let count = author.random.between(1021, 1022);
    let letter: Vec<Change> = (0..count)
        .map(|number| empty(stranger(number), 0))
        .collect();
    author.take_letter(plant, &letter);
    author.make(plant);
    author.take_change(plant, &late);
    author.make(plant);
    author.take_change(plant, &waiting);
    author.take_change(plant, &unrelated);
    author.take_change(plant, &out_of_order(stranger(2004), 1));
    author.take_change(plant, &letter[5]);
    let missing = Change {
        needs: vec![stranger(3000)],
        ..empty(stranger(2003), 0)
    };
    author.take_change(plant, &missing);
    author.kill(plant, Line(2));
    author.make(plant);
    author.tell(plant, "sheet 0");
    author.tell(plant, &format!("back {}", letter[7].name.0));
    author.make(plant);
    author.pass(plant, 1);
    author.pass(1, plant);
    author.tell(1, "make");
}

/// 2,048 lines, and 2,049.
fn lines(author: &mut Author) {
    let plant = plants_apart_from_strangers(author);
    let sheets = author.random.pick(&[1, 4, 16]).unwrap_or(1);
    let mut letter: Vec<Change> = (0..31)
        .map(|number| with_lines(stranger(number), (number % sheets) as Sheet, 64))
        .collect();
    letter.push(with_lines(stranger(31), 0, 63));
    if author.random.chance(50) {
        letter.iter_mut().for_each(chain);
    }
    author.take_letter(plant, &letter);
    let two_more = with_lines(stranger(70), 0, 2);
    author.take_change(plant, &two_more);
    author.take_change(plant, &out_of_order(stranger(71), 2));
    for text in ["first", "second"] {
        author.add(plant, (Line::START, Line::END), text);
    }
    author.make(plant);
    author.kill(plant, Line(5));
    author.make(plant);
    author.add(plant, (Line::END, Line::START), "out of order");
    author.make(plant);
    author.tell(plant, "sheet 0");
    author.kill(plant, letter[31].name.line(0));
    author.make(plant);
    author.add(plant, (Line::START, Line::END), "the last");
    author.make(plant);
    author.add(plant, (Line::START, Line::END), "one too many");
    author.make(plant);
    author.tell(plant, "sheet 0");
    author.make(plant);
    author.take_change(plant, &two_more);
    author.tell(plant, &format!("back {}", letter[3].name.0));
    author.take_change(plant, &two_more);
}

/// Puts each line of a change behind the one before.
fn chain(change: &mut Change) {
    for place in 1..change.adds.len() {
        change.adds[place].after = change.name.line(place - 1);
    }
}

/// The plant's last count, taken or waiting.
fn counts(author: &mut Author) {
    let plant = author.plants[0];
    let other = author.plants[1];
    let last = Name::of(plant, HIGHEST_COUNT - author.random.below(2) as u32);
    let need = with_lines(Name::of(other, 1), 0, 1);
    let mut high = with_lines(last, 0, 1);
    if author.random.chance(50) {
        high.needs = vec![need.name];
        high.kills = if author.random.chance(50) {
            vec![Line::START]
        } else {
            vec![need.name.line(0)]
        };
    }
    author.make(plant);
    author.take_change(plant, &high);
    for _ in 0..2 {
        author.make(plant);
    }
    author.add(plant, (last.line(0), Line::END), "behind the last");
    author.make(plant);
    author.add(plant, (Line(u64::from(u32::MAX)), Line::END), "behind none");
    author.make(plant);
    author.add(plant, (Line::END, Line::START), "out of order");
    author.make(plant);
    author.tell(plant, "sheet 0");
    author.take_change(plant, &need);
    author.make(plant);
    author.tell(plant, &format!("back {}", last.0));
    author.make(plant);
    author.pass(plant, other);
    author.make(other);
    // A name past the last is none.
    let past = empty(Name::of(plant, HIGHEST_COUNT + 1), 0);
    author.take_change(plant, &past);
    author.take_change(plant, &empty(Name(15), 0));
}

/// Letters and lists of names with 1,024 entries, and 1,025.
fn long_lists(author: &mut Author) {
    let plant = plants_apart_from_strangers(author);
    author.take_change(plant, &with_lines(stranger(3), 0, 2));
    for count in [1025, 1024] {
        let mut names: Vec<Name> = (1..=count).map(stranger).collect();
        names.sort();
        author.tell(plant, &format!("send {}", hex(&names_bytes(&names))));
        let letter: Vec<Change> = names.iter().map(|&name| empty(name, 0)).collect();
        author.take_letter(plant, &letter);
    }
    author.tell(plant, "have");
}

/// Four plants, and a fifth; what is no command brings none.
fn plants(author: &mut Author) {
    let mut plants: Vec<Plant> = (0..16).collect();
    author.random.shuffle(&mut plants);
    author.plants = plants[..4].to_vec();
    let [a, b, c, d, e] = [plants[1], plants[2], plants[3], plants[4], plants[5]];
    author.make(plants[0]);
    if author.random.chance(50) {
        // One place is left: two new plants at once bring neither.
        author.make(a);
        author.pass(a, b);
        author.pass(c, d);
        author.pass(d, d);
    }
    let mut lines = vec![
        "16 have".to_string(),
        format!("{a} make"),
        format!("{b} show"),
        format!("{b} take 0"),
        format!("{c} take 03"),
        format!("{c} add 0 1 <<"),
        format!("{d} back 16"),
        format!("{d} kill 01"),
        format!("{e} sheet 3"),
        format!("{e} make now"),
        format!("pass {a} {b}"),
        format!("pass {c} {d}"),
        format!("pass {d} {d}"),
        format!("pass {} {e}", plants[0]),
        format!("pass {e} 16"),
    ];
    author.random.shuffle(&mut lines);
    for line in lines {
        author.say(line.as_bytes());
    }
    for &plant in &plants[..6] {
        author.tell(plant, "have");
    }
}
