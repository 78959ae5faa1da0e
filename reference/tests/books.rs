//! Rules of books and scripts that the worked cases don't reach.

use reference::book::{Book, Outcome, Request};
use reference::bytes::{change_bytes, read_change};
use reference::change::{Add, Change, Line, Name, Refusal};
use reference::rehearsal::play;

fn empty_change(name: u32, needs: &[u32]) -> Change {
    Change {
        name: Name(name),
        sheet: 0,
        needs: needs.iter().map(|&need| Name(need)).collect(),
        adds: vec![],
        kills: vec![],
    }
}

fn add(after: u64, before: u64) -> Add {
    Add {
        after: Line(after),
        before: Line(before),
        text: "x".to_string(),
    }
}

fn refusal_to_make(book: &Book, adds: Vec<Add>, kills: &[u64]) -> Option<u8> {
    let request = Request {
        sheet: 0,
        adds,
        kills: kills.iter().map(|&kill| Line(kill)).collect(),
    };
    book.clone().make(&request).err().map(Refusal::number)
}

#[test]
fn what_waits_comes_lowest_name_first() {
    let mut book = Book::new(0);
    for name in [51, 50, 49] {
        assert_eq!(
            book.take(empty_change(name, &[16])),
            [Outcome::Waits(Name(name))]
        );
    }
    let mut unrelated = empty_change(20, &[50]);
    unrelated.kills = vec![Line::START];
    book.take(unrelated);
    let came = [
        Outcome::Taken(Name(16)),
        Outcome::Taken(Name(49)),
        Outcome::Taken(Name(50)),
        Outcome::Refused(Refusal::Unrelated, Name(20)),
        Outcome::Taken(Name(51)),
    ];
    assert_eq!(book.take(empty_change(16, &[])), came);
    assert!(book.waiting().is_empty());
}

#[test]
fn what_waits_is_known_and_counts() {
    let mut book = Book::new(0);
    book.take(empty_change(16 * 7, &[17]));
    let known = Outcome::Refused(Refusal::Known, Name(16 * 7));
    assert_eq!(book.take(empty_change(16 * 7, &[])), [known]);
    assert_eq!(book.next_name(), Name(16 * 8));
}

#[test]
fn at_most_64_wait() {
    let mut book = Book::new(0);
    for count in 1..=64 {
        book.take(empty_change(16 * count + 1, &[16]));
    }
    let full = Outcome::Refused(Refusal::Full, Name(16 * 65 + 1));
    assert_eq!(book.take(empty_change(16 * 65 + 1, &[16])), [full]);
    assert_eq!(book.take(empty_change(16, &[])).len(), 65);
}

#[test]
fn a_name_is_never_given_twice() {
    let mut book = Book::new(3);
    book.make(&Request::default()).unwrap();
    book.take_back(Name(19)).unwrap();
    assert_eq!(book.next_name(), Name(35));
}

#[test]
fn the_last_count() {
    let mut book = Book::new(2);
    book.take(empty_change(4_194_302 * 16 + 2, &[]));
    assert_eq!(refusal_to_make(&book, vec![], &[]), None);
    book.make(&Request::default()).unwrap();
    assert_eq!(refusal_to_make(&book, vec![], &[]), Some(8));
    assert_eq!(
        refusal_to_make(&book, vec![add(0, 1), add(4_294_967_295, 1)], &[]),
        Some(7)
    );
    assert_eq!(refusal_to_make(&book, vec![add(1, 0)], &[]), Some(4));
}

#[test]
fn the_lowest_number_wins_when_making() {
    let mut book = Book::new(0);
    let other_sheet = Request {
        sheet: 1,
        adds: vec![add(0, 1)],
        kills: vec![],
    };
    book.make(&other_sheet).unwrap();
    assert_eq!(
        refusal_to_make(&book, vec![add(1, 0), add(5, 1024)], &[]),
        Some(3)
    );
    assert_eq!(
        refusal_to_make(&book, vec![add(1, 0), add(5, 1)], &[]),
        Some(4)
    );
    assert_eq!(refusal_to_make(&book, vec![add(5, 1)], &[]), Some(7));
    assert_eq!(refusal_to_make(&book, vec![], &[0]), Some(3));
    assert_eq!(refusal_to_make(&book, vec![add(0, 1)], &[2048]), Some(7));
    assert_eq!(
        refusal_to_make(&book, vec![add(2049, 1), add(0, 1)], &[]),
        Some(7)
    );
}

#[test]
fn order_is_asked_where_both_lines_are_known() {
    let book = Book::new(0);
    // Nothing is asked of an add with an unknown line, but its own line is known to those behind.
    assert_eq!(refusal_to_make(&book, vec![add(5, 1)], &[]), Some(7));
    assert_eq!(
        refusal_to_make(&book, vec![add(5, 1), add(1, 1024)], &[]),
        Some(4)
    );
    assert_eq!(
        refusal_to_make(&book, vec![add(5, 1), add(1024, 1)], &[]),
        Some(7)
    );
    assert_eq!(
        refusal_to_make(&book, vec![add(0, 1), add(1, 1024)], &[]),
        Some(4)
    );
}

#[test]
fn order_is_asked_of_every_add() {
    let book = Book::new(0);
    let mut adds = vec![add(0, 1); 64];
    assert_eq!(refusal_to_make(&book, adds.clone(), &[]), None);
    adds.push(add(0, 1));
    assert_eq!(refusal_to_make(&book, adds.clone(), &[]), Some(5));
    adds[64] = add(1, 0);
    assert_eq!(refusal_to_make(&book, adds, &[]), Some(4));
}

#[test]
fn needs_are_told_by_the_numbers_alone() {
    let book = Book::new(0);
    let kills: Vec<u64> = (1..=33).map(|name| name * 64 + 9).collect();
    // Name 16 is the new change's own, and no need.
    assert_eq!(refusal_to_make(&book, vec![], &kills), Some(7));
    let kills: Vec<u64> = (1..=34).map(|name| name * 64 + 9).collect();
    assert_eq!(refusal_to_make(&book, vec![], &kills), Some(5));
}

#[test]
fn a_letter_goes_by_needs_and_then_by_name() {
    let mut book = Book::new(0);
    for change in [
        empty_change(48, &[]),
        empty_change(16, &[48]),
        empty_change(32, &[]),
        empty_change(17, &[16]),
    ] {
        book.take(change);
    }
    let names = |given: &[Name]| -> Vec<u32> {
        book.letter_for(given)
            .iter()
            .map(|change| change.name.0)
            .collect()
    };
    assert_eq!(names(&[]), [32, 48, 16, 17]);
    assert_eq!(names(&[Name(48)]), [16, 17, 32]);
}

#[test]
fn reading_a_change_is_exact() {
    let mut change = empty_change(16, &[17, 18]);
    change.adds.push(add(0, 1));
    change.kills = vec![Line(1024), Line(1025)];
    let bytes = change_bytes(&change);
    assert_eq!(read_change(&bytes), Some(change));
    for length in 0..bytes.len() {
        assert_eq!(read_change(&bytes[..length]), None);
    }
    assert_eq!(read_change(&[&bytes[..], &[0]].concat()), None);
    let mut twice = bytes;
    twice[14] = 17; // the second need as the first
    assert_eq!(read_change(&twice), None);
}

#[test]
fn script_lines_that_are_none() {
    for line in [
        "",
        " ",
        "show",
        "0",
        "0 ",
        "0  show",
        "0 show ",
        "16 show",
        "00 show",
        "+1 show",
        "0 sheet 256",
        "0 sheet 01",
        "0 sheet",
        "0 kill",
        "0 kill -1",
        "0 kill 4294967296",
        "0 add 0",
        "0 add 0 ",
        "0 add 0 1 <<",
        "0 add 0 1 >>",
        "0 add 0 1 a\tb",
        "0 take",
        "0 take ",
        "0 take 0",
        "0 take 0g",
        "0 take 01",
        "0 take 03000000",
        "0 send",
        "0 send 030001",
        "0 send 0300010000000f",
        "0 send 03000104000000",
        "pass 0",
        "pass 0 16",
        "pass  0 1",
        "pass 0 1 ",
        "0 pass 0 1",
        "0 make 1",
    ] {
        let script = format!("{line}\n");
        assert_eq!(play(script.as_bytes()), ["refused 1"], "{line}");
    }
}

#[test]
fn at_most_four_plants() {
    let script =
        "0 show\n1 show\n2 show\nx\n9 take\n8 add 0\npass 3 4\npass 3 3\n4 show\npass 0 4\n";
    assert_eq!(play(script.as_bytes()), vec!["refused 1"; 6]);
}

#[test]
fn a_refused_make_keeps_adds_and_kills_and_sheet_drops_them() {
    let script = "0 add 0 1 a\n0 kill 5\n0 make\n0 make\n0 sheet 0\n0 make\n0 add 0 1\n0 add 0 1 \n0 make\n0 make";
    let expected = [
        "refused 7",
        "refused 7",
        "made 16",
        "made 32 2048 2049",
        "made 48",
    ];
    assert_eq!(play(script.as_bytes()), expected);
}
