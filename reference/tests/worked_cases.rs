//! The worked cases, as scripts with what they answer.

use reference::bytes::{change_bytes, hex, letter_bytes};
use reference::change::{Add, Change, Line, Name};
use reference::rehearsal::play;

fn answers(script: &[&str]) -> Vec<String> {
    play(script.join("\n").as_bytes())
}

/// "a" from plant 0; "b" from plant 1 and "c" from plant 2, both behind it, apart from one another.
const CASE_A: [&str; 9] = [
    "0 add 0 1 a",
    "0 make",
    "pass 0 1",
    "pass 0 2",
    "1 add 1024 1 b",
    "1 make",
    "2 add 1024 1 c",
    "2 make",
    "pass 1 0",
];

const CASE_A_ANSWERS: [&str; 6] = [
    "made 16 1024",
    "taken 16",
    "taken 16",
    "made 17 1088",
    "made 18 1152",
    "taken 17",
];

fn assert_after_a(lines: &[&str], expected: &[&str]) {
    let script = [&CASE_A[..], &["pass 2 0"], lines].concat();
    let expected = [&CASE_A_ANSWERS[..], &["taken 18"], expected].concat();
    assert_eq!(answers(&script), expected);
}

#[test]
fn a_two_lines_apart_are_a_block() {
    assert_after_a(&["0 show"], &["a", "<<", "1088 b", "1152 c", ">>"]);
}

#[test]
fn b_a_line_loose_with_two_joins_them() {
    assert_after_a(
        &["0 add 1088 1 d", "0 make", "0 show"],
        &[
            "made 32 2048",
            "a",
            "<<",
            "1088 b",
            "1152 c",
            "2048 d",
            ">>",
        ],
    );
}

#[test]
fn c_settled_by_striking_out_and_adding_again() {
    assert_after_a(
        &[
            "0 add 1088 1 d",
            "0 make",
            "0 kill 1152",
            "0 add 2048 1 c",
            "0 make",
            "0 show",
        ],
        &["made 32 2048", "made 48 3072", "a", "b", "d", "c"],
    );
}

#[test]
fn d_taking_back() {
    assert_after_a(
        &["0 back 16", "0 back 17", "0 show", "0 back 17"],
        &["refused 6 16", "back 17", "a", "c", "refused 6 17"],
    );
}

#[test]
fn e_two_plants_better_one_line() {
    let script = [
        "0 add 0 1 a",
        "0 make",
        "pass 0 1",
        "0 kill 1024",
        "0 add 0 1 a, better",
        "0 make",
        "1 kill 1024",
        "1 add 0 1 a, better still",
        "1 make",
        "pass 1 0",
        "0 show",
        "0 lines",
    ];
    let expected = [
        "made 16 1024",
        "taken 16",
        "made 32 2048",
        "made 17 1088",
        "taken 17",
        "<<",
        "1088 a, better still",
        "2048 a, better",
        ">>",
        "1024 dead a",
        "1088 alive a, better still",
        "2048 alive a, better",
    ];
    assert_eq!(answers(&script), expected);
}

fn change(name: u32, needs: &[u32], after: u64, before: u64, text: &str) -> Change {
    Change {
        name: Name(name),
        sheet: 0,
        needs: needs.iter().map(|&need| Name(need)).collect(),
        adds: vec![Add {
            after: Line(after),
            before: Line(before),
            text: text.to_string(),
        }],
        kills: vec![],
    }
}

fn take(change: &Change) -> String {
    format!("0 take {}", hex(&change_bytes(change)))
}

#[test]
fn f_what_lacks_a_need_waits_for_it() {
    let a = change(16, &[], 0, 1, "a");
    let b = change(17, &[16], 1024, 1, "b");
    let d = change(32, &[17], 1088, 1, "d");
    let script = [
        take(&a),
        take(&d),
        "0 show".to_string(),
        take(&b),
        "0 show".to_string(),
    ];
    let script: Vec<&str> = script.iter().map(String::as_str).collect();
    let expected = [
        "taken 16", "waits 32", "a", "taken 17", "taken 32", "a", "b", "d",
    ];
    assert_eq!(answers(&script), expected);
}

#[test]
fn g_between_two_lines_that_stand_the_other_way() {
    assert_after_a(&["0 add 1088 1024 x", "0 make"], &["refused 4"]);
    let forged = take(&change(33, &[16, 17], 1088, 1024, "x"));
    assert_after_a(&[&forged], &["refused 4 33"]);
}

#[test]
fn bytes_of_a_change_and_of_a_letter() {
    let b = change(17, &[16], 1024, 1, "b");
    let bytes = "01".to_string()
        + "00000011" // name
        + "00" // sheet
        + "01" + "00000010" // needs
        + "01" + "00000400" + "00000001" + "01" + "62" // adds
        + "00"; // kills
    assert_eq!(hex(&change_bytes(&b)), bytes);
    assert_eq!(hex(&letter_bytes(&[b])), "020001".to_string() + &bytes);
}
