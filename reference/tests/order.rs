//! Self-checks on all small sheets: every way to put four lines in, one after the other.

use reference::change::{Add, Change, Line, Name};
use reference::order::Order;
use reference::sheet::{blocks, shown};
use std::collections::BTreeSet;

/// A change with one add.
fn one_line(count: u32, after: Line, before: Line) -> Change {
    let add = Add {
        after,
        before,
        text: count.to_string(),
    };
    Change {
        name: Name::of(0, count),
        sheet: 0,
        needs: vec![],
        adds: vec![add],
        kills: vec![],
    }
}

fn all_lines(changes: &[Change]) -> Vec<Line> {
    let added = changes.iter().map(|change| change.name.line(0));
    [Line::START, Line::END].into_iter().chain(added).collect()
}

/// All sets of so many lines, each put between two that stand in order.
fn all_sheets(size: u32) -> Vec<Vec<Change>> {
    if size == 0 {
        return vec![vec![]];
    }
    let mut sheets = Vec::new();
    for smaller in all_sheets(size - 1) {
        let order = Order::of(&smaller);
        let lines = all_lines(&smaller);
        for &after in &lines {
            for &before in lines
                .iter()
                .filter(|&&before| order.stands_before(after, before))
            {
                sheets.push([&smaller[..], &[one_line(size, after, before)]].concat());
            }
        }
    }
    sheets
}

/// The same order by recursion on the lines in the order in which they came.
fn before_by_recursion(changes: &[Change], u: Line, v: Line) -> bool {
    let Some((last, rest)) = changes.split_last() else {
        return u == Line::START && v == Line::END;
    };
    let (x, add) = last.new_lines().next().unwrap();
    let before = |u, v| before_by_recursion(rest, u, v);
    match (u == x, v == x) {
        (true, true) => false,
        (true, false) => v == add.before || before(add.before, v),
        (false, true) => u == add.after || before(u, add.after),
        (false, false) => before(u, v),
    }
}

#[test]
fn the_closure_is_a_strict_order_from_start_to_end() {
    for changes in all_sheets(4) {
        let order = Order::of(&changes);
        let lines = all_lines(&changes);
        let before = |u: Line, v: Line| order.stands_before(u, v);
        for &u in &lines {
            assert!(!before(u, u));
            assert!(u == Line::START || before(Line::START, u));
            assert!(u == Line::END || before(u, Line::END));
            for &v in &lines {
                let through = lines.iter().any(|&w| before(u, w) && before(w, v));
                assert!(!through || before(u, v));
                assert_eq!(before(u, v), before_by_recursion(&changes, u, v));
            }
        }
    }
}

#[test]
fn the_order_of_coming_is_of_no_account() {
    for changes in all_sheets(3) {
        let mut turned = changes.clone();
        turned.reverse();
        assert_eq!(shown(&changes, 0), shown(&turned, 0));
    }
}

/// Blocks by the words of the rule: wholly before the next, and not to be cut in two.
#[test]
fn blocks_stand_apart_and_hold_together() {
    for changes in all_sheets(4) {
        for killed in 0..5 {
            let mut changes = changes.clone();
            changes[0].kills = (killed > 0)
                .then(|| Name::of(0, killed).line(0))
                .into_iter()
                .collect();
            let order = Order::of(&changes);
            let blocks = blocks(&changes, 0);
            for (place, upper) in blocks.iter().enumerate() {
                let below: Vec<Line> = blocks[place + 1..].concat();
                assert!(upper
                    .iter()
                    .all(|&u| below.iter().all(|&v| order.stands_before(u, v))));
                assert!(!can_be_cut(&order, upper));
                assert!(is_lowest_first(&order, upper));
            }
            let shown: BTreeSet<Line> = blocks.concat().into_iter().collect();
            assert_eq!(shown.len(), blocks.concat().len());
            assert_eq!(shown.len(), if killed > 0 { 3 } else { 4 });
        }
    }
}

/// Can the lines be parted into two that have no loose pair between them.
fn can_be_cut(order: &Order, block: &[Line]) -> bool {
    (1..(1 << block.len()) - 1).any(|part: usize| {
        let is_in = |place: usize| part >> place & 1 == 1;
        (0..block.len()).filter(|&u| is_in(u)).all(|u| {
            (0..block.len()).filter(|&v| !is_in(v)).all(|v| {
                order.stands_before(block[u], block[v]) || order.stands_before(block[v], block[u])
            })
        })
    })
}

fn is_lowest_first(order: &Order, block: &[Line]) -> bool {
    (0..block.len()).all(|place| {
        let rest = &block[place..];
        let is_free = |&&line: &&Line| !rest.iter().any(|&other| order.stands_before(other, line));
        rest.iter().filter(is_free).min() == rest.first()
    })
}
