//! Blocks of loose lines, and how a sheet is shown.

use crate::change::{Change, Line, Sheet};
use crate::order::Order;
use std::collections::{BTreeMap, BTreeSet, HashMap, HashSet};

/// A line of a sheet, alive or dead.
#[derive(Clone, PartialEq, Eq, Debug)]
pub struct SheetLine {
    pub text: String,
    pub is_alive: bool,
}

/// All lines of a sheet that some changes bring, by rising number.
pub fn lines(changes: &[Change], sheet: Sheet) -> BTreeMap<Line, SheetLine> {
    let killed: HashSet<Line> = changes
        .iter()
        .flat_map(|change| change.kills.clone())
        .collect();
    changes
        .iter()
        .filter(|change| change.sheet == sheet)
        .flat_map(Change::new_lines)
        .map(|(line, add)| {
            (
                line,
                SheetLine {
                    text: add.text.clone(),
                    is_alive: !killed.contains(&line),
                },
            )
        })
        .collect()
}

/// The sheet as it is shown, without the ends of the lines.
pub fn shown(changes: &[Change], sheet: Sheet) -> Vec<String> {
    let lines = lines(changes, sheet);
    let mut shown = Vec::new();
    for block in blocks(changes, sheet) {
        match block[..] {
            [line] => shown.push(lines[&line].text.clone()),
            _ => {
                shown.push("<<".to_string());
                shown.extend(
                    block
                        .iter()
                        .map(|line| format!("{} {}", line.0, lines[line].text)),
                );
                shown.push(">>".to_string());
            }
        }
    }
    shown
}

/// The blocks of a sheet from top to bottom, each with its lines in the order in which they are
/// shown.
pub fn blocks(changes: &[Change], sheet: Sheet) -> Vec<Vec<Line>> {
    let living: BTreeSet<Line> = lines(changes, sheet)
        .into_iter()
        .filter(|(_, line)| line.is_alive)
        .map(|(number, _)| number)
        .collect();
    let order = Living::of(changes, &living);
    let mut unplaced = living;
    let mut blocks = Vec::new();
    while let Some(&line) = unplaced.first() {
        let block = order.block_of(line, &unplaced);
        unplaced.retain(|line| !block.contains(line));
        blocks.push(block);
    }
    // Lines of different blocks are never loose, so any line of a block tells where the block stands.
    blocks.sort_by(|upper, lower| {
        let (upper, lower) = (*upper.first().unwrap(), *lower.first().unwrap());
        order
            .stands_before(lower, upper)
            .cmp(&order.stands_before(upper, lower))
    });
    blocks.into_iter().map(|block| order.walk(block)).collect()
}

/// The order among the living lines of a sheet, worked out once for showing it.
struct Living {
    behind: HashMap<Line, HashSet<Line>>,
}

impl Living {
    fn of(changes: &[Change], living: &BTreeSet<Line>) -> Living {
        let order = Order::of(changes);
        Living {
            behind: living
                .iter()
                .map(|&line| (line, order.all_behind(line)))
                .collect(),
        }
    }

    fn stands_before(&self, first: Line, second: Line) -> bool {
        self.behind[&first].contains(&second)
    }

    fn are_loose(&self, one: Line, other: Line) -> bool {
        one != other && !self.stands_before(one, other) && !self.stands_before(other, one)
    }

    /// A line with all of these lines that are joined to it through loose pairs.
    fn block_of(&self, line: Line, lines: &BTreeSet<Line>) -> BTreeSet<Line> {
        let mut block = BTreeSet::from([line]);
        let mut open = vec![line];
        while let Some(joined) = open.pop() {
            let loose = lines.iter().filter(|&&other| self.are_loose(joined, other));
            open.extend(loose.filter(|&&other| block.insert(other)));
        }
        block
    }

    /// The lines of a block, each time the lowest of which no line still to be shown stands before.
    fn walk(&self, mut block: BTreeSet<Line>) -> Vec<Line> {
        let mut walk = Vec::new();
        while let Some(&next) = block
            .iter()
            .find(|&&line| !block.iter().any(|&other| self.stands_before(other, line)))
        {
            block.remove(&next);
            walk.push(next);
        }
        walk
    }
}
