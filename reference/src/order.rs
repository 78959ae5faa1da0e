//! Which line stands before which, by the plain definition.

use crate::change::{Change, Line};
use std::collections::{HashMap, HashSet};

/// The order that some adds make: the start stands before the end, each added line behind the
/// first and before the second of the two that it was put between, and what follows from these
/// from one to the next.
pub struct Order {
    /// For each line those that are said to stand behind it, without what follows.
    said: HashMap<Line, Vec<Line>>,
}

impl Order {
    pub fn of(changes: &[Change]) -> Order {
        let mut order = Order {
            said: HashMap::from([(Line::START, vec![Line::END])]),
        };
        for (line, add) in changes.iter().flat_map(Change::new_lines) {
            order.put(line, add.after, add.before);
        }
        order
    }

    /// Puts a line between two others.
    pub fn put(&mut self, line: Line, after: Line, before: Line) {
        self.said.entry(after).or_default().push(line);
        self.said.entry(line).or_default().push(before);
    }

    /// All lines that stand behind this one: those that can be reached from it, going from one to
    /// the next.
    pub fn all_behind(&self, line: Line) -> HashSet<Line> {
        let mut reached = HashSet::new();
        let mut open = vec![line];
        while let Some(line) = open.pop() {
            let next = self.said.get(&line).into_iter().flatten();
            open.extend(next.filter(|&&line| reached.insert(line)));
        }
        reached
    }

    pub fn stands_before(&self, first: Line, second: Line) -> bool {
        self.all_behind(first).contains(&second)
    }
}
