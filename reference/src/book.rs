//! A book: a closed set of changes, those that wait, and the plant's count.

use crate::change::{
    Add, Change, Line, Name, Plant, Refusal, Sheet, HIGHEST_COUNT, MOST_ADDS, MOST_KILLS,
    MOST_NEEDS,
};
use crate::order::Order;
use std::collections::{BTreeSet, HashSet};

pub const MOST_CHANGES: usize = 1024;
pub const MOST_LINES: usize = 2048;
pub const MOST_WAITING: usize = 64;

/// What taking a change comes to.
#[derive(Clone, Copy, PartialEq, Eq, Debug)]
pub enum Outcome {
    Taken(Name),
    Waits(Name),
    Refused(Refusal, Name),
}

/// What a writer asks for: the adds and kills of one change.
#[derive(Clone, PartialEq, Eq, Debug, Default)]
pub struct Request {
    pub sheet: Sheet,
    pub adds: Vec<Add>,
    pub kills: Vec<Line>,
}

#[derive(Clone, PartialEq, Eq, Debug)]
pub struct Book {
    plant: Plant,
    changes: Vec<Change>,
    waiting: Vec<Change>,
    /// The highest count of the plant's own changes that ever came in.
    highest_count: u32,
}

impl Book {
    pub fn new(plant: Plant) -> Book {
        Book {
            plant,
            changes: Vec::new(),
            waiting: Vec::new(),
            highest_count: 0,
        }
    }

    pub fn changes(&self) -> &[Change] {
        &self.changes
    }

    pub fn waiting(&self) -> &[Change] {
        &self.waiting
    }

    /// The names that the book has, rising.
    pub fn names(&self) -> Vec<Name> {
        let names: BTreeSet<Name> = self.changes.iter().map(|change| change.name).collect();
        names.into_iter().collect()
    }

    /// The name that the next change made here would have.
    pub fn next_name(&self) -> Name {
        let waiting = self.waiting.iter().map(|change| change.name);
        let own = waiting
            .filter(|name| name.plant() == self.plant)
            .map(Name::count);
        Name::of(
            self.plant,
            1 + own.max().unwrap_or(0).max(self.highest_count),
        )
    }

    fn find(&self, name: Name) -> Option<&Change> {
        self.changes.iter().find(|change| change.name == name)
    }

    /// The change of the book that brings a line.
    fn source(&self, line: Line) -> Option<&Change> {
        self.find(line.name()).filter(|change| change.brings(line))
    }
}

/// Taking, waiting and taking back.
impl Book {
    /// Takes a change, and then what waited for it.
    pub fn take(&mut self, change: Change) -> Vec<Outcome> {
        let name = change.name;
        if self.find(name).is_some() || self.waiting.iter().any(|waiting| waiting.name == name) {
            return vec![Outcome::Refused(Refusal::Known, name)];
        }
        if !self.has_needs_of(&change) {
            if self.waiting.len() == MOST_WAITING {
                return vec![Outcome::Refused(Refusal::Full, name)];
            }
            self.waiting.push(change);
            return vec![Outcome::Waits(name)];
        }
        let mut outcomes = vec![self.admit(change)];
        outcomes.extend(self.try_waiting());
        outcomes
    }

    /// Tries the lowest of the waiting changes whose needs are all there, again and again.
    fn try_waiting(&mut self) -> Vec<Outcome> {
        let mut outcomes = Vec::new();
        while let Some(name) = self.lowest_ready() {
            let place = self
                .waiting
                .iter()
                .position(|change| change.name == name)
                .unwrap();
            let change = self.waiting.remove(place);
            outcomes.push(self.admit(change));
        }
        outcomes
    }

    fn lowest_ready(&self) -> Option<Name> {
        let ready = self
            .waiting
            .iter()
            .filter(|change| self.has_needs_of(change));
        ready.map(|change| change.name).min()
    }

    /// Takes a change whose name is new and whose needs are all there, or turns it away.
    fn admit(&mut self, change: Change) -> Outcome {
        let name = change.name;
        match self.refusal_of(&change) {
            Some(refusal) => Outcome::Refused(refusal, name),
            None => {
                self.enter(change);
                Outcome::Taken(name)
            }
        }
    }

    fn refusal_of(&self, change: &Change) -> Option<Refusal> {
        if !self.is_related(change) {
            Some(Refusal::Unrelated)
        } else if !self.is_ordered(change) {
            Some(Refusal::Unordered)
        } else if !self.has_room_for(change) {
            Some(Refusal::Full)
        } else {
            None
        }
    }

    fn enter(&mut self, change: Change) {
        if change.name.plant() == self.plant {
            self.highest_count = self.highest_count.max(change.name.count());
        }
        self.changes.push(change);
    }

    fn has_needs_of(&self, change: &Change) -> bool {
        change.needs.iter().all(|&need| self.find(need).is_some())
    }

    /// The needs are of the change's sheet, and each line that it names comes from one of them; in
    /// adds it may also be the start, the end or a line of an earlier add.
    fn is_related(&self, change: &Change) -> bool {
        let needed: Vec<&Change> = change
            .needs
            .iter()
            .filter_map(|&need| self.find(need))
            .collect();
        let is_needed = |line: Line| needed.iter().any(|need| need.brings(line));
        needed.iter().all(|need| need.sheet == change.sheet)
            && change.kills.iter().all(|&kill| is_needed(kill))
            && change.adds.iter().enumerate().all(|(place, add)| {
                [add.after, add.before].iter().all(|&line| {
                    line.is_edge() || is_needed(line) || change.brings_before(place, line)
                })
            })
    }

    /// For each add the first line stands before the second, with the earlier adds put in.
    fn is_ordered(&self, change: &Change) -> bool {
        let mut order = Order::of(&self.changes);
        change.new_lines().all(|(line, add)| {
            let stands = order.stands_before(add.after, add.before);
            order.put(line, add.after, add.before);
            stands
        })
    }

    fn has_room_for(&self, change: &Change) -> bool {
        let lines: usize = self.changes.iter().map(|change| change.adds.len()).sum();
        self.changes.len() < MOST_CHANGES && lines + change.adds.len() <= MOST_LINES
    }

    /// Takes a change back that no other of the book needs.
    pub fn take_back(&mut self, name: Name) -> Result<(), Refusal> {
        let is_needed = self
            .changes
            .iter()
            .any(|change| change.needs.contains(&name));
        if is_needed || self.find(name).is_none() {
            return Err(Refusal::Needed);
        }
        self.changes.retain(|change| change.name != name);
        Ok(())
    }
}

/// Making.
impl Book {
    /// Makes a change, and then takes what waited for it.
    pub fn make(&mut self, request: &Request) -> Result<(Change, Vec<Outcome>), Refusal> {
        let change = self.draft(request);
        if let Some(refusal) = self.refusal_to_make(&change) {
            return Err(refusal);
        }
        assert!(self.has_needs_of(&change) && self.refusal_of(&change).is_none());
        self.enter(change.clone());
        Ok((change, self.try_waiting()))
    }

    /// The change that a request asks for, whether it can be made or not.
    fn draft(&self, request: &Request) -> Change {
        let kills: BTreeSet<Line> = request.kills.iter().copied().collect();
        let mut change = Change {
            name: self.next_name(),
            sheet: request.sheet,
            needs: vec![],
            adds: request.adds.clone(),
            kills: kills.into_iter().collect(),
        };
        change.needs = change.sources();
        change
    }

    fn refusal_to_make(&self, change: &Change) -> Option<Refusal> {
        if self.names_other_sheet(change) || change.kills.iter().any(|kill| kill.is_edge()) {
            Some(Refusal::Unrelated)
        } else if !self.is_ordered_where_known(change) {
            Some(Refusal::Unordered)
        } else if !is_within_limits(change) || !self.has_room_for(change) {
            Some(Refusal::Full)
        } else if self.names_missing_line(change) {
            Some(Refusal::Missing)
        } else if change.name.count() > HIGHEST_COUNT {
            Some(Refusal::Exhausted)
        } else {
            None
        }
    }

    fn names_other_sheet(&self, change: &Change) -> bool {
        change
            .named_lines()
            .filter_map(|line| self.source(line))
            .any(|source| source.sheet != change.sheet)
    }

    /// Order is asked of adds both of whose lines are known: edges, lines of the book, and those of
    /// the request's own earlier adds. Each add is put in before the next is asked.
    fn is_ordered_where_known(&self, change: &Change) -> bool {
        let order = Order::of(&self.changes);
        let puts: Vec<(Line, &Add)> = change.new_lines().collect();
        puts.iter().enumerate().all(|(place, (_, add))| {
            let is_known = |line: Line| {
                line.is_edge() || change.brings_before(place, line) || self.source(line).is_some()
            };
            !is_known(add.after)
                || !is_known(add.before)
                || stands_before_with(&order, &puts[..place], add.after, add.before)
        })
    }

    fn names_missing_line(&self, change: &Change) -> bool {
        let is_missing = |line: Line| self.source(line).is_none();
        change.kills.iter().any(|&kill| is_missing(kill))
            || change.adds.iter().enumerate().any(|(place, add)| {
                [add.after, add.before].iter().any(|&line| {
                    !line.is_edge() && !change.brings_before(place, line) && is_missing(line)
                })
            })
    }
}

/// Whether a line stands before another once these lines are put in, each on top of those before
/// it: it stands before the second of its two and what that stands before, and behind the first
/// and what stands before that; the others stand as they did.
fn stands_before_with(order: &Order, puts: &[(Line, &Add)], u: Line, v: Line) -> bool {
    let Some(((line, add), rest)) = puts.split_last() else {
        return order.stands_before(u, v);
    };
    match (u == *line, v == *line) {
        (true, true) => false,
        (true, false) => v == add.before || stands_before_with(order, rest, add.before, v),
        (false, true) => u == add.after || stands_before_with(order, rest, u, add.after),
        (false, false) => stands_before_with(order, rest, u, v),
    }
}

fn is_within_limits(change: &Change) -> bool {
    change.needs.len() <= MOST_NEEDS
        && change.adds.len() <= MOST_ADDS
        && change.kills.len() <= MOST_KILLS
}

/// Sending.
impl Book {
    /// The changes that a book with these names lacks: each time the lowest name of which no need
    /// is still to be sent.
    pub fn letter_for(&self, names: &[Name]) -> Vec<Change> {
        let names: HashSet<Name> = names.iter().copied().collect();
        let mut unsent: BTreeSet<Name> = self
            .names()
            .into_iter()
            .filter(|name| !names.contains(name))
            .collect();
        let mut letter = Vec::new();
        while let Some(change) = unsent
            .iter()
            .filter_map(|&name| self.find(name))
            .find(|change| !change.needs.iter().any(|need| unsent.contains(need)))
        {
            unsent.remove(&change.name);
            letter.push(change.clone());
        }
        letter
    }
}
