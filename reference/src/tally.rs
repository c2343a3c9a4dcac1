//! What a comparison tells at its end: how often calls were made, what they answered, and how often cases
//! were of the kinds that some rule or request is about.

use crate::beginnings;
use crate::benches;
use crate::compare::{played, Done};
use crate::digits;
use crate::doors;
use crate::floor::tables::{Table, FIELDS, ROOT_FIELD};
use crate::generate::cases::Case;
use crate::generate::damage::LARGE;
use crate::order;
use crate::screens;
use crate::seams;
use crate::trees;
use crate::words::word_at;
use std::collections::{BTreeMap, BTreeSet};

/// All numbers that calls answer, in order.
pub fn numbers() -> impl Iterator<Item = u64> {
    (0..=43).chain([45, 49])
}

/// How often calls were made, and which numbers they answered at how many different places.
#[derive(Default)]
pub struct Tally {
    calls: BTreeMap<&'static str, usize>,
    numbers: BTreeMap<u64, BTreeMap<&'static str, usize>>,
    places: BTreeMap<u64, BTreeSet<u64>>,
    /// Floors with nodes that a call over a whole floor accepted, and those of them whose root is not node 0.
    pub with_tree: usize,
    pub with_another_root: usize,
    /// How many floors of at least `LARGE` faces were accepted or refused by 15 or 16, by that number, and how many of
    /// them were refused at the last half-edge.
    pub large: BTreeMap<u64, usize>,
    pub large_at_last: BTreeMap<u64, usize>,
    /// How many pairs of edits were accepted, and what they tried.
    pub pairs: order::Counts,
    /// How often two benches came upon each other.
    pub benches: benches::Counts,
    /// What mended floors were like.
    pub seams: seams::Counts,
    /// What floors were like that were to get a tree.
    pub trees: trees::Counts,
    /// How numbers were typed in layouts that were rewritten.
    pub digits: digits::Counts,
    /// What layouts with door hooks were like.
    pub doors: doors::Counts,
    /// How often names that begin alike stood beside each other.
    pub beginnings: beginnings::Counts,
    /// What pairs of texts were like that differ in one room's name.
    pub screens: screens::Counts,
    pub cases: u64,
    pub different: u64,
}

impl Tally {
    /// Adds what one side did in a case.
    pub fn add(&mut self, case: &Case, all: &[Done]) {
        self.cases += 1;
        match case {
            Case::Pair(pair) => self.pairs.add(pair, all),
            Case::Mending(mending) => self.seams.add(mending, all),
            Case::Planting(planting) => self.trees.add(planting, all),
            Case::Screens(screens) => self.screens.add(screens, all),
            Case::One { .. } => {
                self.digits.add(all);
                self.doors.add(all);
                self.beginnings.add(all);
            }
            Case::Session(_) => (),
        }
        for (play, of_play) in played(&case.plays(), all) {
            self.benches.add(play, of_play);
        }
        for one in all {
            let (call, number) = (one.call.name(), one.number());
            *self.calls.entry(call).or_default() += 1;
            let by_call = self.numbers.entry(number).or_default();
            *by_call.entry(call).or_default() += 1;
            if let ("place", place) = one.fields[1] {
                self.places.entry(number).or_default().insert(place);
            }
            if matches!(call, "read" | "rewrite" | "query" | "link_check") {
                self.add_root(one);
                self.add_large(one);
            }
        }
    }

    /// Looks where the tree of an accepted floor hangs. The journal's calls ask nothing of the tree.
    fn add_root(&mut self, one: &Done) {
        if one.number() != 0 {
            return;
        }
        let floor = one.floor();
        if word_at(floor, FIELDS[Table::Nodes as usize].count) > 0 {
            self.with_tree += 1;
            self.with_another_root += usize::from(word_at(floor, ROOT_FIELD) != 0);
        }
    }

    /// Looks whether rules 15 and 16 had much to search, and whether all the way.
    fn add_large(&mut self, one: &Done) {
        let (number, place) = (one.number(), one.fields[1].1);
        if !matches!(number, 0 | 15 | 16) {
            return;
        }
        let floor = one.floor();
        let count = |table: Table| word_at(floor, FIELDS[table as usize].count) as u64;
        if count(Table::Faces) >= LARGE as u64 {
            *self.large.entry(number).or_default() += 1;
            if number != 0 && place + 1 == 3 * count(Table::Adjacency) {
                *self.large_at_last.entry(number).or_default() += 1;
            }
        }
    }

    /// How often a number was answered.
    pub fn answered(&self, number: u64) -> usize {
        let by_call = self.numbers.get(&number);
        by_call.map_or(0, |by_call| by_call.values().sum())
    }

    /// How often a call answered a number.
    pub fn answered_by(&self, number: u64, call: &str) -> usize {
        let by_call = self.numbers.get(&number);
        by_call
            .and_then(|by_call| by_call.get(call))
            .copied()
            .unwrap_or(0)
    }

    /// Both tables, the roots, the large floors, the pairs of edits, the two benches, the mended floors, the trees, the numbers
    /// typed, the door hooks, the names that begin alike, the texts that differ in one name and the last line.
    pub fn print(&self) {
        println!("{:<16}{:>9}", "call", "calls");
        for (call, count) in &self.calls {
            println!("{call:<16}{count:>9}");
        }
        println!("\n{:<8}{:>9}{:>8}  by", "number", "answered", "places");
        for number in numbers() {
            let by_call = self.numbers.get(&number);
            let by: Vec<String> = by_call
                .into_iter()
                .flatten()
                .map(|(call, count)| format!("{call} {count}"))
                .collect();
            let places = self.places.get(&number).map_or(0, BTreeSet::len);
            let answered = self.answered(number);
            println!("{number:<8}{answered:>9}{places:>8}  {}", by.join(", "));
        }
        println!(
            "\naccepted floors with a tree {}, of which with another root than 0 {}",
            self.with_tree, self.with_another_root
        );
        println!(
            "floors of {LARGE} faces and more by number {:?}, of which at the last half-edge {:?}",
            self.large, self.large_at_last
        );
        println!("{}", self.pairs.line());
        println!("{}", self.benches.line());
        println!("{}", self.seams.line());
        println!("{}", self.trees.line());
        println!("{}", self.digits.line());
        println!("{}", self.doors.line());
        println!("{}", self.beginnings.line());
        println!("{}", self.screens.line());
        println!("{} cases, {} differences", self.cases, self.different);
    }
}
