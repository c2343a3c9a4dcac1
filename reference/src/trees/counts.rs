//! What floors were like that were to get a tree, for the end of a comparison.

use super::nodes::Nodes;
use super::{field_of, nodes_of, NODES, SHORT};
use crate::compare::Done;
use crate::floor::border;
use crate::floor::lists_are_right;
use crate::floor::mesh::corners_are_right;
use crate::floor::tables::{Table, Tables, HEADER, ROOT_FIELD};
use crate::generate::bare::Planting;
use crate::generate::damage::LARGE;
use crate::seams::result;

/// What floors were like that were to get a tree.
#[derive(Clone, Copy, Debug, Default)]
pub struct Counts {
    pub plantings: usize,
    /// Floors that got a tree, of 1, 2 and 3 faces, of up to 16, of up to 100, of fewer than `LARGE` and of so many; how many of
    /// them have an odd number of faces.
    pub sizes: [usize; 7],
    pub odd: usize,
    /// Floors without faces that were written.
    pub without_faces: usize,
    /// Of all that were written: those handed in with another root than 0.
    pub another_root: usize,
    /// Of those with a tree: a corner has a negative zero.
    pub minus_zero: usize,
    /// Of those with a tree: some node's longest sides are x and y, y and z, x and z, or all three; some are equal only
    /// because they were rounded.
    pub ties: [usize; 4],
    pub rounded_ties: usize,
    /// Of those with a tree: some node has one, two or three infinite sides.
    pub infinite: [usize; 3],
    /// Refused by 49: in all; 11 to 14 are broken as well; 15 to 19 are; the output is shorter than any form.
    pub nodes_there: usize,
    pub wrong_tree: usize,
    pub wrong_lists: usize,
    pub short_too: usize,
    /// Refused by 1 to 10 with nodes there; by 15 to 19; by 40.
    pub before_nodes: usize,
    pub lists: usize,
    pub short: usize,
}

impl Counts {
    /// Counts one planting by what a side did with it.
    pub fn add(&mut self, planting: &Planting, all: &[Done]) {
        self.plantings += 1;
        match all[0].number() {
            0 => self.add_written(planting, &all[0]),
            NODES => self.add_refused_nodes(planting, &all[1]),
            1..=10 => self.before_nodes += usize::from(nodes_of(&planting.floor) > 0),
            15..=19 => self.lists += 1,
            SHORT => self.short += 1,
            _ => (),
        }
    }

    fn add_refused_nodes(&mut self, planting: &Planting, told: &Done) {
        self.nodes_there += 1;
        self.wrong_tree += usize::from(matches!(told.number(), 11..=14));
        self.short_too += usize::from(planting.out.len() < HEADER);
        let lists = Tables::open(&planting.floor)
            .and_then(|tables| lists_are_right(&tables, &border::partners(&tables)?));
        self.wrong_lists += usize::from(lists.is_err());
    }

    fn add_written(&mut self, planting: &Planting, done: &Done) {
        self.another_root += usize::from(field_of(&planting.floor, ROOT_FIELD) != 0);
        let opened = result(done).and_then(|form| Tables::open(form).ok());
        let Some(after) = opened.filter(|tables| corners_are_right(tables).is_ok()) else {
            return;
        };
        let faces = after.count(Table::Faces);
        let size = match faces {
            0 => return self.without_faces += 1,
            1..=3 => faces - 1,
            4..=16 => 3,
            17..=100 => 4,
            101..LARGE => 5,
            _ => 6,
        };
        self.sizes[size] += 1;
        self.odd += faces % 2;
        self.minus_zero += usize::from(has_minus_zero(&after));
        if after.count(Table::Nodes) == 2 * faces - 1 {
            self.add_sides(&Nodes::of(after));
        }
    }

    fn add_sides(&mut self, nodes: &Nodes) {
        let ties = [
            [true, true, false],
            [false, true, true],
            [true, false, true],
            [true; 3],
        ];
        for (count, tie) in self.ties.iter_mut().zip(ties) {
            *count += usize::from(nodes.longest().any(|longest| longest == tie));
        }
        for (count, wanted) in self.infinite.iter_mut().zip(1..) {
            *count += usize::from(nodes.infinite().any(|sides| sides == wanted));
        }
        self.rounded_ties += usize::from(nodes.is_rounded_to_a_tie());
    }

    /// How many floors got a tree.
    pub fn with_tree(&self) -> usize {
        self.sizes.iter().sum()
    }

    /// All counts in one line.
    pub fn line(&self) -> String {
        format!(
            "plantings {}, of which with a tree {}: of 1, 2, 3, up to 16, up to 100, under {LARGE} and more faces {:?}, of an \
             odd number {}, with a negative zero {}, with ties of x and y, y and z, x and z, all three {:?}, by rounding {}, \
             with one, two, three infinite sides {:?}; written without faces {}; either with another root than 0 {}; refused \
             by 49 {}, of which broken by 11 to 14 {}, by 15 to 19 {}, by 40 {}; by 1 to 10 with nodes {}, by 15 to 19 {}, by \
             40 {}",
            self.plantings,
            self.with_tree(),
            self.sizes,
            self.odd,
            self.minus_zero,
            self.ties,
            self.rounded_ties,
            self.infinite,
            self.without_faces,
            self.another_root,
            self.nodes_there,
            self.wrong_tree,
            self.wrong_lists,
            self.short_too,
            self.before_nodes,
            self.lists,
            self.short
        )
    }
}

/// Whether a corner of a face has a negative zero.
fn has_minus_zero(tables: &Tables) -> bool {
    let mut corners = (0..tables.count(Table::Faces)).flat_map(|face| tables.corners(face));
    corners
        .any(|vertex| (0..3).any(|axis| tables.word(Table::Vertices, vertex, axis) == 0x8000_0000))
}
