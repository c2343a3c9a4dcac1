//! The nodes of a floor that got a tree, each held to the faces that must stand below it. Which faces these are is told by the
//! node's number alone, so that nothing is believed of what the nodes say of each other. How deep they go is told by them.

use super::{DEPTH, HELD, INNER, LEAVES, NO_MINUS, NUMBERED, PLANES, TIGHT};
use crate::floor::tables::{Table, Tables};
use std::ops::Range;

/// "No face" and "no child".
const NONE: u32 = 0xFFFF_FFFF;
/// What every node has for its unknown number.
const UNKNOWN: u32 = 4;
/// No leaf is more steps down.
const DEEPEST: usize = 12;

/// A node's number and the faces below it.
struct Stand {
    node: usize,
    faces: Range<usize>,
}

impl Stand {
    /// Where its children stand: half of the faces, rounded down, on the left. That child and all below it are one node less
    /// than twice its faces.
    fn children(&self) -> [Stand; 2] {
        let lower = self.faces.len() / 2;
        let middle = self.faces.start + lower;
        [
            Stand {
                node: self.node + 1,
                faces: self.faces.start..middle,
            },
            Stand {
                node: self.node + 2 * lower,
                faces: middle..self.faces.end,
            },
        ]
    }

    fn is_leaf(&self) -> bool {
        self.faces.len() == 1
    }
}

/// A floor of at least one face with one node less than twice its faces.
pub(super) struct Nodes<'a> {
    tables: Tables<'a>,
    stands: Vec<Stand>,
}

impl<'a> Nodes<'a> {
    pub fn of(tables: Tables<'a>) -> Nodes<'a> {
        let mut stands = vec![Stand {
            node: 0,
            faces: 0..tables.count(Table::Faces),
        }];
        let mut looked_at = 0;
        while let Some(stand) = stands.get(looked_at) {
            if !stand.is_leaf() {
                let children = stand.children();
                stands.extend(children);
            }
            looked_at += 1;
        }
        Nodes { tables, stands }
    }

    fn words<const N: usize>(&self, stand: &Stand, words: [usize; N]) -> [u32; N] {
        words.map(|word| self.tables.word(Table::Nodes, stand.node, word))
    }

    /// The least and the greatest of an axis, as the box of a node has them.
    fn ends(&self, stand: &Stand, axis: usize) -> [f32; 2] {
        self.words(stand, [axis, axis + 3]).map(f32::from_bits)
    }

    /// The coordinates, on one axis, of all corners below a node.
    fn corners(&self, stand: &Stand, axis: usize) -> impl Iterator<Item = f32> + '_ {
        let corners = |face: usize| self.tables.corners(face);
        let coordinate = move |vertex: usize| self.tables.float(Table::Vertices, vertex, axis);
        stand.faces.clone().flat_map(corners).map(coordinate)
    }

    /// The sides of a node's box, rounded as floats are.
    fn sides(&self, stand: &Stand) -> [f32; 3] {
        [0, 1, 2].map(|axis| {
            let [least, greatest] = self.ends(stand, axis);
            greatest - least
        })
    }

    /// What is said of nodes, and whether it is broken.
    pub fn broken(&self) -> Vec<(&'static str, bool)> {
        let all = |right: &dyn Fn(&Stand) -> bool| self.stands.iter().all(right);
        vec![
            (NUMBERED, !all(&|stand| self.is_numbered(stand))),
            (LEAVES, !all(&|stand| self.is_leaf_right(stand))),
            (INNER, !all(&|stand| self.is_inner_right(stand))),
            (HELD, !all(&|stand| self.holds_corners(stand))),
            (TIGHT, !all(&|stand| self.is_tight(stand))),
            (NO_MINUS, !all(&|stand| self.has_no_minus_zero(stand))),
            (PLANES, !all(&|stand| self.is_plane_right(stand))),
            (DEPTH, !self.is_shallow()),
        ]
    }

    fn is_numbered(&self, stand: &Stand) -> bool {
        let wanted = match stand.is_leaf() {
            true => [NONE; 2],
            false => stand.children().map(|child| child.node as u32),
        };
        self.words(stand, [9, 10]) == wanted
    }

    fn is_leaf_right(&self, stand: &Stand) -> bool {
        let wanted = [stand.faces.start as u32, UNKNOWN, 0];
        !stand.is_leaf() || self.words(stand, [6, 7, 8]) == wanted
    }

    fn is_inner_right(&self, stand: &Stand) -> bool {
        stand.is_leaf() || self.words(stand, [6, 7]) == [NONE, UNKNOWN]
    }

    fn holds_corners(&self, stand: &Stand) -> bool {
        (0..3).all(|axis| {
            let [least, greatest] = self.ends(stand, axis);
            let mut corners = self.corners(stand, axis);
            corners.all(|corner| least <= corner && corner <= greatest)
        })
    }

    /// By float comparison, so that a zero may be the other zero's.
    fn is_tight(&self, stand: &Stand) -> bool {
        (0..3).all(|axis| {
            let is_one = |end: &f32| self.corners(stand, axis).any(|corner| corner == *end);
            self.ends(stand, axis).iter().all(is_one)
        })
    }

    fn has_no_minus_zero(&self, stand: &Stand) -> bool {
        let ends = self.words(stand, [0, 1, 2, 3, 4, 5]);
        ends.iter().all(|&bits| bits != 0x8000_0000)
    }

    /// No side is longer than the plane's, and those before it are shorter.
    fn is_plane_right(&self, stand: &Stand) -> bool {
        let [plane] = self.words(stand, [8]);
        let sides = self.sides(stand);
        stand.is_leaf()
            || matches!(plane, 1..=3) && {
                let (before, from) = sides.split_at(plane as usize - 1);
                before.iter().all(|side| *side < from[0])
                    && from.iter().all(|side| *side <= from[0])
            }
    }

    /// Walks down from the root as the nodes themselves say. A walk that comes back never ends, and so goes too deep.
    fn is_shallow(&self) -> bool {
        let mut paths = vec![(0, 0)];
        while let Some((node, steps)) = paths.pop() {
            if steps > DEEPEST || node >= self.tables.count(Table::Nodes) {
                return false;
            }
            let word = |word: usize| self.tables.word(Table::Nodes, node, word);
            if word(6) == NONE {
                paths.extend([9, 10].map(|child| (word(child) as usize, steps + 1)));
            }
        }
        true
    }

    /// Which axes have the longest side, for each node with a plane.
    pub fn longest(&self) -> impl Iterator<Item = [bool; 3]> + '_ {
        let inner = self.stands.iter().filter(|stand| !stand.is_leaf());
        inner.map(|stand| {
            let sides = self.sides(stand);
            sides.map(|side| sides.iter().all(|other| *other <= side))
        })
    }

    /// How many sides are infinite, for each node with a plane.
    pub fn infinite(&self) -> impl Iterator<Item = usize> + '_ {
        let inner = self.stands.iter().filter(|stand| !stand.is_leaf());
        inner.map(|stand| {
            let sides = self.sides(stand);
            sides.iter().filter(|side| side.is_infinite()).count()
        })
    }

    /// Whether some node with a plane has two finite sides, the longest, that are equal only because they were rounded.
    pub fn is_rounded_to_a_tie(&self) -> bool {
        let inner = self.stands.iter().filter(|stand| !stand.is_leaf());
        let exact = |stand: &Stand, axis: usize| {
            let [least, greatest] = self.ends(stand, axis).map(f64::from);
            greatest - least
        };
        inner.zip(self.longest()).any(|(stand, longest)| {
            let axes: Vec<usize> = (0..3).filter(|&axis| longest[axis]).collect();
            let finite = self.sides(stand)[axes[0]].is_finite();
            let different = |&axis: &usize| exact(stand, axis) != exact(stand, axes[0]);
            finite && axes.iter().any(different)
        })
    }
}
