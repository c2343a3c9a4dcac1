//! Trees for floors without one (M-113): the faces in number order, each range of them cut in half; boxes as
//! tight as they can be, planes across the longest side; all else stays.

use crate::answer::{refuse_if, Checked, Form};
use crate::fault::{planted, Fault};
use crate::floor;
use crate::floor::border;
use crate::floor::tables::{Table, Tables, FIELDS, HEADER, ROOT_FIELD};
use crate::floor::tree::Bounds;
use crate::form::{answer, deliver, laid_out, ORDER};
use crate::words::{bytes_of, put_word};
use std::ops::Range;

/// "No face" and "no child".
const NONE: u32 = 0xFFFF_FFFF;
/// What every node has for its unknown number.
const UNKNOWN: u32 = 4;

/// Gives a floor its tree: 20; 1 to 10; 49 if there are nodes; 15 to 19; then 40. Bytes past the form stay, and a
/// refused call writes nothing.
pub fn tree(bytes: &[u8], work: &mut [u8], out: &mut [u8]) -> Form {
    answer(written(bytes, work, out))
}

fn written(bytes: &[u8], work: &mut [u8], out: &mut [u8]) -> Checked<usize> {
    floor::enough_work(work)?; // 20
    let tables = bare(bytes)?;
    deliver(&with_tree(&tables), out) // 40
}

/// The tables of a floor that has no nodes and is right but for that. What the root field says is not asked.
fn bare(bytes: &[u8]) -> Checked<Tables<'_>> {
    if planted(Fault::NodesAskedEarly) {
        has_no_nodes(&Tables::open(bytes)?)?;
    }
    if planted(Fault::TreeAsked) && Tables::open(bytes).is_ok_and(|t| t.count(Table::Nodes) > 0) {
        floor::check_to_15(bytes)?;
    }
    let tables = floor::check_to_10(bytes)?; // 1 to 10
    if !planted(Fault::NodesAskedLate) {
        has_no_nodes(&tables)?; // 49
    }
    let partners = border::partners(&tables)?; // 15
    floor::lists_are_right(&tables, &partners)?; // 16 to 19
    if planted(Fault::NodesAskedLate) {
        has_no_nodes(&tables)?;
    }
    Ok(tables)
}

/// Rule 49: the node count is 0.
fn has_no_nodes(tables: &Tables) -> Checked<()> {
    let there_are = tables.count(Table::Nodes) != 0;
    refuse_if(there_are, 49, FIELDS[Table::Nodes as usize].count)
}

/// The fixed form of the floor with its tree, whose root is node 0; all else as it is.
fn with_tree(tables: &Tables) -> Vec<u8> {
    let mut nodes = Vec::new();
    let faces = tables.count(Table::Faces);
    if faces > 0 {
        grow(tables, 0..faces, &mut nodes);
    }
    let mut header = tables.bytes[..HEADER].to_vec();
    let count = FIELDS[Table::Nodes as usize].count;
    put_word(&mut header, count, nodes.len() as u32);
    if !planted(Fault::RootKept) {
        put_word(&mut header, ROOT_FIELD, 0);
    }
    let nodes = bytes_of(&nodes.concat());
    let tables = ORDER.map(|table| match table {
        Table::Nodes => &nodes[..],
        same => tables.bytes_of(same),
    });
    laid_out(&header, tables)
}

/// A node's words: its box, face, unknown number, plane, left, right.
type Words = [u32; 11];

/// Adds the tree over these faces, at least one: parent, left subtree, right subtree. Gives the parent's number.
fn grow(tables: &Tables, faces: Range<usize>, nodes: &mut Vec<Words>) -> u32 {
    let number = nodes.len();
    nodes.push([0; 11]);
    let bounds = tight_box(tables, faces.clone());
    let unknown = match planted(Fault::UnknownZero) {
        true => 0,
        false => UNKNOWN,
    };
    let words = match faces.len() {
        1 => {
            let plane = u32::from(planted(Fault::LeafPlane));
            [faces.start as u32, unknown, plane, NONE, NONE]
        }
        count => {
            let middle = faces.start + lower_half(count);
            let [left, right] = grow_both(tables, [faces.start..middle, middle..faces.end], nodes);
            [NONE, unknown, plane(&bounds), left, right]
        }
    };
    let ends = [bounds.least, bounds.greatest].concat();
    for (word, end) in nodes[number].iter_mut().zip(ends) {
        *word = bits(end);
    }
    nodes[number][6..].copy_from_slice(&words);
    number as u32
}

/// How many of so many faces go left: half of them, rounded down.
fn lower_half(count: usize) -> usize {
    match planted(Fault::LowerHalfUp) {
        true => count.div_ceil(2),
        false => count / 2,
    }
}

/// The children over these faces, the left one first.
fn grow_both(
    tables: &Tables,
    [left, right]: [Range<usize>; 2],
    nodes: &mut Vec<Words>,
) -> [u32; 2] {
    if planted(Fault::RightFirst) {
        let right = grow(tables, right, nodes);
        return [grow(tables, left, nodes), right];
    }
    [grow(tables, left, nodes), grow(tables, right, nodes)]
}

/// The least and the greatest of all coordinates of all corners of these faces, taken from the corners themselves.
fn tight_box(tables: &Tables, faces: Range<usize>) -> Bounds {
    let corners = |face: usize| match planted(Fault::FirstCorner) {
        true => vec![tables.corners(face)[0]],
        false => tables.corners(face).to_vec(),
    };
    let mut bounds = Bounds {
        least: [f32::INFINITY; 3],
        greatest: [f32::NEG_INFINITY; 3],
    };
    for vertex in faces.flat_map(corners) {
        for axis in 0..3 {
            let coordinate = tables.float(Table::Vertices, vertex, axis);
            if coordinate < bounds.least[axis] {
                bounds.least[axis] = coordinate;
            }
            if coordinate > bounds.greatest[axis] {
                bounds.greatest[axis] = coordinate;
            }
        }
    }
    bounds
}

/// The bits of an end of a box: of either zero those of the positive one.
fn bits(end: f32) -> u32 {
    match end == 0.0 && !planted(Fault::MinusZeroKept) {
        true => 0,
        false => end.to_bits(),
    }
}

/// 1, 2 or 3 for x, y or z: the first axis of which no other has a longer side. A difference past the largest float
/// is infinite, which is longer than any other and as long as another such.
fn plane(bounds: &Bounds) -> u32 {
    let side = |axis: usize| match bounds.greatest[axis] - bounds.least[axis] {
        side if side.is_infinite() && planted(Fault::InfiniteLeftOut) => 0.0,
        side => side,
    };
    let longest = |axis: &usize| (0..3).all(|other| side(other) <= side(*axis));
    let found = match planted(Fault::LastOnTie) {
        true => (0..3).rev().find(longest),
        false => (0..3).find(longest),
    };
    let axis = found.expect("one of three is the longest") as u32;
    match planted(Fault::PlanesFromZero) {
        true => axis,
        false => axis + 1,
    }
}
