//! The tree of boxes: rules 11 to 14.

use super::tables::{Table, Tables, ROOT_FIELD};
use crate::answer::{refuse, refuse_if, refuse_lowest, Checked};
use crate::fault::{planted, Fault};
use crate::words::word_at;

/// No node stands more steps than this below the root (house rule).
const DEEPEST: usize = 64;
/// "No face" and "no child".
const NONE: u32 = 0xFFFF_FFFF;

/// What a node is, once rule 12 has passed.
#[derive(Clone, Copy, Debug, PartialEq, Eq)]
pub enum Node {
    Leaf { face: usize },
    Inner { left: usize, right: usize },
}

/// Rule 11: the node count is 2F-1 (0 without faces); else, where there are nodes, the root is one of
/// them (M-101). Without faces the root field says nothing.
pub fn counts_are_right(tables: &Tables) -> Checked<()> {
    let faces = tables.count(Table::Faces);
    let nodes = tables.count(Table::Nodes);
    let wanted = if faces == 0 { 0 } else { 2 * faces - 1 };
    refuse_if(nodes != wanted, 11, 100)?;
    let wrong = match nodes {
        0 => planted(Fault::RootOfNone) && root_field(tables) != 0,
        _ => root_field(tables) >= nodes,
    };
    refuse_if(wrong, 11, ROOT_FIELD)
}

/// What the root field says.
fn root_field(tables: &Tables) -> usize {
    word_at(tables.bytes, ROOT_FIELD) as usize
}

/// The node that the tree hangs from, in a floor whose rule 11 has passed.
pub fn root(tables: &Tables) -> usize {
    match planted(Fault::RootFirst) {
        true => 0,
        false => root_field(tables),
    }
}

/// Rule 12: every node is a leaf or an inner node. Gives them all.
pub fn nodes(tables: &Tables) -> Checked<Vec<Node>> {
    let count = tables.count(Table::Nodes);
    let mut nodes = Vec::with_capacity(count);
    for node in 0..count {
        match node_at(tables, node) {
            Some(kind) => nodes.push(kind),
            None => return refuse(12, node),
        }
    }
    Ok(nodes)
}

/// A node's kind: the words behind the box are face, unknown (any), plane, left, right.
fn node_at(tables: &Tables, node: usize) -> Option<Node> {
    let faces = tables.count(Table::Faces) as u32;
    let nodes = tables.count(Table::Nodes) as u32;
    let [face, plane, left, right] = [6, 8, 9, 10].map(|i| tables.word(Table::Nodes, node, i));
    let (left, right) = match planted(Fault::ChildrenFromOne) && face == NONE {
        true => (left.wrapping_sub(1), right.wrapping_sub(1)),
        false => (left, right),
    };
    if face < faces && plane == 0 && left == NONE && right == NONE {
        return Some(Node::Leaf {
            face: face as usize,
        });
    }
    let parts = matches!(plane as i32, 1..=3 | -3..=-1);
    (face == NONE && parts && left < nodes && right < nodes).then_some(Node::Inner {
        left: left as usize,
        right: right as usize,
    })
}

/// Rule 13: one tree, from the root. Without faces there are no nodes, and nothing to reach.
pub fn is_one_tree(nodes: &[Node], root: usize, faces: usize) -> Checked<()> {
    if nodes.is_empty() {
        return Ok(());
    }
    let passes = match planted(Fault::NodesNotPaths) {
        true => each_is_a_child_once(nodes, root),
        false => one_path_to_each(nodes, root, faces),
    };
    refuse_if(!passes, 13, 0)
}

/// Every node is reached by exactly one path, none too deep, and every face stands in one leaf.
/// Walking every path stops at the first node met twice, so a ring cannot hold it up.
fn one_path_to_each(nodes: &[Node], root: usize, faces: usize) -> bool {
    let deepest = DEEPEST + usize::from(planted(Fault::DepthSixtyFive));
    let mut reached = vec![false; nodes.len()];
    let mut stands = vec![false; faces];
    let mut paths = vec![(root, 0)];
    while let Some((node, steps)) = paths.pop() {
        if steps > deepest || reached[node] {
            return false;
        }
        reached[node] = true;
        match nodes[node] {
            Node::Leaf { face } if stands[face] => return false,
            Node::Leaf { face } => stands[face] = true,
            Node::Inner { left, right } => {
                paths.push((right, steps + 1));
                paths.push((left, steps + 1));
            }
        }
    }
    reached.iter().all(|&once| once) && stands.iter().all(|&once| once)
}

/// The planted fault: every node but the root is somebody's child once, reached or not.
fn each_is_a_child_once(nodes: &[Node], root: usize) -> bool {
    let mut parents = vec![0; nodes.len()];
    for node in nodes {
        if let Node::Inner { left, right } = *node {
            parents[left] += 1;
            parents[right] += 1;
        }
    }
    parents[root] += 1;
    parents.iter().all(|&count| count == 1)
}

/// Least and greatest x, y, z.
#[derive(Clone, Copy, Debug, PartialEq)]
pub struct Bounds {
    pub least: [f32; 3],
    pub greatest: [f32; 3],
}

impl Bounds {
    /// The box of a node.
    pub fn of(tables: &Tables, node: usize) -> Bounds {
        Bounds {
            least: [0, 1, 2].map(|axis| tables.float(Table::Nodes, node, axis)),
            greatest: [3, 4, 5].map(|axis| tables.float(Table::Nodes, node, axis)),
        }
    }

    /// Plain float comparison, ends included. A corner is a box whose least is its greatest.
    fn holds(&self, other: &Bounds) -> bool {
        (0..3).all(|axis| {
            self.least[axis] <= other.least[axis] && other.greatest[axis] <= self.greatest[axis]
        })
    }
}

/// Rule 14: a leaf's box holds its face's corners, an inner node's box both children's boxes.
pub fn boxes_are_large_enough(nodes: &[Node], tables: &Tables) -> Checked<()> {
    refuse_lowest(14, nodes.len(), |node| {
        let bounds = Bounds::of(tables, node);
        let held = match nodes[node] {
            Node::Leaf { face } => tables
                .corners(face)
                .iter()
                .all(|&corner| bounds.holds(&corner_as_box(tables, corner))),
            Node::Inner { left, right } => [left, right]
                .iter()
                .all(|&child| bounds.holds(&Bounds::of(tables, child))),
        };
        !held
    })
}

fn corner_as_box(tables: &Tables, vertex: usize) -> Bounds {
    let corner = [0, 1, 2].map(|axis| tables.float(Table::Vertices, vertex, axis));
    Bounds {
        least: corner,
        greatest: corner,
    }
}
