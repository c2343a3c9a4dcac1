//! The tree of boxes: rules 11 to 14.

use super::header::{Tables, FACES};
use super::{words, Refused, NONE};

/// No node stands more steps than this below the root.
const DEEPEST: usize = 64;
/// The most nodes.
const NODES: usize = 2 * FACES - 1;

/// Memory for the tree: of an inner node its children, of a leaf `NONE` and its face.
pub struct Tree {
    below: Vec<[u32; 2]>,
}

impl Tree {
    /// Memory for the most nodes.
    pub fn new() -> Tree {
        Tree {
            below: vec![[0; 2]; NODES],
        }
    }

    /// Rules 11 to 14.
    pub fn is_right(&mut self, tables: &Tables) -> Result<(), Refused> {
        let nodes = tables.nodes.len() / 44;
        if nodes != (2 * tables.faces).saturating_sub(1) {
            return Err((11, 100));
        }
        if nodes == 0 {
            return Ok(());
        }
        if tables.root >= nodes {
            return Err((11, 108));
        }
        let small = self.nodes_are_right(tables, nodes as u32)?;
        if !self.is_one_tree(tables.root as u32, tables.faces) {
            return Err((13, 0));
        }
        small.map_or(Ok(()), |node| Err((14, node)))
    }

    /// Rule 12, and rule 14 beside it: gives the lowest node whose box is too small.
    fn nodes_are_right(&mut self, tables: &Tables, nodes: u32) -> Result<Option<usize>, Refused> {
        let mut small = None;
        let entries = tables.nodes.chunks_exact(44);
        for (node, (entry, below)) in entries.zip(&mut self.below).enumerate() {
            let bounds = words::<6>(entry).map(f32::from_bits);
            let [face, _, plane, left, right] = words(&entry[24..]);
            let held = if face < tables.faces as u32 {
                if plane != 0 || left & right != NONE {
                    return Err((12, node));
                }
                *below = [NONE, face];
                holds_face(&bounds, tables, face)
            } else {
                let parts = plane.wrapping_add(3) <= 6 && plane != 0;
                if face != NONE || !parts || left.max(right) >= nodes {
                    return Err((12, node));
                }
                *below = [left, right];
                holds_box(&bounds, tables, left) & holds_box(&bounds, tables, right)
            };
            if !held {
                small = small.or(Some(node));
            }
        }
        Ok(small)
    }

    /// Rule 13. That no face stands in two leaves and that no path is too long is enough: a node with two
    /// paths to it has a leaf below it that is met twice, or a path without end.
    fn is_one_tree(&self, root: u32, faces: usize) -> bool {
        let mut stand = [0u64; FACES / 64];
        let mut waiting = [(0, 0); DEEPEST];
        let (mut top, mut node, mut steps, mut leaves) = (0, root, 0, 0);
        loop {
            let [left, right] = self.below[node as usize];
            if left != NONE {
                if steps == DEEPEST {
                    return false;
                }
                steps += 1;
                waiting[top] = (right, steps);
                top += 1;
                node = left;
                continue;
            }
            let (mark, bit) = (&mut stand[right as usize / 64], 1 << (right % 64));
            if *mark & bit != 0 {
                return false;
            }
            *mark |= bit;
            leaves += 1;
            if top == 0 {
                return leaves == faces;
            }
            top -= 1;
            (node, steps) = waiting[top];
        }
    }
}

/// Least x, y, z, greatest x, y, z.
type Bounds = [f32; 6];

fn holds_box(bounds: &Bounds, tables: &Tables, node: u32) -> bool {
    let other = words::<6>(&tables.nodes[44 * node as usize..]).map(f32::from_bits);
    holds(bounds, &other)
}

fn holds_face(bounds: &Bounds, tables: &Tables, face: u32) -> bool {
    let corners: [u32; 3] = words(&tables.corners[12 * face as usize..]);
    let held = corners.map(|corner| {
        let [x, y, z] = words(&tables.vertices[12 * corner as usize..]).map(f32::from_bits);
        holds(bounds, &[x, y, z, x, y, z])
    });
    held[0] & held[1] & held[2]
}

/// Plain comparison, ends included: four at once, then the other two.
fn holds(outer: &Bounds, inner: &Bounds) -> bool {
    let low = [outer[0], outer[1], outer[2], inner[3]];
    let high = [inner[0], inner[1], inner[2], outer[3]];
    let lanes: [u32; 4] = std::array::from_fn(|i| if low[i] <= high[i] { NONE } else { 0 });
    let four = lanes[0] & lanes[1] & lanes[2] & lanes[3] != 0;
    four && (inner[4] <= outer[4]) & (inner[5] <= outer[5])
}
