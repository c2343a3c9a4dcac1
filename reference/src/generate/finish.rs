//! What belongs to the faces of a valid floor: materials with the walkable ones first, a tree of boxes,
//! adjacency, borders in loops and transitions. Made by rules of this file, not by the reader's.

use super::floors::{TreeShape, Wish};
use super::model::{Model, NodeWords};
use super::random::Random;
use std::collections::HashMap;

const WALKABLE: [u32; 16] = [1, 3, 4, 5, 6, 9, 10, 11, 12, 13, 14, 16, 18, 20, 21, 22];
const OTHERS: [u32; 7] = [0, 2, 7, 8, 15, 17, 19];
const NONE: u32 = 0xFFFF_FFFF;
/// Box coordinates farther out than any vertex of ours.
const FAR_OUT: f32 = 3.0e38;

/// Gives the faces of a model all that belongs to them.
pub fn finish(model: &mut Model, random: &mut Random, wish: Wish) {
    if wish.off_grid {
        leave_grid(model, random);
    }
    if !wish.in_order {
        random.shuffle(&mut model.faces);
    }
    add_materials(model, random, wish.unwalkable);
    for _ in 0..model.faces.len() {
        model.normals.push([0; 3].map(|_: u32| random.finite()));
        model.distances.push(random.finite());
    }
    add_tree(model, random, wish);
    add_adjacency(model);
    add_edges(model, random, wish.in_order);
}

/// Takes one or more coordinates off the grid, by a little or by far.
fn leave_grid(model: &mut Model, random: &mut Random) {
    for _ in 0..random.from_to(1, 2) {
        if model.vertices.is_empty() {
            return;
        }
        let vertex = random.under(model.vertices.len());
        let axis = random.under(3);
        let nearby = model.vertices[vertex][axis].wrapping_add(1);
        let bits = match random.under(4) {
            0 => (1024.0_f32 + 1.0 / 64.0).to_bits(),
            1 => (-1024.0_f32 - 1.0 / 64.0).to_bits(),
            2 if f32::from_bits(nearby).is_finite() => nearby,
            _ => random.finite(),
        };
        model.vertices[vertex][axis] = bits;
    }
}

/// Gives every face a material, the first ones a walkable one.
fn add_materials(model: &mut Model, random: &mut Random, unwalkable: usize) {
    let others = match unwalkable {
        0 => 0,
        _ => (0..model.faces.len())
            .filter(|_| random.once_in(unwalkable))
            .count(),
    };
    let walkable = model.faces.len() - others;
    model.materials = (0..model.faces.len())
        .map(|face| match face < walkable {
            true => random.pick(&WALKABLE),
            false => random.pick(&OTHERS),
        })
        .collect();
    model.adjacency = vec![[NONE; 3]; walkable];
}

/// Adds the tree: its nodes have any numbers, the root too, unless they are wanted in order.
fn add_tree(model: &mut Model, random: &mut Random, wish: Wish) {
    let mut faces: Vec<u32> = (0..model.faces.len() as u32).collect();
    if faces.is_empty() {
        model.root = random.pick(&[0, 0, 1, NONE]); // without nodes the field says nothing
        return;
    }
    if wish.tree == TreeShape::Near {
        faces.sort_by_key(|&face| model.faces[face as usize].iter().min());
    } else {
        random.shuffle(&mut faces);
    }
    let mut numbers: Vec<u32> = (0..2 * faces.len() as u32 - 1).collect();
    match if wish.in_order { 0 } else { random.under(3) } {
        0 => numbers.reverse(), // the root first
        1 => (),                // the root last
        _ => random.shuffle(&mut numbers),
    }
    model.nodes = vec![[0; 11]; numbers.len()];
    let root = numbers.pop().unwrap_or(0);
    model.root = root;
    let mut grower = Grower {
        model,
        random,
        numbers,
        shape: wish.tree,
    };
    grower.grow(root, &faces, wish.deepest);
}

/// Builds a tree from the root down and its boxes from the leaves up.
struct Grower<'a> {
    model: &'a mut Model,
    random: &'a mut Random,
    numbers: Vec<u32>,
    shape: TreeShape,
}

impl Grower<'_> {
    /// Makes node `node` hold `faces`, with at most `steps` steps below it; gives its box.
    fn grow(&mut self, node: u32, faces: &[u32], steps: usize) -> [f32; 6] {
        let (mut bounds, words) = match faces {
            [face] => (self.face_box(*face), [*face, 0, NONE, NONE]),
            _ => {
                let (first, second) = faces.split_at(self.split(faces.len(), steps));
                let left = self.numbers.pop().unwrap_or(0);
                let one = self.grow(left, first, steps.saturating_sub(1));
                let right = self.numbers.pop().unwrap_or(0);
                let other = self.grow(right, second, steps.saturating_sub(1));
                let plane = self.random.pick(&[1, 2, 3, -1_i32, -2, -3]) as u32;
                (around(one, other), [NONE, plane, left, right])
            }
        };
        if self.random.once_in(6) {
            self.widen(&mut bounds);
        }
        let mut node_words: NodeWords = [0; 11];
        for (word, bound) in node_words.iter_mut().zip(bounds) {
            *word = bound.to_bits();
        }
        node_words[6] = words[0];
        node_words[7] = self.random.word();
        node_words[8..].copy_from_slice(&words[1..]);
        self.model.nodes[node as usize] = node_words;
        bounds
    }

    /// How many of `count` faces go left. With few steps left only halves are sure to fit.
    fn split(&mut self, count: usize, steps: usize) -> usize {
        match self.shape {
            TreeShape::Chain if count <= steps + 1 => self.random.pick(&[1, count - 1]),
            TreeShape::Any if steps > 14 => 1 + self.random.under(count - 1),
            _ => count / 2,
        }
    }

    fn face_box(&self, face: u32) -> [f32; 6] {
        let corners = self.model.faces[face as usize]
            .map(|corner| self.model.vertices[corner as usize].map(f32::from_bits));
        let mut bounds = [FAR_OUT, FAR_OUT, FAR_OUT, -FAR_OUT, -FAR_OUT, -FAR_OUT];
        for corner in corners {
            let [x, y, z] = corner;
            bounds = around(bounds, [x, y, z, x, y, z]);
        }
        bounds
    }

    /// Moves some sides of a box outwards.
    fn widen(&mut self, bounds: &mut [f32; 6]) {
        let by = self
            .random
            .pick(&[0.0_f32, 1.0 / 64.0, 0.5, 1.0, 1000.0, FAR_OUT]);
        let side = self.random.under(6);
        let moved = if side < 3 {
            bounds[side] - by
        } else {
            bounds[side] + by
        };
        if moved.is_finite() {
            bounds[side] = moved;
        }
    }
}

/// The least box around two.
fn around(one: [f32; 6], other: [f32; 6]) -> [f32; 6] {
    let mut both = one;
    for axis in 0..3 {
        both[axis] = one[axis].min(other[axis]);
        both[axis + 3] = one[axis + 3].max(other[axis + 3]);
    }
    both
}

/// The vertices between which half-edge `h` of a model runs.
pub fn run_of(model: &Model, h: u32) -> (u32, u32) {
    let face = model.faces[h as usize / 3];
    (face[h as usize % 3], face[(h as usize + 1) % 3])
}

/// Fills in the adjacency of a model whose walkable half-edges all run differently.
pub fn add_adjacency(model: &mut Model) {
    let half_edges = 3 * model.adjacency.len() as u32;
    let running: HashMap<(u32, u32), u32> =
        (0..half_edges).map(|h| (run_of(model, h), h)).collect();
    for h in 0..half_edges {
        let (from, to) = run_of(model, h);
        let partner = running.get(&(to, from)).copied().unwrap_or(NONE);
        model.adjacency[h as usize / 3][h as usize % 3] = partner;
    }
}

/// Walks the borders loop by loop, from the lowest one or from any. As many borders leave a vertex as
/// arrive there, so every walk comes back; where a loop meets its start it may end or go on.
pub(super) fn add_edges(model: &mut Model, random: &mut Random, in_order: bool) {
    let mut leaving: HashMap<u32, Vec<u32>> = HashMap::new();
    let mut borders: Vec<u32> = (0..3 * model.adjacency.len() as u32)
        .filter(|&h| model.adjacency[h as usize / 3][h as usize % 3] == NONE)
        .collect();
    if !in_order {
        random.shuffle(&mut borders);
    }
    for &h in &borders {
        leaving.entry(run_of(model, h).0).or_default().push(h);
    }
    for h in borders {
        let start = run_of(model, h).0;
        let mut at = start;
        let mut walked = false;
        while let Some(next) = leaving.get_mut(&at).and_then(Vec::pop) {
            let transition = random.pick(&[-1, -1, 0, 1, 2, 5, 62, 63]) as u32;
            model.edges.push([next, transition]);
            at = run_of(model, next).1;
            walked = true;
            if at == start && random.once_in(2) {
                break;
            }
        }
        if walked {
            model.perimeters.push(model.edges.len() as u32);
        }
    }
}

/// Puts the walkable faces of a finished floor in any order: the same tree over their new numbers,
/// adjacency and borders made anew.
pub fn shuffle_faces(model: &mut Model, random: &mut Random) {
    let before = model.clone();
    let mut order: Vec<usize> = (0..model.adjacency.len()).collect();
    random.shuffle(&mut order);
    let mut numbers = vec![0; order.len()];
    for (number, &was) in order.iter().enumerate() {
        numbers[was] = number as u32;
        model.faces[number] = before.faces[was];
        model.materials[number] = before.materials[was];
        model.normals[number] = before.normals[was];
        model.distances[number] = before.distances[was];
    }
    for node in &mut model.nodes {
        if let Some(number) = numbers.get(node[6] as usize) {
            node[6] = *number;
        }
    }
    add_adjacency(model);
    model.edges.clear();
    model.perimeters.clear();
    add_edges(model, random, true);
}
