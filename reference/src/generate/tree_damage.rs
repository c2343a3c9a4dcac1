//! Damage aimed at rules 11 to 14: counts and roots, nodes of no kind, trees that are none, boxes that are too small.

use super::damage::any;
use super::floors;
use super::model::Model;
use super::random::Random;

const NONE: u32 = 0xFFFF_FFFF;

/// A wrong number of nodes; a root that is no node, from the first such number on; or another node
/// for the root, which then reaches a part of the tree only.
pub(super) fn wrong_count_or_root(model: &mut Model, random: &mut Random) {
    let nodes = model.nodes.len() as u32;
    match random.under(8) {
        0 => drop(model.nodes.pop()),
        1 => model.nodes.push(model.nodes[0]),
        2 => model.nodes.clear(),
        3 | 4 => model.root = nodes,
        5 => model.root = random.pick(&[nodes + 1, 8_191, 0x8000_0000, NONE]),
        6 => model.root = model.root.wrapping_add(1),
        _ => model.root = random.under(model.nodes.len()) as u32,
    }
}

pub(super) fn wrong_node(model: &mut Model, random: &mut Random) {
    let (faces, nodes) = (model.faces.len() as u32, model.nodes.len() as u32);
    if nodes == 0 {
        return;
    }
    let node = any(&mut model.nodes, random);
    let field = random.pick(&[6, 8, 9, 10]);
    node[field] = match random.under(6) {
        0 => faces,
        1 => nodes,
        2 => NONE,
        3 => random.pick(&[0, 1, 2, 3, 4, 0xFFFF_FFFC, 0xFFFF_FFFD]),
        4 => node[field].wrapping_add(1), // children from 1
        _ => random.odd_word(),
    };
}

pub(super) fn wrong_tree(model: &mut Model, random: &mut Random) {
    let inner: Vec<usize> = (0..model.nodes.len())
        .filter(|&node| model.nodes[node][6] == NONE)
        .collect();
    let leaves: Vec<usize> = (0..model.nodes.len())
        .filter(|&node| model.nodes[node][6] != NONE)
        .collect();
    if inner.is_empty() || leaves.is_empty() {
        return;
    }
    let node = random.pick(&inner);
    let side = random.pick(&[9, 10]);
    match random.under(8) {
        0 => model.nodes[node][9] = model.nodes[node][10],
        1 => model.nodes[node][side] = random.under(model.nodes.len()) as u32,
        2 => model.nodes[random.pick(&leaves)][6] = random.under(model.faces.len()) as u32,
        3 => swap_children(model, [node, random.pick(&inner)], side),
        4 => *model = floors::chain(random, 66),
        5 => {
            let faces = random.pick(&[67, 70, 100]);
            *model = floors::chain(random, faces);
        }
        _ => detach_ring(model, random, &inner),
    }
}

fn swap_children(model: &mut Model, [one, other]: [usize; 2], side: usize) {
    let child = model.nodes[one][side];
    model.nodes[one][side] = model.nodes[other][9];
    model.nodes[other][9] = child;
}

/// Cuts an inner node out of the tree and makes it its own child. Each node is still the child of
/// one node, but the ring cannot be reached.
fn detach_ring(model: &mut Model, random: &mut Random, inner: &[usize]) {
    for _ in 0..8 {
        let above = random.pick(inner);
        let side = random.pick(&[9, 10]);
        let cut = model.nodes[above][side] as usize;
        if model.nodes.get(cut).is_some_and(|node| node[6] == NONE) {
            let below = random.pick(&[9, 10]);
            model.nodes[above][side] = model.nodes[cut][below];
            model.nodes[cut][below] = cut as u32;
            return;
        }
    }
}

/// The float beside a finite one, the next above it or below. (The standard library has it only since Rust 1.86, and the
/// compiler that an Arm machine gets for this program is older.)
fn beside(value: f32, above: bool) -> f32 {
    let bits = value.to_bits();
    if !value.is_finite() {
        return value;
    }
    if value == 0.0 {
        return f32::from_bits(if above { 1 } else { 0x8000_0001 });
    }
    f32::from_bits(if (value > 0.0) == above {
        bits + 1
    } else {
        bits - 1
    })
}

/// Draws a side of a box in: by the least step a float can make, or by more.
pub(super) fn small_box(model: &mut Model, random: &mut Random) {
    if model.nodes.is_empty() {
        return;
    }
    let node = any(&mut model.nodes, random);
    let side = random.under(6);
    let value = f32::from_bits(node[side]);
    let inwards = if side < 3 { 1.0 } else { -1.0 };
    let drawn = match random.under(3) {
        0 => value + inwards * 0.015_625,
        1 => value + inwards * 5.0,
        _ => beside(value, inwards > 0.0),
    };
    if drawn.is_finite() {
        node[side] = drawn.to_bits();
    }
}
