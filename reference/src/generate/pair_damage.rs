//! Damage aimed at rules 15 and 16: half-edges that run the same way, and adjacency entries that name
//! anything but the partner. Both also at the last half-edge, where a search has gone all the way.

use super::finish::run_of;
use super::model::Model;
use super::random::Random;
use std::collections::HashSet;

const NONE: u32 = 0xFFFF_FFFF;

/// Makes two walkable half-edges run the same way, without harm to any box.
pub fn same_run(model: &mut Model, random: &mut Random) {
    let walkable = model.adjacency.len();
    if walkable == 0 {
        return;
    }
    let face = random.under(walkable);
    match random.under(4) {
        0 | 1 => model.faces[face].swap(0, 1),
        2 => repeat_last(model, random),
        _ => {
            let mut copied = model.faces[random.under(walkable)];
            copied.rotate_left(random.under(3));
            model.faces[face] = copied;
            widen_all(model);
        }
    }
}

/// Makes the last walkable half-edge, and no other, run as a lower one does. A floor without a face
/// that can do so, as small ones may be, stays as it is.
pub fn repeat_last(model: &mut Model, random: &mut Random) {
    let last = model.adjacency.len() - 1;
    let lower = 3 * last as u32;
    let running: HashSet<(u32, u32)> = (0..lower).map(|h| run_of(model, h)).collect();
    for _ in 0..200 {
        if lower == 0 {
            return;
        }
        let (from, to) = run_of(model, random.under(lower as usize) as u32);
        let third = random.under(model.vertices.len()) as u32;
        let new = [(to, third), (third, from)];
        if third != from && third != to && new.iter().all(|way| !running.contains(way)) {
            model.faces[last] = [to, third, from];
            return widen_all(model);
        }
    }
}

/// Boxes that hold whatever the faces become.
pub(super) fn widen_all(model: &mut Model) {
    for node in &mut model.nodes {
        node[..3].fill((-3.0e38_f32).to_bits());
        node[3..6].fill(3.0e38_f32.to_bits());
    }
}

/// Makes one adjacency entry wrong, often the last.
pub fn wrong_adjacency(model: &mut Model, random: &mut Random) {
    let half_edges = 3 * model.adjacency.len();
    if half_edges == 0 {
        return;
    }
    let h = match random.once_in(4) {
        true => half_edges - 1,
        false => random.under(half_edges),
    };
    let (entry, other) = (entry(model, h), entry(model, random.under(half_edges)));
    let limit = half_edges as u32;
    let wrong = match random.under(10) {
        0 => return forget_or_invent(model, h),
        1 => h as u32, // the one half-edge that runs the same way
        2 => limit,
        3 => limit + 1,
        4 => other, // of another pair
        5 => next_in_face(if entry < limit { entry } else { h as u32 }), // has one end in common
        6 => random.under(half_edges) as u32,
        7 => entry.wrapping_add(1),
        8 => entry.wrapping_sub(1),
        _ => random.odd_word(),
    };
    model.adjacency[h / 3][h % 3] = wrong;
}

/// Half-edge `h` loses its partner, or gets one where there is none.
pub fn forget_or_invent(model: &mut Model, h: usize) {
    let invented = next_in_face(h as u32); // never the partner
    let entry = &mut model.adjacency[h / 3][h % 3];
    *entry = if *entry == NONE { invented } else { NONE };
}

/// What adjacency says of half-edge `h`.
fn entry(model: &Model, h: usize) -> u32 {
    model.adjacency[h / 3][h % 3]
}

/// The half-edge that starts where this one ends.
fn next_in_face(h: u32) -> u32 {
    if h % 3 == 2 {
        h - 2
    } else {
        h + 1
    }
}
