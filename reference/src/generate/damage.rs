//! Damage to valid floors, aimed at each of the rules 1 to 19. One floor may be damaged twice or
//! three times, so that the order of the rules is tried too.

use super::finish::shuffle_faces;
use super::floors::{self, any_wish, Wish};
use super::model::Model;
use super::pair_damage::{same_run, wrong_adjacency};
use super::random::Random;
use super::shapes::{crowded, shape, SHAPES};
use super::tree_damage::{small_box, wrong_count_or_root, wrong_node, wrong_tree};
use crate::floor::mesh::walkable;
use crate::floor::tables::{FIELDS, HEADER, LONGEST};
use crate::words::{put_word, word_at};

const NONE: u32 = 0xFFFF_FFFF;
/// More faces than a floor of storeys has: the least number of a large floor.
pub const LARGE: usize = 500;
/// One floor in so many is large: they take far longer than the others.
const RARE: usize = 100;

/// A valid floor, laid out in either way.
pub fn good(random: &mut Random) -> Vec<u8> {
    let model = any_model(random);
    model.bytes(random)
}

/// A valid floor as lists; now and then a chain as deep as the rule allows.
pub(super) fn any_model(random: &mut Random) -> Model {
    if random.once_in(60) {
        return floors::chain(random, 65);
    }
    if random.once_in(RARE) {
        return large_model(random);
    }
    let wish = any_wish(random);
    floors::floor(random, wish)
}

/// A floor for rules 15 and 16: a crowd, or a shape with its faces in order or in any.
fn large_model(random: &mut Random) -> Model {
    let faces = random.pick(&[LARGE, 4_096, 4_096]);
    if random.once_in(5) {
        return crowded(random, faces);
    }
    let (kind, unwalkable) = (random.pick(&SHAPES), random.pick(&[0, 0, 9]));
    let mut model = shape(random, kind, faces, unwalkable);
    if random.once_in(2) {
        shuffle_faces(&mut model, random);
    }
    model
}

/// A floor with some faces, so that there is something to damage; now and then as many as allowed.
pub(super) fn some_model(random: &mut Random) -> Model {
    if random.once_in(RARE) {
        return large_model(random);
    }
    let wish = any_wish(random);
    let wish = Wish {
        columns: wish.columns.max(1),
        rows: wish.rows.max(2),
        ..wish
    };
    floors::floor(random, wish)
}

/// A floor damaged at one to three places, aimed at any rules, the later ones more often. Large floors
/// are rare, so most of them are kept for the two rules that they are made for.
pub fn bad(random: &mut Random) -> Vec<u8> {
    let model = match random.once_in(8) {
        true => any_model(random),
        false => some_model(random),
    };
    damaged(model, random)
}

/// A floor damaged so.
pub(super) fn damaged(model: Model, random: &mut Random) -> Vec<u8> {
    let aims = match model.faces.len() < LARGE || random.once_in(4) {
        true => any_aims(random),
        false => vec![random.pick(&[15, 16])],
    };
    damaged_by(model, random, &aims)
}

/// A floor damaged with an aim at each of these rules, which stand from the last to the first.
pub(super) fn damaged_by(mut model: Model, random: &mut Random, aims: &[u32]) -> Vec<u8> {
    for aim in aims.iter().filter(|aim| **aim >= 8) {
        damage_model(&mut model, random, *aim);
    }
    let mut bytes = model.bytes(random);
    for aim in aims.iter().filter(|aim| **aim < 8) {
        damage_bytes(&mut bytes, random, *aim);
    }
    bytes
}

/// One to three rules, the last first.
pub(super) fn any_aims(random: &mut Random) -> Vec<u32> {
    let times = random.pick(&[1, 1, 1, 1, 2, 2, 3]);
    let aim = |random: &mut Random| match random.once_in(6) {
        true => random.from_to(1, 6) as u32,
        false => random.from_to(7, 19) as u32,
    };
    let mut aims: Vec<u32> = (0..times).map(|_| aim(random)).collect();
    aims.sort_by(|one, other| other.cmp(one)); // the length last: the others need the header
    aims.dedup();
    aims
}

/// Bytes that are no floor at all, or a floor with some bytes changed anywhere.
pub fn noise(random: &mut Random) -> Vec<u8> {
    if random.once_in(4) {
        let length = random.pick(&[0, 1, 135, 136, 137, 200, 300]);
        return random.bytes(length);
    }
    let mut bytes = good(random);
    for _ in 0..random.from_to(1, 6) {
        let within = if random.once_in(2) {
            HEADER
        } else {
            bytes.len()
        };
        let at = random.under(within);
        bytes[at] = match random.under(3) {
            0 => random.byte(),
            1 => bytes[at].wrapping_add(1),
            _ => bytes[at] ^ (1 << random.under(8)),
        };
    }
    bytes
}

fn damage_bytes(bytes: &mut Vec<u8>, random: &mut Random, aim: u32) {
    match aim {
        1 => wrong_length(bytes, random),
        2 => bytes[random.under(8)] ^= 1 << random.under(8),
        3 => put_word(bytes, 8, random.pick(&[0, 2, 256, 0x0100_0000, NONE])),
        4 => (0..random.from_to(1, 2)).for_each(|_| large_count(bytes, random)),
        5 => offset_outside(bytes, random),
        6 => offset_shared(bytes, random),
        _ => (0..random.from_to(1, 3)).for_each(|_| not_finite(bytes, random)),
    }
}

fn wrong_length(bytes: &mut Vec<u8>, random: &mut Random) {
    match random.under(40) {
        0 => bytes.resize(LONGEST, random.byte()), // still right
        1 => bytes.resize(LONGEST + 1, random.byte()),
        2..=9 => bytes.truncate(135),
        10..=19 => bytes.truncate(random.under(136)),
        _ => bytes.truncate(random.under(bytes.len()).max(HEADER)), // rule 5 for most
    }
}

fn large_count(bytes: &mut [u8], random: &mut Random) {
    let field = random.pick(&[72, 80, 100, 112, 120, 128]);
    let limit = match field {
        72 | 80 => 4_096,
        100 => 8_191,
        112 => word_at(bytes, 80),
        _ => 12_288,
    };
    let over = random.pick(&[1, 1, 1, 2, 70_000]);
    let count = if random.once_in(6) {
        NONE
    } else {
        limit.wrapping_add(over)
    };
    put_word(bytes, field, count);
}

fn offset_outside(bytes: &mut [u8], random: &mut Random) {
    let fields = &FIELDS[random.under(9)];
    let size = word_at(bytes, fields.count).wrapping_mul(fields.size as u32);
    let last = (bytes.len() as u32).wrapping_sub(size);
    let start = match random.under(5) {
        0 => last, // just inside
        1 => last.wrapping_add(1),
        2 => random.under(HEADER) as u32,
        3 => 135,
        _ => random.odd_word(),
    };
    put_word(bytes, fields.offset, start);
}

/// Moves a table onto another, or by a few bytes to either side.
fn offset_shared(bytes: &mut [u8], random: &mut Random) {
    let fields = &FIELDS[random.under(9)];
    let other = &FIELDS[random.under(9)];
    let start = match random.under(3) {
        0 => word_at(bytes, other.offset),
        1 => {
            let size = word_at(bytes, other.count).wrapping_mul(other.size as u32);
            let within = random.under(size as usize) as u32;
            word_at(bytes, other.offset).wrapping_add(within)
        }
        _ => {
            let by = random.pick(&[1, 2, 4, NONE, NONE - 3]);
            word_at(bytes, fields.offset).wrapping_add(by)
        }
    };
    put_word(bytes, fields.offset, start);
}

fn not_finite(bytes: &mut [u8], random: &mut Random) {
    let table = random.pick(&[0, 3, 4, 5, 5, 9]);
    let at = match table {
        9 => 12 + 4 * random.under(15),
        _ => {
            let fields = &FIELDS[table];
            let floats = random.under(if table == 5 { 6 } else { fields.size / 4 });
            let entry = random.under(word_at(bytes, fields.count) as usize);
            (word_at(bytes, fields.offset) as usize)
                .saturating_add(entry.wrapping_mul(fields.size))
                .saturating_add(4 * floats)
        }
    };
    if at.saturating_add(4) <= bytes.len() {
        let bits = random.pick(&[0x7F80_0000, 0xFF80_0000, 0x7FC0_0000, 0x7F80_0001, NONE]);
        put_word(bytes, at, bits);
    }
}

pub(super) fn damage_model(model: &mut Model, random: &mut Random, aim: u32) {
    if model.faces.is_empty() {
        model.nodes.push([0; 11]); // 11 at 100, whatever the root
        return;
    }
    match aim {
        8 => wrong_corner(model, random),
        9 => *any(&mut model.materials, random) = random.pick(&[23, 24, 255, 256, NONE]),
        10 => wrong_walkability(model, random),
        11 => wrong_count_or_root(model, random),
        12 => wrong_node(model, random),
        13 => wrong_tree(model, random),
        14 => small_box(model, random),
        15 => same_run(model, random),
        16 => wrong_adjacency(model, random),
        17 => wrong_edge(model, random),
        18 => wrong_transition(model, random),
        _ => wrong_perimeter(model, random),
    }
}

/// Any item of a list that is not empty.
pub(super) fn any<'a, T>(items: &'a mut [T], random: &mut Random) -> &'a mut T {
    let index = random.under(items.len());
    &mut items[index]
}

fn wrong_corner(model: &mut Model, random: &mut Random) {
    let vertices = model.vertices.len() as u32;
    let face = any(&mut model.faces, random);
    let corner = random.under(3);
    face[corner] = match random.under(4) {
        0 => vertices,
        1 => random.odd_word(),
        _ => face[(corner + 1 + random.under(2)) % 3],
    };
}

fn wrong_walkability(model: &mut Model, random: &mut Random) {
    match random.under(4) {
        0 => drop(model.adjacency.pop()),
        1 if model.adjacency.len() < model.faces.len() => model.adjacency.push([NONE; 3]),
        _ => {
            let material = any(&mut model.materials, random);
            let now = walkable(*material);
            while walkable(*material) == now {
                *material = random.under(23) as u32;
            }
        }
    }
}

fn wrong_edge(model: &mut Model, random: &mut Random) {
    if model.edges.is_empty() {
        model.edges.push([random.pick(&[0, 1, NONE]), NONE]);
        return;
    }
    let half_edges = 3 * model.faces.len();
    let earlier = model.edges[random.under(model.edges.len())][0];
    match random.under(6) {
        0 => drop(model.edges.pop()),
        1 => model.edges.push([random.under(half_edges) as u32, NONE]),
        2 => any(&mut model.edges, random)[0] = random.under(half_edges) as u32,
        3 => any(&mut model.edges, random)[0] = 3 * model.adjacency.len() as u32,
        4 => any(&mut model.edges, random)[0] = random.odd_word(),
        _ => any(&mut model.edges, random)[0] = earlier,
    }
}

fn wrong_transition(model: &mut Model, random: &mut Random) {
    if model.edges.is_empty() {
        return;
    }
    let wrong = random.pick(&[64, 65, 255, NONE - 1, 0x7FFF_FFFF, 0x8000_0000, 0x0000_FFFF]);
    any(&mut model.edges, random)[1] = wrong;
}

fn wrong_perimeter(model: &mut Model, random: &mut Random) {
    let edges = model.edges.len();
    let last = model.perimeters.last().copied().unwrap_or(0);
    let after = last.wrapping_add(1);
    if edges < 2 || model.perimeters.is_empty() {
        model.perimeters.push(random.pick(&[0, 1, last, after]));
        return;
    }
    match random.under(10) {
        0 => drop(model.perimeters.pop()),
        1 => model.perimeters.push(last),
        2 => model.perimeters.push(after),
        3 => model.perimeters.insert(0, 0),
        4 => model.perimeters.reverse(),
        5 => *any(&mut model.perimeters, random) = random.odd_word(),
        6 => add(any(&mut model.perimeters, random), 1),
        7 => add(any(&mut model.perimeters, random), NONE),
        8 => split_loop(model, random),
        _ => model.edges.swap(random.under(edges), random.under(edges)),
    }
}

/// Adds without regard to an overflow: entries may be any words already.
fn add(entry: &mut u32, by: u32) {
    *entry = entry.wrapping_add(by);
}

/// Ends a loop early, where it may or may not have come back to its start; or joins two loops.
fn split_loop(model: &mut Model, random: &mut Random) {
    if random.once_in(2) && model.perimeters.len() > 1 {
        model
            .perimeters
            .remove(random.under(model.perimeters.len() - 1));
        return;
    }
    let end = 1 + random.under(model.edges.len()) as u32;
    if let Err(at) = model.perimeters.binary_search(&end) {
        model.perimeters.insert(at, end);
    }
}
