//! Floors without nodes, for request M-113: of every size and with coordinates that are hard on boxes and planes: zeros of
//! either sign, sides that are equal or become so when rounded, sides of no length and sides past the largest float. Some are
//! damaged, and some have nodes after all. Outputs are lent at lengths around what is needed.

use super::cases::{any_floor, work};
use super::damage::{any_aims, any_model, damage_model, damaged_by, good, some_model};
use super::finish::finish;
use super::floors::{any_wish, chain, floor, Wish, PLAIN};
use super::model::{Model, NodeWords};
use super::random::Random;
use super::seams::some_length;
use crate::floor::tables::{Table, Tables, FIELDS, HEADER, LONGEST, ROOT_FIELD};
use crate::floor::WORK;
use crate::form::ORDER;
use crate::plant::tree;
use crate::words::{bytes_of, put_word, word_at};

const NONE: u32 = 0xFFFF_FFFF;
/// The bit that makes a float negative, which alone is negative zero.
const SIGN: u32 = 0x8000_0000;

/// A floor that is to get a tree, and what is lent for it.
#[derive(Clone, Debug)]
pub struct Planting {
    pub floor: Vec<u8>,
    pub work: Vec<u8>,
    pub out: Vec<u8>,
}

/// Any planting, most of them of floors that are right and have no nodes.
pub fn planting(random: &mut Random) -> Planting {
    let floor = match random.under(20) {
        0 => any_floor(random),
        1 => good(random),
        2 | 3 => with_nodes(random),
        4..=8 => broken(random),
        _ => {
            let model = bare(random);
            bytes_anywhere(&model, random)
        }
    };
    let wanted = match needed(&floor) {
        0 if random.once_in(2) => enough(&floor), // refused, and not for want of room
        needed => needed,
    };
    let length = some_length(random, wanted);
    lend(random, floor, length)
}

/// A small floor, lent every length from 0 to two more than needed in turn.
pub fn in_turn(random: &mut Random, turn: usize) -> Planting {
    let floor = small_bare().in_order();
    let length = turn % (needed(&floor) + 3);
    lend(random, floor, length)
}

/// What is lent is full of other bytes, so that it shows where nothing is written.
fn lend(random: &mut Random, floor: Vec<u8>, out: usize) -> Planting {
    Planting {
        floor,
        work: work(random),
        out: random.bytes(out),
    }
}

/// How many bytes the output must have; 0 if the floor is refused whatever it has.
pub fn needed(floor: &[u8]) -> usize {
    let mut out = vec![0; enough(floor)];
    tree(floor, &mut vec![0; WORK], &mut out).length as usize
}

/// So many bytes are enough for the form of a floor with this header and a tree.
pub fn enough(floor: &[u8]) -> usize {
    if floor.len() < HEADER {
        return 0;
    }
    let size = |table: Table| {
        let fields = &FIELDS[table as usize];
        let entries = match table {
            Table::Nodes => 2 * word_at(floor, FIELDS[Table::Faces as usize].count).min(4_096),
            _ => word_at(floor, fields.count).min(12_288),
        };
        fields.size * entries as usize
    };
    HEADER + ORDER.map(size).iter().sum::<usize>()
}

/// The floor as the reader is asked about it: with some tree that rules 11 to 14 allow, where it has no nodes but faces. The
/// tree stands behind all else, so that every other place stays; a floor that has no room for it stays as it is. Each
/// inner node n has the children 2n + 1 and 2n + 2, and every box is as large as can be.
pub fn under_any_tree(floor: &[u8]) -> Vec<u8> {
    let mut bytes = floor.to_vec();
    let faces = match Tables::open(floor) {
        Ok(tables) if tables.count(Table::Nodes) == 0 => tables.count(Table::Faces) as u32,
        _ => 0,
    };
    let fields = &FIELDS[Table::Nodes as usize];
    if faces == 0 || floor.len() + 2 * faces as usize * fields.size > LONGEST {
        return bytes;
    }
    put_word(&mut bytes, fields.count, 2 * faces - 1);
    put_word(&mut bytes, fields.offset, floor.len() as u32);
    put_word(&mut bytes, ROOT_FIELD, 0);
    for node in 0..2 * faces - 1 {
        let words = match node.checked_sub(faces - 1) {
            None => [NONE, 0, 1, 2 * node + 1, 2 * node + 2],
            Some(face) => [face, 0, 0, NONE, NONE],
        };
        let ends = [f32::MIN, f32::MAX].map(|end| [end.to_bits(); 3]);
        bytes.extend(bytes_of(&[&ends.concat()[..], &words].concat()));
    }
    bytes
}

/// Two triangles, no nodes, and a root field that says nothing.
pub fn small_bare() -> Model {
    let wish = Wish {
        columns: 1,
        rows: 1,
        ..PLAIN
    };
    let mut model = floor(&mut Random::new(1), wish);
    model.nodes.clear();
    model.root = 7;
    model
}

/// A floor that is right but for its nodes, of which it has none. Its root field is any number.
pub fn bare(random: &mut Random) -> Model {
    let mut model = match random.under(6) {
        0 => any_model(random),
        _ => {
            let faces = some_size(random);
            of_size(random, faces)
        }
    };
    if !random.once_in(5) {
        place_anew(&mut model, random);
    }
    let last = 2 * model.faces.len() as u32;
    model.nodes.clear();
    model.root = match random.under(3) {
        0 => random.odd_word(),
        _ => random.pick(&[0, 1, last, last.wrapping_sub(2), SIGN, NONE]),
    };
    model
}

/// How many faces: none, few, powers of two and what is beside them; now and then many.
fn some_size(random: &mut Random) -> usize {
    match random.under(80) {
        0 | 1 => random.pick(&[511, 512, 513, 1_023, 1_025, 2_047, 2_049, 4_095, 4_096]),
        2..=4 => random.pick(&[127, 128, 129, 255, 256, 257]),
        5..=18 => random.from_to(4, 70) as usize,
        _ => random.pick(&[
            0, 1, 1, 2, 2, 3, 3, 4, 5, 6, 7, 8, 9, 15, 16, 17, 31, 32, 33, 63, 64, 65,
        ]),
    }
}

/// A floor of just so many faces: a part of a storey, whose other vertices no face uses, or triangles that are all apart.
fn of_size(random: &mut Random, faces: usize) -> Model {
    if (1..=100).contains(&faces) && random.once_in(4) {
        return chain(random, faces);
    }
    let columns = match faces > 600 {
        true => 64,
        false => random.pick(&[1, 2, 3, 8, 16]),
    };
    let wish = Wish {
        columns,
        rows: faces.div_ceil(2 * columns),
        storeys: 1,
        holes: 0,
        ..any_wish(random)
    };
    let whole = floor(random, wish);
    let mut model = Model {
        floats: whole.floats,
        vertices: whole.vertices,
        faces: whole.faces[..faces].to_vec(),
        ..Model::default()
    };
    finish(&mut model, random, wish);
    model
}

/// Gives the vertices other coordinates. No rule but 14 asks where a vertex is, if only its floats are finite, so that a floor
/// without nodes stays right.
fn place_anew(model: &mut Model, random: &mut Random) {
    let choices = match random.under(8) {
        0 => vec![rounded_away(random); 3],
        1 | 2 => vec![some_floats(random); 3],
        _ => (0..3).map(|_| some_floats(random)).collect(),
    };
    for coordinates in &mut model.vertices {
        for (bits, choices) in coordinates.iter_mut().zip(&choices) {
            if !choices.is_empty() {
                *bits = random.pick(choices);
            }
        }
    }
    if random.once_in(3) {
        even_sides(model, random);
    }
}

/// Floats, as bits, from which the coordinates of an axis are taken; none if they are to stay.
fn some_floats(random: &mut Random) -> Vec<u32> {
    let largest = f32::MAX.to_bits();
    // from the largest float down to the first of these the way is infinite when rounded, to the second it is not
    let [half_a_step, less] = [0x7300_0000, 0x72FF_FFFF].map(|bits| bits | SIGN);
    match random.under(11) {
        0 | 1 => Vec::new(),
        2 => vec![0, SIGN],
        3 => vec![
            0,
            SIGN,
            random.pick(&[1, SIGN | 1, 0x3F80_0000, 0xBF80_0000]),
        ],
        4 => vec![largest, largest | SIGN, 0, 0x7F00_0000],
        5 => vec![largest, random.pick(&[half_a_step, less]), less],
        6 => vec![largest, largest - 1, largest | SIGN],
        7 => (0..8)
            .map(|_| random.under(9) as u32 | random.pick(&[0, SIGN]))
            .collect(), // the least there are
        8 => rounded_away(random),
        9 => vec![random.finite()],
        _ => (0..random.from_to(2, 6)).map(|_| random.finite()).collect(),
    }
}

/// 0, -1 and 2^24, all times the same: from -1 to 2^24 is rounded to 2^24, so that sides become equal that are not.
fn rounded_away(random: &mut Random) -> Vec<u32> {
    let times = random.pick(&[1.0_f32, 1.0, 1.0, 0.5, 1024.0, 1.0e-20, 1.0e20]);
    let floats = [0.0, -1.0, 16_777_216.0, 16_777_216.0];
    floats.map(|float: f32| (float * times).to_bits()).to_vec()
}

/// Makes two axes alike, or one the other's mirror image, so that their sides are equal in every box; the third is alike too,
/// or has no length, or stays as it is.
fn even_sides(model: &mut Model, random: &mut Random) {
    let [one, other, third] = random.pick(&[[0, 1, 2], [1, 2, 0], [0, 2, 1]]);
    let mirrored = random.pick(&[0, SIGN]);
    let what_of_third = random.under(3);
    for coordinates in &mut model.vertices {
        coordinates[other] = coordinates[one] ^ mirrored;
        match what_of_third {
            0 => coordinates[third] = coordinates[one],
            1 => coordinates[third] = 0,
            _ => (),
        }
    }
}

/// Lays a floor out, with any offset for the nodes that it does not have.
fn bytes_anywhere(model: &Model, random: &mut Random) -> Vec<u8> {
    let mut bytes = model.bytes(random);
    if model.nodes.is_empty() && random.once_in(2) {
        let offset = FIELDS[Table::Nodes as usize].offset;
        put_word(&mut bytes, offset, random.odd_word());
    }
    bytes
}

/// A floor without nodes that is damaged with an aim at other rules than 11 to 14; one in three has strange nodes too.
fn broken(random: &mut Random) -> Vec<u8> {
    let mut model = bare(random);
    if random.once_in(3) {
        model.nodes = strange_nodes(random);
    }
    let mut aims = any_aims(random);
    aims.retain(|aim| !(11..=14).contains(aim));
    if aims.is_empty() || random.once_in(3) {
        aims.clear();
        aims.push(random.from_to(15, 19) as u32);
    }
    damaged_by(model, random, &aims)
}

/// A floor that has nodes, right ones or wrong ones, and now and then is damaged before or behind 49 as well.
fn with_nodes(random: &mut Random) -> Vec<u8> {
    let mut model = some_model(random);
    match random.under(3) {
        0 => model.nodes = strange_nodes(random),
        1 => {
            let aim = random.from_to(11, 14) as u32;
            damage_model(&mut model, random, aim);
        }
        _ => (),
    }
    let mut aims = Vec::new();
    if random.once_in(2) {
        aims.push(random.from_to(15, 19) as u32);
    }
    if random.once_in(4) {
        aims.push(random.from_to(7, 10) as u32);
    }
    damaged_by(model, random, &aims)
}

/// Some nodes of any words, now and then with floats that are not finite.
fn strange_nodes(random: &mut Random) -> Vec<NodeWords> {
    let finite = !random.once_in(4);
    let word = |random: &mut Random| match finite {
        true => random.finite(),
        false => random.odd_word(),
    };
    (0..random.pick(&[1, 1, 2, 3, 20]))
        .map(|_| [0; 11].map(|_: i32| word(random)))
        .collect()
}
