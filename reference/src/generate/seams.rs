//! Floors to mend, for request M-109: vertices stored again for some corners, zeros of either sign, unused
//! vertices among the used ones, corners that meet where none may, and lists of edges and perimeters that
//! are right, left over from the whole floor, or strange. Outputs are lent at lengths around what is needed.

use super::cases::{any_floor, work};
use super::damage;
use super::finish::{add_adjacency, add_edges, shuffle_faces};
use super::floors::{floor, Wish, PLAIN};
use super::model::Model;
use super::pair_damage::widen_all;
use super::random::Random;
use crate::floor::tables::{Table, FIELDS, HEADER};
use crate::floor::WORK;
use crate::grid::bits_of;
use crate::mend::mend;
use crate::words::word_at;

const NONE: u32 = 0xFFFF_FFFF;
/// The bit that makes a zero negative.
const SIGN: u32 = 0x8000_0000;
/// The most vertices and edges that a floor may have.
const VERTICES: usize = 4_096;
const EDGES: usize = 12_288;

/// A floor to mend and what is lent for it.
#[derive(Clone, Debug)]
pub struct Mending {
    pub floor: Vec<u8>,
    pub work: Vec<u8>,
    pub out: Vec<u8>,
    pub list: Vec<u8>,
}

/// Any mending, most of them of floors with split seams.
pub fn mending(random: &mut Random) -> Mending {
    let floor = match random.under(12) {
        0 => any_floor(random),
        1 => damage::good(random),
        2 => {
            let model = seam(random);
            damage::damaged(model, random)
        }
        _ => seam(random).bytes(random),
    };
    let wanted = match needed(&floor) {
        [0, 0] if random.once_in(2) => enough(&floor), // refused, and not for want of room
        needed => needed,
    };
    let lengths = wanted.map(|length| some_length(random, length));
    lend(random, floor, lengths)
}

/// A small floor with a seam, lent every length from 0 to two more than needed in turn, of the output in
/// even turns and of the list in odd ones. The other has room enough.
pub fn in_turn(random: &mut Random, turn: usize) -> Mending {
    let floor = small_seam().in_order();
    let needed = needed(&floor);
    let mut lengths = needed;
    lengths[turn % 2] = turn / 2 % (needed[turn % 2] + 3);
    lend(random, floor, lengths)
}

/// What is lent is full of other bytes, so that it shows where nothing is written.
fn lend(random: &mut Random, floor: Vec<u8>, [out, list]: [usize; 2]) -> Mending {
    Mending {
        floor,
        work: work(random),
        out: random.bytes(out),
        list: random.bytes(list),
    }
}

/// How many bytes the output and the list must have; 0 if the floor is refused whatever they have.
pub fn needed(floor: &[u8]) -> [usize; 2] {
    let [out, list] = enough(floor);
    let answer = mend(
        floor,
        &mut vec![0; WORK],
        &mut vec![0; out],
        &mut vec![0; list],
    );
    [answer.length as usize, answer.listed as usize]
}

/// So many bytes are enough for the output and the list, whatever mending makes of a floor with this header: every
/// walkable half-edge an edge, a third of them ends of loops; every corner changed, every transition lost.
pub fn enough(floor: &[u8]) -> [usize; 2] {
    if floor.len() < HEADER {
        return [0, 0];
    }
    let count = |table: Table| word_at(floor, FIELDS[table as usize].count).min(8_191) as usize;
    let (faces, walkable) = (count(Table::Faces), count(Table::Adjacency));
    let vertices_and_nodes = 12 * count(Table::Vertices) + 44 * count(Table::Nodes);
    let out = HEADER + vertices_and_nodes + 32 * faces + (12 + 3 * 8 + 4) * walkable;
    [out, 3 * 15 * faces + 3 * 7 * walkable]
}

/// A length around what is needed, mostly enough.
pub(super) fn some_length(random: &mut Random, needed: usize) -> usize {
    match random.under(16) {
        0 => 0,
        1 => needed.saturating_sub(1),
        2 => random.under(needed + 1),
        3 | 4 => needed + 1,
        5 | 6 => needed + random.under(3_000),
        _ => needed,
    }
}

/// Two triangles of which one has all its corners stored again, with every edge linked: the lists are
/// right as it stands.
pub fn small_seam() -> Model {
    let random = &mut Random::new(1);
    let wish = Wish {
        columns: 1,
        rows: 1,
        ..PLAIN
    };
    let mut model = floor(random, wish);
    for corner in 0..3 {
        store_again(&mut model, 1, corner);
    }
    list_anew(&mut model, random);
    for (room, edge) in model.edges.iter_mut().enumerate() {
        edge[1] = room as u32;
    }
    model
}

/// A floor of so many cells without a seam, for timing: every vertex has a place of its own.
pub fn spread(random: &mut Random, columns: usize, rows: usize) -> Model {
    let wish = Wish {
        columns,
        rows,
        ..PLAIN
    };
    let mut model = floor(random, wish);
    for (vertex, place) in model.vertices.iter_mut().enumerate() {
        let (row, column) = (vertex / (columns + 1), vertex % (columns + 1));
        let z = random.from_to(-200, 200);
        *place = [64 * column as i64, 64 * row as i64, z].map(bits_of);
    }
    widen_all(&mut model);
    model
}

/// A floor of 4,096 vertices, two at each place. A cell's two triangles have different copies, so that a seam runs
/// through every cell. Its lists are right as it stands.
pub fn stored_twice(random: &mut Random) -> Model {
    let mut model = spread(random, 63, 31);
    let again = model.vertices.len() as u32;
    model.vertices.extend(model.vertices.clone());
    for (number, face) in model.faces.iter_mut().enumerate() {
        if number % 2 == 1 {
            *face = face.map(|corner| corner + again);
        }
    }
    list_anew(&mut model, random);
    model
}

/// A floor whose shared vertices are stored again, here and there.
pub fn seam(random: &mut Random) -> Model {
    let mut model = match random.under(60) {
        0 | 1 => large_seam(random),
        2..=11 => damage::any_model(random),
        _ => damage::some_model(random),
    };
    if random.once_in(5) {
        flatten(&mut model);
    }
    split(&mut model, random);
    for _ in 0..random.pick(&[0, 0, 0, 0, 1, 2]) {
        meet(&mut model, random);
    }
    add_unused(&mut model, random);
    if random.once_in(2) {
        renumber(&mut model, random);
    }
    if random.once_in(2) {
        turn_zeros(&mut model, random);
    }
    list(&mut model, random);
    model
}

/// A large floor with seams wherever there is room for them: all vertices twice, or every face with corners of its
/// own. The faces stand in any order.
fn large_seam(random: &mut Random) -> Model {
    let mut model = match random.once_in(2) {
        true => stored_twice(random),
        false => {
            let mut model = spread(random, 26, 26);
            own_corners(&mut model);
            model
        }
    };
    shuffle_faces(&mut model, random);
    model
}

/// Puts all vertices at height 0, so that storeys meet and zeros are many. Boxes reach there.
fn flatten(model: &mut Model) {
    for vertex in &mut model.vertices {
        vertex[2] = 0;
    }
    for node in &mut model.nodes {
        node[2] = f32::from_bits(node[2]).min(0.0).to_bits();
        node[5] = f32::from_bits(node[5]).max(0.0).to_bits();
    }
}

/// Stores a face's corner again, if there is room for another vertex.
fn store_again(model: &mut Model, face: usize, corner: usize) {
    let same = model.vertices[model.faces[face][corner] as usize];
    give_corner(model, face, corner, same);
}

/// Gives a face a corner of its own at this place, if there is room for another vertex.
fn give_corner(model: &mut Model, face: usize, corner: usize, place: [u32; 3]) {
    if model.vertices.len() < VERTICES {
        model.faces[face][corner] = model.vertices.len() as u32;
        model.vertices.push(place);
    }
}

/// Splits seams: of every face, along a part of the faces, at some corners, or nowhere.
fn split(model: &mut Model, random: &mut Random) {
    let one_in = match random.under(5) {
        0 if 3 * model.faces.len() <= VERTICES => return own_corners(model),
        0 => 1,
        1 | 2 => return split_off(model, random),
        3 => random.pick(&[2, 3, 8]),
        _ => return,
    };
    for face in 0..model.faces.len() {
        for corner in 0..3 {
            if random.once_in(one_in) {
                store_again(model, face, corner);
            }
        }
    }
    if random.once_in(2) {
        drop_unused(model);
    }
}

/// Gives every face three vertices of its own and leaves out all others.
fn own_corners(model: &mut Model) {
    let corners = model.faces.iter().flatten();
    model.vertices = corners
        .map(|&corner| model.vertices[corner as usize])
        .collect();
    for (face, corners) in model.faces.iter_mut().enumerate() {
        *corners = [0, 1, 2].map(|corner| 3 * face as u32 + corner);
    }
}

/// Stores again, once, each vertex of a part of the faces: those from some face on, or any.
fn split_off(model: &mut Model, random: &mut Random) {
    let from = random.under(model.faces.len());
    let any = random.once_in(2);
    let mut again = vec![None; model.vertices.len()];
    for face in 0..model.faces.len() {
        let is_in = if any { random.once_in(2) } else { face >= from };
        for corner in 0..3 {
            let vertex = model.faces[face][corner] as usize;
            match again[vertex] {
                _ if !is_in => (),
                Some(stored) => model.faces[face][corner] = stored,
                None => {
                    store_again(model, face, corner);
                    again[vertex] = Some(model.faces[face][corner]);
                }
            }
        }
    }
}

/// Leaves out the vertices that no face uses.
fn drop_unused(model: &mut Model) {
    let mut numbers = vec![None; model.vertices.len()];
    let mut vertices = Vec::new();
    for corner in model.faces.iter_mut().flatten() {
        let vertex = *corner as usize;
        *corner = *numbers[vertex].get_or_insert_with(|| {
            vertices.push(model.vertices[vertex]);
            vertices.len() as u32 - 1
        });
    }
    model.vertices = vertices;
}

/// Lets corners meet that are parted: two vertices at one place, a face over another one, or a face that
/// has two corners at one place. Rules 8 and 15 may find that once the corners are changed.
fn meet(model: &mut Model, random: &mut Random) {
    if model.faces.is_empty() {
        return;
    }
    let face = random.under(model.faces.len());
    let other = random.under(model.faces.len());
    match random.under(4) {
        0 | 1 => {
            let [one, other] = [0; 2].map(|_: i32| random.under(model.vertices.len()));
            model.vertices[one] = model.vertices[other];
        }
        2 => {
            let mut places = model.faces[other].map(|corner| model.vertices[corner as usize]);
            if random.once_in(2) {
                places.swap(0, 1); // the other way round
            }
            places.rotate_left(random.under(3));
            for (corner, place) in places.into_iter().enumerate() {
                give_corner(model, face, corner, place);
            }
        }
        _ => {
            let corner = random.under(3);
            let beside = model.faces[face][(corner + 1) % 3];
            give_corner(model, face, corner, model.vertices[beside as usize]);
        }
    }
    widen_all(model);
}

/// Adds vertices that no face uses, many of them where others are; now and then all that there is room for at one place.
fn add_unused(model: &mut Model, random: &mut Random) {
    if random.once_in(150) && !model.vertices.is_empty() {
        let place = model.vertices[random.under(model.vertices.len())];
        return model.vertices.resize(VERTICES, place);
    }
    for _ in 0..random.pick(&[0, 0, 1, 2, 5]) {
        if model.vertices.len() < VERTICES {
            let place = match model.vertices.is_empty() || random.once_in(4) {
                true => [0; 3].map(|_: i32| random.finite()),
                false => model.vertices[random.under(model.vertices.len())],
            };
            model.vertices.push(place);
        }
    }
}

/// Gives the vertices other numbers, so that any of those at one place may be the lowest.
fn renumber(model: &mut Model, random: &mut Random) {
    let mut order: Vec<usize> = (0..model.vertices.len()).collect();
    random.shuffle(&mut order);
    let mut numbers = vec![0; order.len()];
    for (number, &was) in order.iter().enumerate() {
        numbers[was] = number as u32;
    }
    model.vertices = order.iter().map(|&was| model.vertices[was]).collect();
    for corner in model.faces.iter_mut().flatten() {
        *corner = numbers[*corner as usize];
    }
}

/// Turns the sign of some zeros among the coordinates.
fn turn_zeros(model: &mut Model, random: &mut Random) {
    for bits in model.vertices.iter_mut().flatten() {
        if *bits & !SIGN == 0 && random.once_in(2) {
            *bits ^= SIGN;
        }
    }
}

/// Adjacency, edges and perimeters that are right for the split floor, or those of the whole one; then some of
/// them damaged, strange or gone.
fn list(model: &mut Model, random: &mut Random) {
    if random.once_in(2) {
        list_anew(model, random);
    }
    for _ in 0..random.pick(&[0, 0, 1, 1, 2, 3]) {
        match random.under(6) {
            0 | 1 if !model.faces.is_empty() => {
                let aim = random.from_to(16, 19) as u32;
                damage::damage_model(model, random, aim);
            }
            2 => repeat_entries(model, random),
            3 => model.edges = strange_edges(random, model.adjacency.len()),
            4 => {
                let count = random.pick(&[0, 0, 1, 5, 30]);
                model.perimeters = (0..count).map(|_| random.odd_word()).collect();
            }
            _ => {
                for entry in model.adjacency.iter_mut().flatten() {
                    *entry = random.odd_word();
                }
            }
        }
    }
}

/// Lists that are right as the floor stands, before it is mended.
fn list_anew(model: &mut Model, random: &mut Random) {
    add_adjacency(model);
    model.edges.clear();
    model.perimeters.clear();
    add_edges(model, random, false);
}

/// Adds entries of half-edges that have one, to the same room or to another.
fn repeat_entries(model: &mut Model, random: &mut Random) {
    for _ in 0..random.from_to(1, 4) {
        if model.edges.is_empty() || model.edges.len() == EDGES {
            return;
        }
        let [h, to] = model.edges[random.under(model.edges.len())];
        let to = match random.once_in(2) {
            true => to,
            false => transition(random),
        };
        let at = random.under(model.edges.len() + 1);
        model.edges.insert(at, [h, to]);
    }
}

/// Any entries: half-edges in any order, twice, not walkable or none, with transitions right and wrong.
fn strange_edges(random: &mut Random, walkable: usize) -> Vec<[u32; 2]> {
    let half_edges = 3 * walkable;
    let count = random.under(half_edges + 8).min(EDGES);
    let entry = |random: &mut Random| {
        let h = match random.under(8) {
            0 => half_edges as u32 + random.under(4) as u32,
            1 => random.odd_word(),
            _ => random.under(half_edges) as u32,
        };
        [h, transition(random)]
    };
    (0..count).map(|_| entry(random)).collect()
}

/// A transition, now and then one that cannot be.
fn transition(random: &mut Random) -> u32 {
    match random.under(6) {
        0 => random.pick(&[64, 65, 99, NONE - 1, SIGN]),
        1 => random.pick(&[NONE, NONE, 0, 63]),
        _ => random.from_to(-1, 63) as u32,
    }
}
