//! Valid floors of up to 4,096 faces, for rules 15 and 16 and for timing: grids, fans around one vertex,
//! long strips, crowds of borders, and half-edges that meet in one place of an index.

use super::finish::finish;
use super::floors::{any_wish, floor, TreeShape, Wish, PLAIN};
use super::model::Model;
use super::random::Random;
use crate::grid::bits_of;
use std::collections::HashSet;

/// The most vertices that a floor may have.
const VERTICES: u32 = 4_096;

/// How the faces of a large floor hang together.
#[derive(Clone, Copy, Debug, PartialEq, Eq)]
pub enum Shape {
    Grid,
    Fan,
    Strip,
    Colliding,
}

/// All of them.
pub const SHAPES: [Shape; 4] = [Shape::Grid, Shape::Fan, Shape::Strip, Shape::Colliding];

/// A floor of this shape and so many faces (an even number from 8 to 4,096), everything in the order in
/// which it is made. One face in so many is not walkable; 0 means none.
pub fn shape(random: &mut Random, shape: Shape, faces: usize, unwalkable: usize) -> Model {
    let [columns, rows] = cells(faces);
    let wish = Wish {
        columns,
        rows,
        unwalkable,
        ..PLAIN
    };
    let mut model = match shape {
        Shape::Grid => return floor(random, wish),
        Shape::Fan => fan(random, faces as u32),
        Shape::Strip => strip(random, faces as u32),
        Shape::Colliding => colliding(random, faces),
    };
    finish(&mut model, random, wish);
    model
}

/// The columns and rows of a grid of so many faces, as square as can be.
fn cells(faces: usize) -> [usize; 2] {
    let cells = faces / 2;
    let fits = |rows: &usize| rows * rows <= cells && cells / rows * rows == cells;
    let rows = (1..=cells).rev().find(fits).unwrap_or(1);
    [cells / rows, rows]
}

/// A floor of `columns` by `rows` cells without holes, all walkable, in any order, for timing.
pub fn large(random: &mut Random, columns: usize, rows: usize) -> Model {
    let wish = Wish {
        columns,
        rows,
        in_order: false,
        ..PLAIN
    };
    floor(random, wish)
}

/// A closed fan: vertex 0 is in every face. With at most 4,095 vertices around it, face 4,096 lies at
/// the rim, over two of its sides.
fn fan(random: &mut Random, faces: u32) -> Model {
    let rim = faces.min(VERTICES - 1);
    let mut model = Model::default();
    add_vertex(&mut model, random, [512, 512]);
    for i in 0..rim as i64 {
        let along = i % 1_024;
        let sides = [
            [along, 0],
            [1_024, along],
            [1_024 - along, 1_024],
            [0, 1_024 - along],
        ];
        add_vertex(&mut model, random, sides[i as usize / 1_024]);
    }
    model.faces = (0..rim).map(|i| [0, i + 1, (i + 1) % rim + 1]).collect();
    if faces > rim {
        model.faces.push([2, 1, 3]);
    }
    model
}

/// A band two vertices wide, closed to a ring, so that 4,096 faces make do with 4,096 vertices.
fn strip(random: &mut Random, faces: u32) -> Model {
    let mut model = Model::default();
    for i in 0..i64::from(faces) {
        add_vertex(&mut model, random, [i / 2, i % 2]);
    }
    let face = |i: u32| match i % 2 {
        0 => [i, (i + 1) % faces, (i + 2) % faces],
        _ => [(i + 1) % faces, i, (i + 2) % faces], // all turn the same way
    };
    model.faces = (0..faces).map(face).collect();
    model
}

/// Adds a vertex at x and y in halves, at any height.
fn add_vertex(model: &mut Model, random: &mut Random, [x, y]: [i64; 2]) {
    let z = random.from_to(-200, 200);
    model.vertices.push([32 * x, 32 * y, z].map(bits_of));
}

/// A floor of this many faces over 4,096 vertices, any three of them a face, but no two faces along
/// one side: every half-edge of a walkable face is a border.
pub fn crowded(random: &mut Random, faces: usize) -> Model {
    let mut model = anywhere(random);
    let mut sides = HashSet::new();
    while model.faces.len() < faces {
        let [a, b, c] = [0; 3].map(|_: i32| random.under(VERTICES as usize) as u32);
        let new = [(a, b), (b, c), (c, a)].map(|(one, other)| (one.min(other), one.max(other)));
        if a != b && b != c && c != a && new.iter().all(|side| !sides.contains(side)) {
            sides.extend(new);
            model.faces.push([a, b, c]);
        }
    }
    let wish = Wish {
        tree: random.pick(&[TreeShape::Any, TreeShape::Near]),
        unwalkable: random.pick(&[0, 5]),
        ..any_wish(random)
    };
    finish(&mut model, random, wish);
    model
}

/// 4,096 vertices anywhere on the grid, and no faces yet.
fn anywhere(random: &mut Random) -> Model {
    let mut model = Model::default();
    for _ in 0..VERTICES {
        let corner = [0; 3].map(|_: i32| bits_of(random.from_to(-65_536, 65_536)));
        model.vertices.push(corner);
    }
    model
}

/// The index that is compared keeps the half-edge from a to b in chain (a + 517 b) % 16,384, and a look
/// along a chain costs its length. A chain has room for about 1,024 half-edges of 4,096 vertices.
const CHAINS: u32 = 16_384;
/// 517 times this is 1, among the remainders of 16,384.
const INVERSE: u32 = 15_053;

/// The vertex to which chain `chain` leads from `from`, if there is one.
fn along(chain: u32, from: u32) -> Option<u32> {
    let to = (chain + CHAINS - from) * INVERSE % CHAINS;
    (to < VERTICES && to != from).then_some(to)
}

/// The worst floor for that index which can be had without long search: two half-edges of each face
/// lie in one of a few chains, as few as there can be, so that those are long.
fn colliding(random: &mut Random, faces: usize) -> Model {
    let mut model = anywhere(random);
    let mut chains = Vec::new();
    while model.faces.len() < faces {
        chains.push(random.under(CHAINS as usize) as u32);
        if chains.len() > faces / 512 {
            model.faces = faces_along(&chains, faces);
        }
    }
    model
}

/// At most so many faces, the first two half-edges of each in one of these chains; no two half-edges
/// run the same way.
fn faces_along(chains: &[u32], most: usize) -> Vec<[u32; 3]> {
    let mut running = HashSet::new();
    let mut faces = Vec::new();
    for &chain in chains {
        for a in 0..VERTICES {
            let Some(b) = along(chain, a).filter(|&b| !running.contains(&(a, b))) else {
                continue;
            };
            let mut thirds = chains.iter().filter_map(|&other| along(other, b));
            let free =
                |&c: &u32| c != a && [(b, c), (c, a)].iter().all(|way| !running.contains(way));
            if let Some(c) = thirds.find(free) {
                running.extend([(a, b), (b, c), (c, a)]);
                faces.push([a, b, c]);
            }
            if faces.len() == most {
                return faces;
            }
        }
    }
    faces
}
