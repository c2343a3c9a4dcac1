//! Valid floors: what is wished for, and storeys of triangles on the grid with holes. `finish` gives
//! them the rest, `shapes` has the large ones.

use super::finish::finish;
use super::model::Model;
use super::random::Random;
use crate::grid::bits_of;

/// What kind of floor is wanted.
#[derive(Clone, Copy, Debug)]
pub struct Wish {
    /// Storeys, and columns and rows of cells in each; a cell is two triangles.
    pub storeys: usize,
    pub columns: usize,
    pub rows: usize,
    /// One cell in so many is a hole; one face in so many is not walkable. 0 means none.
    pub holes: usize,
    pub unwalkable: usize,
    /// Some vertices off the grid.
    pub off_grid: bool,
    pub tree: TreeShape,
    /// The tree goes at most so many steps down; the reader allows 64.
    pub deepest: usize,
    /// Faces, nodes and borders in the order in which they are made, the root first; else in any.
    pub in_order: bool,
}

/// One storey, all walkable, without holes, in order; columns and rows are still to be said.
pub const PLAIN: Wish = Wish {
    storeys: 1,
    columns: 0,
    rows: 0,
    holes: 0,
    unwalkable: 0,
    off_grid: false,
    tree: TreeShape::Near,
    deepest: 64,
    in_order: true,
};

/// How the faces are split among the nodes.
#[derive(Clone, Copy, Debug, PartialEq, Eq)]
pub enum TreeShape {
    Halves,
    /// Halves of the faces in the order of their corners, so that near faces stay together.
    Near,
    Any,
    /// One face at a time: as deep as there are faces.
    Chain,
}

/// A wish for a floor of any small size, mostly under 30 faces, at most a few hundred.
pub fn any_wish(random: &mut Random) -> Wish {
    let widest = random.pick(&[1, 1, 2, 2, 3, 3, 4, 5, 7, 9]);
    Wish {
        storeys: random.pick(&[1, 1, 1, 2, 3]),
        columns: random.under(widest + 1),
        rows: random.under(widest + 1),
        holes: random.pick(&[0, 3, 6]),
        unwalkable: random.pick(&[0, 2, 5]),
        off_grid: false,
        tree: random.pick(&[
            TreeShape::Halves,
            TreeShape::Near,
            TreeShape::Any,
            TreeShape::Chain,
        ]),
        deepest: 64,
        in_order: false,
    }
}

/// A floor that the reader accepts. Its parts are made by rules of this file, not by the reader's.
pub fn floor(random: &mut Random, wish: Wish) -> Model {
    let mut model = Model::default();
    for float in &mut model.floats {
        *float = use_float(random);
    }
    for _ in 0..wish.storeys {
        add_storey(&mut model, random, wish);
    }
    finish(&mut model, random, wish);
    model
}

/// A floor of exactly this many faces whose tree is a chain; `faces` - 1 steps deep.
pub fn chain(random: &mut Random, faces: usize) -> Model {
    let mut model = Model::default();
    for _ in 0..faces {
        let first = model.vertices.len() as u32;
        for _ in 0..3 {
            let corner = [0; 3].map(|_: i32| bits_of(random.from_to(-640, 640)));
            model.vertices.push(corner);
        }
        model.faces.push([first, first + 1, first + 2]);
    }
    let wish = Wish {
        unwalkable: random.pick(&[0, 2]),
        tree: TreeShape::Chain,
        deepest: faces,
        ..any_wish(random)
    };
    finish(&mut model, random, wish);
    model
}

/// A use position's float: mostly on the grid, often at its ends or a zero of either sign.
fn use_float(random: &mut Random) -> u32 {
    match random.under(12) {
        0 => 0x8000_0000,
        1 => 0,
        2 => random.finite(),
        3 => bits_of(random.pick(&[65_536, -65_536, 65_535, -65_000, 65_000])),
        4 => bits_of(random.pick(&[1, -1, 640, -640, 639, 641])),
        _ => bits_of(random.from_to(-65_536, 65_536)),
    }
}

/// Adds one storey: a grid of vertices and the triangles of its cells, all turning the same way.
fn add_storey(model: &mut Model, random: &mut Random, wish: Wish) {
    let first = model.vertices.len() as u32;
    let xs = lines(random, wish.columns + 1);
    let ys = lines(random, wish.rows + 1);
    for y in &ys {
        for x in &xs {
            let z = random.from_to(-200, 200);
            model.vertices.push([bits_of(*x), bits_of(*y), bits_of(z)]);
        }
    }
    let mirrored = random.once_in(2);
    let across = wish.columns as u32 + 1;
    for row in 0..wish.rows as u32 {
        for column in 0..wish.columns as u32 {
            if wish.holes == 0 || !random.once_in(wish.holes) {
                let corner = first + row * across + column;
                add_cell(model, random, [corner, across], mirrored);
            }
        }
    }
}

/// The x or y of the grid lines, rising, now and then by nothing so that faces have no area.
fn lines(random: &mut Random, count: usize) -> Vec<i64> {
    let mut at = random.pick(&[0, 0, -64, -65_536, 60_000, 100, -320]);
    (0..count)
        .map(|_| {
            let here = at.min(65_536);
            at += random.pick(&[64, 64, 64, 32, 1, 3, 128, 0]);
            here
        })
        .collect()
}

/// Adds the two triangles of a cell, parted by either diagonal, each started at any corner.
fn add_cell(model: &mut Model, random: &mut Random, [a, across]: [u32; 2], mirrored: bool) {
    let (b, c, d) = (a + 1, a + across, a + across + 1);
    let triangles = match random.once_in(2) {
        true => [[a, b, d], [a, d, c]],
        false => [[a, b, c], [b, d, c]],
    };
    for mut triangle in triangles {
        if mirrored {
            triangle.swap(0, 1);
        }
        triangle.rotate_left(random.under(3));
        model.faces.push(triangle);
    }
}
