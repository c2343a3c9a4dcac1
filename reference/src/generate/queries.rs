//! Points to ask a floor about: corners, borders, insides, just outside and far beyond.

use super::floors::{self, any_wish, Wish};
use super::model::Model;
use super::random::Random;
use crate::grid;

/// A floor, now and then with vertices off the grid, and a point in sixty-fourths.
pub fn floor_and_point(random: &mut Random) -> (Vec<u8>, [i32; 2]) {
    let wish = any_wish(random);
    let wish = Wish {
        columns: wish.columns.max(random.under(2)),
        rows: wish.rows.max(random.under(2)),
        off_grid: random.once_in(6),
        ..wish
    };
    let model = match random.once_in(60) {
        true => floors::chain(random, 65),
        false => floors::floor(random, wish),
    };
    let point = point(random, &model);
    (model.bytes(random), point)
}

/// A point that means something to this floor, or none.
pub fn point(random: &mut Random, model: &Model) -> [i32; 2] {
    if model.faces.is_empty() || random.once_in(12) {
        return [far(random), far(random)];
    }
    let face = model.faces[random.under(model.faces.len())];
    let corners = face.map(|corner| {
        [0, 1].map(|axis| {
            let bits = model.vertices[corner as usize][axis];
            grid::scaled(bits).unwrap_or(0) as i32
        })
    });
    let [a, b, c] = corners;
    let mut at = match random.under(4) {
        0 => a,
        1 => [0, 1].map(|axis| (a[axis] + b[axis]) / 2),
        2 => [0, 1].map(|axis| (a[axis] + b[axis] + c[axis]) / 3),
        _ => [0, 1].map(|axis| random.pick(&[a, b, c])[axis]),
    };
    if random.once_in(3) {
        at[random.under(2)] += random.pick(&[-1, 1, -32, 64]);
    }
    at
}

fn far(random: &mut Random) -> i32 {
    match random.under(3) {
        0 => random.pick(&[65_536, 65_537, -65_536, -65_537, i32::MIN, i32::MAX, 0]),
        1 => random.from_to(-70_000, 70_000) as i32,
        _ => random.from_to(-200, 200) as i32,
    }
}
