//! Floats, corners and materials: rules 7 to 10.

use super::tables::{Table, Tables};
use crate::answer::{refuse_if, refuse_lowest, Checked};
use crate::words::word_at;

/// Materials run from 0 to this one (house rule).
pub const LAST_MATERIAL: u32 = 22;

/// Whether a face of this material can be walked on.
pub fn walkable(material: u32) -> bool {
    matches!(material, 1 | 3..=6 | 9..=14 | 16 | 18 | 20..=22)
}

/// Rule 7: the byte of the first float that is infinite or not a number, in the order header,
/// vertices, normals, distances, boxes.
pub fn floats_are_finite(tables: &Tables) -> Checked<()> {
    let finite = |at: usize| f32::from_bits(word_at(tables.bytes, at)).is_finite();
    for at in (12..72).step_by(4) {
        refuse_if(!finite(at), 7, at)?;
    }
    let floats_of_an_entry = [
        (Table::Vertices, 3),
        (Table::Normals, 3),
        (Table::Distances, 1),
        (Table::Nodes, 6),
    ];
    for (table, floats) in floats_of_an_entry {
        for entry in 0..tables.count(table) {
            for float in 0..floats {
                let at = tables.place(table, entry, float);
                refuse_if(!finite(at), 7, at)?;
            }
        }
    }
    Ok(())
}

/// Rule 8: each corner is a vertex, and no face uses one twice.
pub fn corners_are_right(tables: &Tables) -> Checked<()> {
    let vertices = tables.count(Table::Vertices);
    refuse_lowest(8, tables.count(Table::Faces), |face| {
        let [a, b, c] = tables.corners(face);
        a >= vertices || b >= vertices || c >= vertices || a == b || b == c || c == a
    })
}

/// Rule 9: no material over 22.
pub fn materials_are_known(tables: &Tables) -> Checked<()> {
    refuse_lowest(9, tables.count(Table::Faces), |face| {
        tables.word(Table::Materials, face, 0) > LAST_MATERIAL
    })
}

/// Rule 10: the faces under A are the walkable ones.
pub fn walkable_come_first(tables: &Tables) -> Checked<()> {
    let under = tables.count(Table::Adjacency);
    refuse_lowest(10, tables.count(Table::Faces), |face| {
        (face < under) != walkable(tables.word(Table::Materials, face, 0))
    })
}
