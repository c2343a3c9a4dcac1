//! The fields that edits change, each a tag and a place: where they stand on a floor, and what may be
//! written there or might be tried.

use super::random::Random;
use crate::floor::tables::{Table, FIELDS, HEADER};
use crate::grid::{self, FARTHEST, MINUS_ZERO};
use crate::journal::{LARGEST_STEP, LINK, NUDGE, PAINT};
use crate::words::{put_word, word_at};

/// A tag and a place.
pub type Field = (u8, u32);

/// All tags.
pub(super) const TAGS: [u8; 3] = [PAINT, LINK, NUDGE];
/// The first byte and the number of the floats that a nudge moves.
const USE_POSITIONS: usize = 12;
const USE_FLOATS: usize = 12;

/// A table's count in the floor's header, kept small in case the header is damaged.
fn count(floor: &[u8], table: Table) -> usize {
    match floor.len() >= HEADER {
        true => word_at(floor, FIELDS[table as usize].count).min(5_000) as usize,
        false => 0,
    }
}

/// How many places a tag has: faces, edge entries, or the floats of the use positions.
pub(super) fn places(floor: &[u8], tag: u8) -> usize {
    match tag {
        PAINT => count(floor, Table::Faces),
        LINK => count(floor, Table::Edges),
        _ => USE_FLOATS,
    }
}

/// A place in a table of `count` entries, now and then just or far outside.
pub(super) fn place(random: &mut Random, count: usize) -> u32 {
    match random.under(12) {
        0 => count as u32,
        1 => random.odd_word(),
        _ => random.under(count) as u32,
    }
}

/// Any field, now and then outside its table.
pub(super) fn any_field(random: &mut Random, floor: &[u8]) -> Field {
    let tag = random.pick(&TAGS);
    (tag, place(random, places(floor, tag)))
}

/// One to four fields inside their tables, so few that two benches meet on them.
pub(super) fn few(random: &mut Random, floor: &[u8]) -> Vec<Field> {
    let tags = TAGS.map(|tag| match places(floor, tag) {
        0 => NUDGE,
        _ => tag,
    });
    (0..random.from_to(1, 4))
        .map(|_| {
            let tag = random.pick(&tags);
            (tag, random.under(places(floor, tag)) as u32)
        })
        .collect()
}

/// The byte where a field's four bytes start, if they lie inside the floor.
pub fn byte_of(floor: &[u8], (tag, place): Field) -> Option<usize> {
    if floor.len() < HEADER {
        return None;
    }
    let start = |table: Table| word_at(floor, FIELDS[table as usize].offset) as usize;
    let entry = place as usize;
    let at = match tag {
        PAINT => start(Table::Materials) + 4 * entry,
        LINK => start(Table::Edges) + 8 * entry + 4,
        NUDGE if entry < USE_FLOATS => USE_POSITIONS + 4 * entry,
        _ => return None,
    };
    (at + 4 <= floor.len()).then_some(at)
}

/// The four bytes of a field.
pub fn word_of(floor: &[u8], field: Field) -> Option<u32> {
    byte_of(floor, field).map(|at| word_at(floor, at))
}

/// Lays four bytes on the floor where this field stands, if that is inside.
pub fn lay(floor: &mut [u8], field: Field, word: u32) {
    if let Some(at) = byte_of(floor, field) {
        put_word(floor, at, word);
    }
}

/// What an edit of this field may write if the floor is right and, for a nudge, stays on the grid.
pub(super) fn right_value(random: &mut Random, floor: &[u8], (tag, place): Field) -> u32 {
    let walkable = (place as usize) < count(floor, Table::Adjacency);
    match tag {
        PAINT if walkable => random.pick(&[1, 3, 4, 5, 6, 9, 14, 16, 18, 20, 22]),
        PAINT => random.pick(&[0, 2, 7, 8, 15, 17, 19]),
        LINK => random.from_to(-1, 63) as u32,
        _ => random.from_to(-LARGEST_STEP, LARGEST_STEP) as u32,
    }
}

/// What an edit of this field might try to write: mostly a right value, for a nudge often one at a limit.
pub(super) fn any_value(random: &mut Random, floor: &[u8], field: Field) -> u32 {
    match (field.0, random.under(8)) {
        (PAINT, 0) => random.pick(&[23, 24, 0xFFFF_FFFF, 255]),
        (PAINT, 1) => random.under(23) as u32,
        (LINK, 0) => random.odd_word(),
        (NUDGE, 0..=4) => limit_step(random, floor, field) as u32,
        _ => right_value(random, floor, field),
    }
}

/// A step that ends at zero, at the end of the grid or at the limit of steps, or that is none.
fn limit_step(random: &mut Random, floor: &[u8], field: Field) -> i32 {
    let now = word_of(floor, field).and_then(grid::scaled).unwrap_or(0) as i32;
    let end = FARTHEST as i32;
    match random.under(5) {
        0 => 0,
        1 => -now,
        2 => end - now,
        3 => -end - now,
        _ => random.pick(&[640, 641, -640, -641, i32::MIN, i32::MAX]),
    }
}

/// Four bytes as a record of this tag might hold, right or wrong.
pub(super) fn any_word(random: &mut Random, tag: u8) -> u32 {
    match tag {
        PAINT => match random.under(4) {
            0 => random.pick(&[22, 23, 24, 0xFFFF_FFFF]),
            1 => random.pick(&[0, 2, 7, 8, 19]),
            _ => random.pick(&[1, 3, 4, 5, 22]),
        },
        LINK => match random.under(3) {
            0 => random.pick(&[64, 65, 0xFFFF_FFFE, 0x8000_0000]),
            _ => random.from_to(-1, 63) as u32,
        },
        _ => match random.under(5) {
            0 => random.pick(&[0, MINUS_ZERO, 0x7F80_0000, 0x7FC0_0000]),
            1 => random.finite(),
            2 => random
                .pick(&[1_024.0_f32, -1_024.0, 1_024.015_6, -1_024.015_6])
                .to_bits(),
            _ => grid::bits_of(random.from_to(-FARTHEST, FARTHEST)),
        },
    }
}
