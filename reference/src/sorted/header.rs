//! The header and where the tables lie: rules 1 to 6.

use super::{word, Refused};

/// The most vertices and the most faces.
pub const VERTICES: usize = 4_096;
pub const FACES: usize = 4_096;

/// The fields of count and offset, and the size of an entry, in the order of the offset fields.
const FIELDS: [(usize, usize, usize); 9] = [
    (72, 76, 12),
    (80, 84, 12),
    (80, 88, 4),
    (80, 92, 12),
    (80, 96, 4),
    (100, 104, 44),
    (112, 116, 12),
    (120, 124, 8),
    (128, 132, 4),
];

/// The bytes of each table; where they start is told of those whose floats have places.
pub struct Tables<'a> {
    pub vertices: &'a [u8],
    pub corners: &'a [u8],
    pub materials: &'a [u8],
    pub normals: &'a [u8],
    pub distances: &'a [u8],
    pub nodes: &'a [u8],
    pub adjacency: &'a [u8],
    pub edges: &'a [u8],
    pub perimeters: &'a [u8],
    pub starts: [usize; 9],
    pub faces: usize,
    pub walkable: usize,
    pub root: usize,
}

/// Rules 1 to 6.
pub fn open(bytes: &[u8]) -> Result<Tables<'_>, Refused> {
    if bytes.len() < 136 || bytes.len() > 1_048_576 {
        return Err((1, 0));
    }
    if &bytes[..8] != b"BWM V1.0" {
        return Err((2, 0));
    }
    if word(bytes, 8) != 1 {
        return Err((3, 8));
    }
    counts_are_small(bytes)?;
    let (starts, ends) = places(bytes)?;
    let table = |i: usize| &bytes[starts[i]..ends[i]];
    Ok(Tables {
        vertices: table(0),
        corners: table(1),
        materials: table(2),
        normals: table(3),
        distances: table(4),
        nodes: table(5),
        adjacency: table(6),
        edges: table(7),
        perimeters: table(8),
        starts,
        faces: word(bytes, 80) as usize,
        walkable: word(bytes, 112) as usize,
        root: word(bytes, 108) as usize,
    })
}

/// Rule 4.
fn counts_are_small(bytes: &[u8]) -> Result<(), Refused> {
    let limits = [
        (72, VERTICES as u32),
        (80, FACES as u32),
        (100, 8_191),
        (112, word(bytes, 80)),
        (120, 12_288),
        (128, 12_288),
    ];
    for (field, most) in limits {
        if word(bytes, field) > most {
            return Err((4, field));
        }
    }
    Ok(())
}

/// Rules 5 and 6: where each table starts and ends; an empty one at 0.
fn places(bytes: &[u8]) -> Result<([usize; 9], [usize; 9]), Refused> {
    let (mut starts, mut ends) = ([0; 9], [0; 9]);
    for (i, (count, offset, size)) in FIELDS.into_iter().enumerate() {
        let length = word(bytes, count) as usize * size;
        if length > 0 {
            starts[i] = word(bytes, offset) as usize;
            ends[i] = starts[i] + length;
            if starts[i] < 136 || ends[i] > bytes.len() {
                return Err((5, offset));
            }
        }
    }
    for later in 1..9 {
        for earlier in 0..later {
            if starts[later] < ends[earlier] && starts[earlier] < ends[later] {
                return Err((6, FIELDS[later].1));
            }
        }
    }
    Ok((starts, ends))
}
