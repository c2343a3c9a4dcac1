//! The header and the nine tables: rules 1 to 6, which also open every journal call.

use crate::answer::{refuse, refuse_if, Checked};
use crate::words::word_at;

/// The length of the header; no table starts below it.
pub const HEADER: usize = 136;
/// The greatest length of a floor.
pub const LONGEST: usize = 1_048_576;
/// The first eight bytes.
pub const MAGIC: &[u8; 8] = b"BWM V1.0";
/// The header field of the root node.
pub const ROOT_FIELD: usize = 108;

/// The tables in the order of their offset fields, which is also their order in the fixed form.
#[derive(Clone, Copy, Debug, PartialEq, Eq)]
pub enum Table {
    Vertices,
    Faces,
    Materials,
    Normals,
    Distances,
    Nodes,
    Adjacency,
    Edges,
    Perimeters,
}

/// Where a table's numbers stand in the header, and the size of one entry.
pub struct Fields {
    pub count: usize,
    pub offset: usize,
    pub size: usize,
}

const fn fields(count: usize, offset: usize, size: usize) -> Fields {
    Fields {
        count,
        offset,
        size,
    }
}

/// The fields of each table. Materials, normals and distances count as faces.
pub const FIELDS: [Fields; 9] = [
    fields(72, 76, 12),
    fields(80, 84, 12),
    fields(80, 88, 4),
    fields(80, 92, 12),
    fields(80, 96, 4),
    fields(100, 104, 44),
    fields(112, 116, 12),
    fields(120, 124, 8),
    fields(128, 132, 4),
];

/// A floor that broke none of the rules 1 to 6: each nonempty table lies inside it.
#[derive(Clone, Copy)]
pub struct Tables<'a> {
    pub bytes: &'a [u8],
    starts: [usize; 9],
    counts: [usize; 9],
}

impl<'a> Tables<'a> {
    /// Rules 1 to 6, in order.
    pub fn open(bytes: &'a [u8]) -> Checked<Tables<'a>> {
        refuse_if(bytes.len() < HEADER || bytes.len() > LONGEST, 1, 0)?;
        refuse_if(&bytes[..8] != MAGIC, 2, 0)?;
        refuse_if(word_at(bytes, 8) != 1, 3, 8)?;
        counts_are_small(bytes)?; // 4
        let tables = Tables {
            bytes,
            starts: FIELDS.map(|fields| word_at(bytes, fields.offset) as usize),
            counts: FIELDS.map(|fields| word_at(bytes, fields.count) as usize),
        };
        tables.lie_inside()?; // 5
        tables.lie_apart()?; // 6
        Ok(tables)
    }

    /// Rule 5: a nonempty table starts at 136 or later and ends inside the file.
    fn lie_inside(&self) -> Checked<()> {
        for (table, fields) in FIELDS.iter().enumerate() {
            let outside = self.starts[table] < HEADER || self.end(table) > self.bytes.len();
            refuse_if(self.counts[table] > 0 && outside, 5, fields.offset)?;
        }
        Ok(())
    }

    /// Rule 6: a nonempty table shares no byte with one of an earlier offset field.
    fn lie_apart(&self) -> Checked<()> {
        for (later, fields) in FIELDS.iter().enumerate() {
            let shares = (0..later).any(|earlier| self.share_a_byte(earlier, later));
            refuse_if(shares, 6, fields.offset)?;
        }
        Ok(())
    }

    fn share_a_byte(&self, one: usize, other: usize) -> bool {
        self.counts[one] > 0
            && self.counts[other] > 0
            && self.starts[one] < self.end(other)
            && self.starts[other] < self.end(one)
    }

    /// Where a table ends. A start below 2^32 and a checked count keep this far from overflow.
    fn end(&self, table: usize) -> usize {
        self.starts[table] + self.counts[table] * FIELDS[table].size
    }

    /// How many entries a table has.
    pub fn count(&self, table: Table) -> usize {
        self.counts[table as usize]
    }

    /// The byte where word `word` of entry `entry` starts.
    pub fn place(&self, table: Table, entry: usize, word: usize) -> usize {
        self.starts[table as usize] + entry * FIELDS[table as usize].size + 4 * word
    }

    /// Word `word` of entry `entry`.
    pub fn word(&self, table: Table, entry: usize, word: usize) -> u32 {
        word_at(self.bytes, self.place(table, entry, word))
    }

    /// The same word as a float.
    pub fn float(&self, table: Table, entry: usize, word: usize) -> f32 {
        f32::from_bits(self.word(table, entry, word))
    }

    /// The three corner numbers of a face.
    pub fn corners(&self, face: usize) -> [usize; 3] {
        [0, 1, 2].map(|corner| self.word(Table::Faces, face, corner) as usize)
    }

    /// The bytes of a whole table.
    pub fn bytes_of(&self, table: Table) -> &'a [u8] {
        match self.counts[table as usize] {
            0 => &[], // an empty table's offset is ignored, wherever it points
            _ => &self.bytes[self.starts[table as usize]..self.end(table as usize)],
        }
    }
}

/// Rule 4: the place is the first count field that is too large.
fn counts_are_small(bytes: &[u8]) -> Checked<()> {
    let faces = word_at(bytes, 80);
    let limits = [
        (72, 4_096),
        (80, 4_096),
        (100, 8_191),
        (112, faces), // A over faces
        (120, 12_288),
        (128, 12_288),
    ];
    match limits
        .iter()
        .find(|(field, most)| word_at(bytes, *field) > *most)
    {
        Some((field, _)) => refuse(4, *field),
        None => Ok(()),
    }
}
