//! A floor as plain lists, and how its bytes are laid out: in order, or anywhere with gaps.

use super::random::Random;
use crate::floor::tables::{FIELDS, HEADER, MAGIC, ROOT_FIELD};
use crate::words::put_word;

/// One node: six floats of its box as bits, then face, unknown, plane, left, right.
pub type NodeWords = [u32; 11];

/// All that a floor's bytes say, apart from where its tables stand.
#[derive(Clone, Debug, Default)]
pub struct Model {
    pub floats: [u32; 15],
    pub vertices: Vec<[u32; 3]>,
    pub faces: Vec<[u32; 3]>,
    pub materials: Vec<u32>,
    pub normals: Vec<[u32; 3]>,
    pub distances: Vec<u32>,
    pub nodes: Vec<NodeWords>,
    pub root: u32,
    pub adjacency: Vec<[u32; 3]>,
    pub edges: Vec<[u32; 2]>,
    pub perimeters: Vec<u32>,
}

impl Model {
    /// The words of each table, in the order of the offset fields.
    fn tables(&self) -> [Vec<u32>; 9] {
        [
            self.vertices.concat(),
            self.faces.concat(),
            self.materials.clone(),
            self.normals.concat(),
            self.distances.clone(),
            self.nodes.concat(),
            self.adjacency.concat(),
            self.edges.concat(),
            self.perimeters.clone(),
        ]
    }

    /// The header, with every offset still 0.
    fn header(&self) -> Vec<u8> {
        let mut bytes = vec![0; HEADER];
        bytes[..8].copy_from_slice(MAGIC);
        put_word(&mut bytes, 8, 1);
        for (i, bits) in self.floats.iter().enumerate() {
            put_word(&mut bytes, 12 + 4 * i, *bits);
        }
        let counts = [
            (72, self.vertices.len()),
            (80, self.faces.len()),
            (100, self.nodes.len()),
            (112, self.adjacency.len()),
            (120, self.edges.len()),
            (128, self.perimeters.len()),
        ];
        for (field, count) in counts {
            put_word(&mut bytes, field, count as u32);
        }
        put_word(&mut bytes, ROOT_FIELD, self.root);
        bytes
    }

    /// The bytes with the tables in order from 136 and without gaps.
    pub fn in_order(&self) -> Vec<u8> {
        let mut bytes = self.header();
        for (table, words) in self.tables().iter().enumerate() {
            append(&mut bytes, table, words);
        }
        bytes
    }

    /// The bytes with the tables in any order, gaps of any bytes, and any offset for empty tables.
    pub fn scattered(&self, random: &mut Random) -> Vec<u8> {
        let mut bytes = self.header();
        let tables = self.tables();
        let mut order: Vec<usize> = (0..9).collect();
        random.shuffle(&mut order);
        for table in order {
            let gap = random.pick(&[0, 0, 1, 2, 3, 4, 7, 33]);
            bytes.extend(random.bytes(gap));
            let position = random.under(bytes.len());
            append(&mut bytes, table, &tables[table]);
            if tables[table].is_empty() {
                let anywhere = [136, 137, position as u32, random.odd_word()];
                put_word(&mut bytes, FIELDS[table].offset, random.pick(&anywhere));
            }
        }
        let gap = random.pick(&[0, 0, 1, 5]);
        bytes.extend(random.bytes(gap));
        bytes
    }

    /// Either way of laying the tables out.
    pub fn bytes(&self, random: &mut Random) -> Vec<u8> {
        match random.once_in(2) {
            true => self.in_order(),
            false => self.scattered(random),
        }
    }
}

fn append(bytes: &mut Vec<u8>, table: usize, words: &[u32]) {
    let position = bytes.len() as u32;
    put_word(bytes, FIELDS[table].offset, position);
    for word in words {
        bytes.extend_from_slice(&word.to_le_bytes());
    }
}
