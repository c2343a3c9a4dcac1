//! The peer: the floor reader once more, written for speed, with which the library's time is compared (M-106).
//! Half-edges go into a sorted list, where partners are neighbours. It shares nothing with the other
//! modules but the answer, is lent no work memory, and keeps its own between calls.

mod header;
mod mesh;
mod pairs;
mod tree;

use crate::answer::Floor;
use header::FACES;
use pairs::Pairs;
use tree::Tree;

/// The number of a broken rule and its place.
type Refused = (u32, usize);
/// "No face", "no child" and "no partner".
const NONE: u32 = 0xFFFF_FFFF;

/// The reader with its memory.
pub struct Peer {
    tree: Tree,
    pairs: Pairs,
}

impl Default for Peer {
    fn default() -> Peer {
        Peer::new()
    }
}

impl Peer {
    /// All memory that any floor needs.
    pub fn new() -> Peer {
        Peer {
            tree: Tree::new(),
            pairs: Pairs::new(3 * FACES),
        }
    }

    /// Reads a floor: rules 1 to 19 and the counts.
    pub fn read(&mut self, bytes: &[u8]) -> Floor {
        match self.check(bytes) {
            Ok(counts) => counts,
            Err((number, place)) => Floor {
                number,
                place: place as u32,
                ..Floor::default()
            },
        }
    }

    fn check(&mut self, bytes: &[u8]) -> Result<Floor, Refused> {
        let tables = header::open(bytes)?; // 1 to 6
        mesh::floats_are_finite(bytes, &tables)?; // 7
        mesh::faces_are_right(&tables, &mut self.pairs)?; // 8 to 10
        self.tree.is_right(&tables)?; // 11 to 14
        self.pairs.are_right(&tables)?; // 15 and 16
        self.pairs.borders_are_right(&tables)?; // 17 to 19
        Ok(Floor {
            number: 0,
            place: 0,
            faces: tables.faces as u32,
            walkable: tables.walkable as u32,
            edges: (tables.edges.len() / 8) as u32,
            perimeters: (tables.perimeters.len() / 4) as u32,
        })
    }
}

/// The word that starts at byte `at`.
fn word(bytes: &[u8], at: usize) -> u32 {
    let word: [u8; 4] = bytes[at..at + 4].try_into().expect("four bytes");
    u32::from_le_bytes(word)
}

/// The first `N` words of an entry.
fn words<const N: usize>(entry: &[u8]) -> [u32; N] {
    let entry = &entry[..4 * N];
    std::array::from_fn(|i| word(entry, 4 * i))
}
