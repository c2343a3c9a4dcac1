//! Floats, corners and materials: rules 7 to 10. The walk over the faces hands their half-edges on.

use super::header::Tables;
use super::pairs::Pairs;
use super::{word, words, Refused};

/// The bits that are all set in a float that is infinite or not a number.
const WILD: u32 = 0x7F80_0000;
/// One bit for each walkable material.
const WALKABLE: u32 = 0b111_0101_0111_1110_0111_1010;

fn is_wild(bits: u32) -> bool {
    bits & WILD == WILD
}

/// Rule 7.
pub fn floats_are_finite(bytes: &[u8], tables: &Tables) -> Result<(), Refused> {
    all_finite(&bytes[12..72], 12)?;
    all_finite(tables.vertices, tables.starts[0])?;
    all_finite(tables.normals, tables.starts[3])?;
    all_finite(tables.distances, tables.starts[4])?;
    for (node, entry) in tables.nodes.chunks_exact(44).enumerate() {
        let floats: [u32; 6] = words(entry);
        if floats.iter().fold(false, |any, &bits| any | is_wild(bits)) {
            all_finite(&entry[..24], tables.starts[5] + 44 * node)?;
        }
    }
    Ok(())
}

/// Looks at all floats before it asks which one is wild: no branch for each.
fn all_finite(floats: &[u8], start: usize) -> Result<(), Refused> {
    let floats = floats.chunks_exact(4);
    if !floats
        .clone()
        .fold(false, |any, float| any | is_wild(word(float, 0)))
    {
        return Ok(());
    }
    let first = floats
        .enumerate()
        .find(|(_, float)| is_wild(word(float, 0)));
    first.map_or(Ok(()), |(i, _)| Err((7, start + 4 * i)))
}

/// Rules 8 to 10 in one walk; gives the half-edges of the walkable faces to the sorted list.
pub fn faces_are_right(tables: &Tables, pairs: &mut Pairs) -> Result<(), Refused> {
    let vertices = (tables.vertices.len() / 12) as u32;
    let (mut strange, mut misplaced) = (None, None);
    pairs.begin(vertices as usize);
    let materials = tables.materials.chunks_exact(4);
    for (face, (entry, material)) in tables.corners.chunks_exact(12).zip(materials).enumerate() {
        let corners @ [a, b, c] = words(entry);
        if a.max(b).max(c) >= vertices || a == b || b == c || c == a {
            return Err((8, face));
        }
        let material = word(material, 0);
        if material > 22 {
            strange = strange.or(Some(face));
        } else if (WALKABLE >> material & 1 == 1) != (face < tables.walkable) {
            misplaced = misplaced.or(Some(face));
        }
        if face < tables.walkable {
            pairs.add(face, corners);
        }
    }
    match (strange, misplaced) {
        (Some(face), _) => Err((9, face)),
        (None, Some(face)) => Err((10, face)),
        (None, None) => Ok(()),
    }
}
