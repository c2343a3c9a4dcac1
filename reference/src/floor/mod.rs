//! The floor reader: rules 1 to 20 in the order of 01's table, then the counts. Mending asks it too, but not for 16 to 19, and
//! planting, but not for 11 to 14.

pub mod border;
pub mod mesh;
pub mod tables;
pub mod tree;

use crate::answer::{refuse_if, Checked, Floor};
use crate::fault::{planted, Fault};
use tables::{Table, Tables};

/// The least work memory, and how much of it is zero on return.
pub const WORK: usize = 65_536;
/// What it was before M-106: cases and a fault go by it.
pub const OLD_WORK: usize = 16_384;

/// Reads a floor. The first 65,536 bytes of work memory are zero on return, unless there are fewer.
pub fn read(bytes: &[u8], work: &mut [u8]) -> Floor {
    match accepted(bytes, work) {
        Ok(tables) => Floor {
            number: 0,
            place: 0,
            faces: tables.count(Table::Faces) as u32,
            walkable: tables.count(Table::Adjacency) as u32,
            edges: tables.count(Table::Edges) as u32,
            perimeters: tables.count(Table::Perimeters) as u32,
        },
        Err(refusal) => Floor {
            number: refusal.number,
            place: refusal.place,
            ..Floor::default()
        },
    }
}

/// The tables of an accepted floor, or the reader's refusal. Clears the work memory, as every caller
/// of the reader must. This implementation keeps its own marks elsewhere.
pub fn accepted<'a>(bytes: &'a [u8], work: &mut [u8]) -> Checked<Tables<'a>> {
    enough_work(work)?; // 20
    check(bytes)
}

/// Rule 20, and the work memory as the reader leaves it.
pub(crate) fn enough_work(work: &mut [u8]) -> Checked<()> {
    let least = match planted(Fault::OldWork) {
        true => OLD_WORK,
        false => WORK,
    };
    refuse_if(work.len() < least, 20, 0)?;
    if !planted(Fault::WorkKept) {
        work[..least].fill(0);
    }
    Ok(())
}

/// Rules 1 to 19.
pub(crate) fn check(bytes: &[u8]) -> Checked<Tables<'_>> {
    let (tables, partners) = check_to_15(bytes)?;
    lists_are_right(&tables, &partners)?; // 16 to 19
    Ok(tables)
}

/// Rules 1 to 15, which ask nothing of the entries of adjacency, edges and perimeters. Gives each half-edge's partner too.
pub(crate) fn check_to_15(bytes: &[u8]) -> Checked<(Tables<'_>, Vec<Option<usize>>)> {
    let tables = check_to_10(bytes)?;
    tree::counts_are_right(&tables)?; // 11
    let nodes = tree::nodes(&tables)?; // 12
    tree::is_one_tree(&nodes, tree::root(&tables), tables.count(Table::Faces))?; // 13
    tree::boxes_are_large_enough(&nodes, &tables)?; // 14
    let partners = border::partners(&tables)?; // 15
    Ok((tables, partners))
}

/// Rules 1 to 10, which ask nothing of nodes but where they stand and that their boxes are finite.
pub(crate) fn check_to_10(bytes: &[u8]) -> Checked<Tables<'_>> {
    let tables = Tables::open(bytes)?; // 1 to 6
    mesh::floats_are_finite(&tables)?; // 7
    mesh::corners_are_right(&tables)?; // 8
    mesh::materials_are_known(&tables)?; // 9
    mesh::walkable_come_first(&tables)?; // 10
    Ok(tables)
}

/// Rules 16 to 19, which ask about the entries of adjacency, edges and perimeters.
pub(crate) fn lists_are_right(tables: &Tables, partners: &[Option<usize>]) -> Checked<()> {
    border::adjacency_is_right(tables, partners)?; // 16
    border::edges_are_the_borders(tables, partners)?; // 17
    border::transitions_are_right(tables)?; // 18
    border::perimeters_are_right(tables) // 19
}
