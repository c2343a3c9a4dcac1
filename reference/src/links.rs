//! The link check: every transition of a floor leads to a room of its layout.

use crate::answer::{refuse_lowest, Answer, Checked};
use crate::fault::{planted, Fault};
use crate::floor;
use crate::floor::tables::Table;
use crate::layout::{self, Entry, Layout};

/// Reader's and LYT's refusals, then 42 at the lowest edge entry whose transition is not under
/// roomcount. -1 leads nowhere and is under every roomcount.
pub fn link_check(bytes: &[u8], work: &mut [u8], layout: &[u8]) -> Answer {
    match checked(bytes, work, layout) {
        Ok(()) => Answer::default(),
        Err(refusal) => Answer {
            number: refusal.number,
            place: refusal.place,
        },
    }
}

fn checked(bytes: &[u8], work: &mut [u8], layout: &[u8]) -> Checked<()> {
    let tables = floor::accepted(bytes, work)?;
    let rooms = rooms_of(&layout::read(layout)?) as i64;
    refuse_lowest(42, tables.count(Table::Edges), |entry| {
        i64::from(tables.word(Table::Edges, entry, 1) as i32) >= rooms
    })
}

/// How many rooms there are to lead to.
fn rooms_of(layout: &Layout) -> usize {
    let is_door = |room: &&Entry| layout.hooks.iter().any(|hook| hook.door == room.name);
    match planted(Fault::LinksAskDoors) {
        true => layout.rooms.len() - layout.rooms.iter().filter(is_door).count(),
        false => layout.rooms.len(),
    }
}
