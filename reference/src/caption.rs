//! Captions: a room's name as typed, from the visitor's text or else from the house text.

use crate::answer::CaptionAt;
use crate::fault::{planted, Fault};
use crate::layout::{self, Entry};
use crate::text::is_long;

/// Where room i's name stands: in the visitor's text if that layout reads and has the room,
/// otherwise in the house text; else 41 and the empty start of the house text.
pub fn caption(visitor: &[u8], house: &[u8], room: u32) -> CaptionAt {
    let is_shown = |entry: &Entry| entry.length > 1 || !planted(Fault::ShortCaption);
    if let Some(entry) = room_of(visitor, room).filter(is_shown) {
        return found(&entry, 0);
    }
    match room_of(house, room) {
        Some(entry) => found(&entry, 1),
        None => CaptionAt {
            number: 41,
            house: 1,
            start: 0,
            length: 0,
        },
    }
}

fn room_of(text: &[u8], room: u32) -> Option<Entry> {
    let rooms = layout::read(text).ok()?.rooms;
    let mut entry = rooms.get(room as usize)?.clone();
    let before = (room as usize).checked_sub(1).map(|before| &rooms[before]);
    if planted(Fault::CaptionAfterLong) && before.is_some_and(|before| is_long(&before.name)) {
        entry.length += 1;
    }
    Some(entry)
}

fn found(entry: &Entry, house: u32) -> CaptionAt {
    CaptionAt {
        number: 0,
        house,
        start: entry.start as u32,
        length: entry.length as u32,
    }
}
