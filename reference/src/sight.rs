//! Sight text (VIS): which rooms of a layout each room sees. Reading, rows, the fixed form, renaming.

use crate::answer::{refuse, refuse_if, Checked, Form, Row};
use crate::fault::{planted, Fault};
use crate::form;
use crate::layout::{self, Entry, Layout};
use crate::text::{behind, count_on, is_name, Line, Lines};

/// Rules 31 to 39 of a VIS text. Gives each room's row: mark j of row i is set if room i sees room j.
/// A room that is no observer sees none.
pub fn read(layout: &Layout, vis: &[u8]) -> Checked<Vec<u64>> {
    let mut lines = Lines::of(vis)?;
    let mut rows = vec![0; layout.rooms.len()];
    let mut observers = 0;
    while let Some(line) = lines.another() {
        refuse_if(line.words.len() != 2, 33, line.number)?;
        refuse_if(!is_name(line.words[0].bytes), 34, line.number)?;
        let count = count_on(&line)?; // 36
        let observer = room_on(layout, &line, &mut observers)?;
        for _ in 0..count {
            let line = lines.wanted()?; // 38
            refuse_if(line.words.len() != 1, 33, line.number)?;
            refuse_if(!is_name(line.words[0].bytes), 34, line.number)?;
            room_on(layout, &line, &mut rows[observer])?;
        }
    }
    Ok(rows)
}

/// The room named by a line's first word, marked in `stands`: 37 if marked already, 39 if unknown.
fn room_on(layout: &Layout, line: &Line, stands: &mut u64) -> Checked<usize> {
    let room = layout.room_named(line.words[0].bytes);
    let mark = room.map_or(0, |room| 1_u64 << room);
    refuse_if(*stands & mark != 0, 37, line.number)?;
    *stands |= mark;
    room.map_or(refuse(39, line.number), Ok)
}

/// A layout and its rows: the layout's refusals first, then those of the VIS text.
fn read_both(layout: &[u8], vis: &[u8]) -> Checked<(Layout, Vec<u64>)> {
    let layout = layout::read(layout)?;
    let rows = read(&layout, vis)?;
    Ok((layout, rows))
}

/// The fixed form: each room in order with its count, the rooms it sees in order behind two spaces.
pub fn fixed(layout: &Layout, rows: &[u64]) -> Vec<u8> {
    let mut form = Vec::new();
    for (room, row) in layout.rooms.iter().zip(rows) {
        form.extend_from_slice(&room.name);
        form.push(behind(&room.name));
        form.extend_from_slice(format!("{}\n", row.count_ones()).as_bytes());
        for seen in seen_in_order(layout, *row) {
            form.extend_from_slice(b"  ");
            form.extend_from_slice(&seen.name);
            form.push(b'\n');
        }
    }
    form
}

/// The rooms that a row has marks for, in the order in which they are listed.
fn seen_in_order(layout: &Layout, row: u64) -> Vec<&Entry> {
    let all = layout.rooms.iter().enumerate();
    let mut seen: Vec<&Entry> = all
        .filter(|(number, _)| row >> number & 1 == 1)
        .map(|(_, room)| room)
        .collect();
    if planted(Fault::SeenByName) {
        seen.sort_by_key(|room| &room.name);
    }
    seen
}

/// A row as it is answered: each room's mark at its number, or by a fault at its place among the names.
fn answered(layout: &Layout, row: u64) -> u64 {
    if !planted(Fault::RowByName) {
        return row;
    }
    let place = |room: &Entry| {
        let before = layout.rooms.iter().filter(|other| other.name < room.name);
        before.count()
    };
    let seen = seen_in_order(layout, row);
    seen.iter().fold(0, |marks, room| marks | 1 << place(room))
}

/// Rewrites a VIS text in its fixed form.
pub fn rewrite(layout: &[u8], vis: &[u8], out: &mut [u8]) -> Form {
    let written = read_both(layout, vis)
        .and_then(|(layout, rows)| layout::deliver(&fixed(&layout, &rows), out));
    form::answer(written)
}

/// Rewrites a VIS text with room `room` of its layout renamed.
pub fn rename(layout: &[u8], vis: &[u8], room: u32, name: &[u8], out: &mut [u8]) -> Form {
    let written = read_both(layout, vis)
        .and_then(|(layout, rows)| Ok((layout::renamed(layout, room, name)?, rows)))
        .and_then(|(layout, rows)| layout::deliver(&fixed(&layout, &rows), out));
    form::answer(written)
}

/// A room's row and how many rooms it sees; both are 0 on refusal and for no room.
pub fn row(layout: &[u8], vis: &[u8], room: u32) -> Row {
    match read_both(layout, vis) {
        Ok((layout, rows)) => {
            let row = rows.get(room as usize).copied().unwrap_or(0);
            let row = answered(&layout, row);
            Row {
                number: 0,
                place: 0,
                row,
                seen: row.count_ones(),
            }
        }
        Err(refusal) => Row {
            number: refusal.number,
            place: refusal.place,
            ..Row::default()
        },
    }
}
