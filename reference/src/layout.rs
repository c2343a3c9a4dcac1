//! Layout text (LYT): reading, the fixed form and renaming a room. Door hooks have a file of their own.

use crate::answer::{refuse, refuse_if, Checked, Form};
use crate::fault::{planted, Fault};
use crate::form;
use crate::hooks::{self, Hook};
use crate::number::Number;
use crate::text::{self, behind, count_on, is_name, lower, same_name, Line, Lines};

/// A room, track or obstacle. `start` and `length` say where its name stands in the text.
#[derive(Clone, Debug, PartialEq, Eq)]
pub struct Entry {
    pub name: Vec<u8>,
    pub start: usize,
    pub length: usize,
    pub numbers: [Number; 3],
}

/// The parts of a layout; names are in lower case.
#[derive(Clone, Debug, Default, PartialEq, Eq)]
pub struct Layout {
    pub rooms: Vec<Entry>,
    pub tracks: Vec<Entry>,
    pub obstacles: Vec<Entry>,
    pub hooks: Vec<Hook>,
}

impl Layout {
    /// The number of the room of this name, letter case ignored.
    pub fn room_named(&self, name: &[u8]) -> Option<usize> {
        let (name, is_same) = (lower(name), same_name());
        self.rooms
            .iter()
            .position(|room| is_same(&room.name, &name))
    }
}

/// Rules 31 to 39. Lines are judged in order, so the first one refused is the lowest faulty one.
pub fn read(text: &[u8]) -> Checked<Layout> {
    let mut lines = Lines::of(text)?;
    let mut layout = Layout::default();
    keyword_alone(&lines.wanted()?, "beginlayout")?;
    let line = lines.wanted()?;
    refuse_if(!starts_with(&line, "roomcount"), 33, line.number)?;
    layout.rooms = entries(&mut lines, &line, true)?;
    let mut line = lines.wanted()?;
    if starts_with(&line, "trackcount") {
        layout.tracks = entries(&mut lines, &line, false)?;
        line = lines.wanted()?;
    }
    if starts_with(&line, "obstaclecount") {
        layout.obstacles = entries(&mut lines, &line, false)?;
        line = lines.wanted()?;
    }
    if starts_with(&line, "doorhookcount") {
        layout.hooks = hooks::read(&mut lines, &line, &layout)?;
        line = lines.wanted()?;
    }
    keyword_alone(&line, "donelayout")?;
    match lines.another() {
        Some(late) => refuse(33, late.number),
        None => Ok(layout),
    }
}

/// Whether the line's first word is this keyword, in lower case.
fn starts_with(line: &Line, keyword: &str) -> bool {
    line.words[0].bytes == keyword.as_bytes()
}

/// Rule 33 for a line that must be a keyword and nothing else.
fn keyword_alone(line: &Line, keyword: &str) -> Checked<()> {
    let alone = starts_with(line, keyword) && line.words.len() == 1;
    refuse_if(!alone, 33, line.number)
}

/// The entries that a count line announces. Only rooms are checked for names that stand twice.
fn entries(lines: &mut Lines, count_line: &Line, rooms: bool) -> Checked<Vec<Entry>> {
    let count = count_on(count_line)?;
    let mut entries: Vec<Entry> = Vec::with_capacity(count);
    let is_same = same_name();
    for _ in 0..count {
        let line = lines.wanted()?;
        let entry = entry_on(&line)?;
        let is_earlier = |earlier: &Entry| is_same(&earlier.name, &entry.name);
        let twice = entries.iter().any(is_earlier);
        refuse_if(rooms && twice, 37, line.number)?;
        entries.push(entry);
    }
    Ok(entries)
}

/// An entry: name x y z. In order: 33, 34, 35.
fn entry_on(line: &Line) -> Checked<Entry> {
    let [name, x, y, z] = line.words[..] else {
        return refuse(33, line.number);
    };
    refuse_if(!is_name(name.bytes), 34, line.number)?;
    let numbers = [x, y, z].map(|word| Number::of(word.bytes));
    let [Some(x), Some(y), Some(z)] = numbers else {
        return refuse(35, line.number);
    };
    Ok(Entry {
        name: lower(name.bytes),
        start: name.start,
        length: name.bytes.len(),
        numbers: [x, y, z],
    })
}

/// The fixed form: lower case, all four sections, LF.
pub fn fixed(layout: &Layout) -> Vec<u8> {
    let mut form = b"beginlayout\n".to_vec();
    section(&mut form, "roomcount", &layout.rooms);
    section(&mut form, "trackcount", &layout.tracks);
    section(&mut form, "obstaclecount", &layout.obstacles);
    hooks::write(&mut form, &layout.hooks);
    form.extend_from_slice(b"donelayout\n");
    form
}

fn section(form: &mut Vec<u8>, keyword: &str, entries: &[Entry]) {
    form.extend_from_slice(format!("{keyword} {}\n", entries.len()).as_bytes());
    for entry in entries {
        form.extend_from_slice(&entry.name);
        form.push(behind(&entry.name));
        let numbers = entry.numbers.map(Number::written);
        form.extend_from_slice(numbers.join(" ").as_bytes());
        form.push(b'\n');
    }
}

/// The layout with room `room` named as typed, there and in its hooks: 21 (place the number), 34, 37 (place 0).
/// 37 looks at rooms only. The fixed form is in lower case, so the typed name is taken in lower case too.
pub fn renamed(mut layout: Layout, room: u32, typed: &[u8]) -> Checked<Layout> {
    let number = room as usize;
    refuse_if(number >= layout.rooms.len(), 21, number)?;
    refuse_if(!may_be_typed(typed), 34, 0)?;
    let holder = layout.room_named(typed);
    refuse_if(holder.is_some_and(|other| other != number), 37, 0)?;
    let new = lower(typed);
    let is_door = layout.hooks.iter().any(|hook| hook.door == new);
    refuse_if(is_door && planted(Fault::RenameAsksDoors), 37, 0)?;
    let old = std::mem::replace(&mut layout.rooms[number].name, new.clone());
    hooks::rename(&mut layout.hooks, &old, &new);
    Ok(layout)
}

/// Whether a name is right, or passes for it by a fault.
fn may_be_typed(typed: &[u8]) -> bool {
    let without_breaks = || -> Vec<u8> {
        let is_break = |byte: &u8| b"\r\n".contains(byte);
        typed
            .iter()
            .copied()
            .filter(|byte| !is_break(byte))
            .collect()
    };
    is_name(typed) || planted(Fault::NameWithBreak) && is_name(&without_breaks())
}

/// Rule 40 for a text: its form is over 65,536 bytes, or the output is shorter than it.
pub fn deliver(form: &[u8], out: &mut [u8]) -> Checked<usize> {
    refuse_if(form.len() > text::LONGEST, 40, 0)?;
    form::deliver(form, out)
}

/// Rewrites a layout in its fixed form.
pub fn rewrite(text: &[u8], out: &mut [u8]) -> Form {
    let written = read(text).and_then(|layout| deliver(&fixed(&layout), out));
    form::answer(written)
}

/// Rewrites a layout with room `room` renamed.
pub fn rename(text: &[u8], room: u32, name: &[u8], out: &mut [u8]) -> Form {
    if planted(Fault::NameAskedLate) && !is_name(name) {
        rewrite(text, out);
    }
    let written = read(text)
        .and_then(|layout| renamed(layout, room, name))
        .and_then(|layout| deliver(&fixed(&layout), out));
    form::answer(written)
}
