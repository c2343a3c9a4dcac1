//! Door hooks: what request M-100 makes true of layouts with hooks and of their renaming, judged on what one side answered
//! and wrote. The other side is not looked at, and faults are found by the words of a line alone, so that a mistake that
//! both sides share is noticed too.

use crate::compare::Done;
use crate::digits::{self, parts, Shape, SHAPES};
use crate::generate::cases::Call;
use crate::hooks::WORDS;
use crate::layout::{self, Layout};
use crate::number::Number;
use crate::text::{count_of, is_name, Line, Lines, GREATEST_COUNT};
use std::collections::BTreeMap;

pub const FIRST_FAULT: &str =
    "a hook is refused by the first fault of the lowest faulty line, and accepted without one";
pub const RENAMED: &str =
    "a rename gives its room the new name, there and in the hooks that named it, and leaves all else";

/// The sentences about hooks that one side broke with a call.
pub fn broken(all: &[Done]) -> Vec<String> {
    let Some(done) = all.first() else {
        return Vec::new();
    };
    let said = [
        (FIRST_FAULT, !answers_first_fault(done)),
        (RENAMED, !is_renamed(done)),
    ];
    let broken = said.into_iter().filter(|(_, is_broken)| *is_broken);
    broken.map(|(sentence, _)| sentence.to_string()).collect()
}

/// The layouts that a call was handed.
pub fn layouts(done: &Done) -> Vec<&[u8]> {
    let lent: &[usize] = match done.call {
        Call::LayoutRewrite | Call::LayoutRename { .. } => &[0],
        Call::SightRewrite | Call::SightRename { .. } | Call::SightRow { .. } => &[0],
        Call::LinkCheck => &[2],
        Call::Caption { .. } => &[0, 1],
        _ => &[],
    };
    lent.iter().map(|&number| done.lent(number)).collect()
}

/// What a text's lines say of its hooks: the rooms in lower case, the line of the count, the count if it is one, and the
/// lines that should be hooks.
struct Section<'a> {
    rooms: Vec<Vec<u8>>,
    count_line: u64,
    count: Option<usize>,
    lines: Vec<Line<'a>>,
}

impl Section<'_> {
    /// The hooks' section of a text that has one. Up to there all must be right to be read, so that its keyword is that
    /// of the first line of two words that starts with it.
    fn of(text: &[u8]) -> Option<Section<'_>> {
        let mut left = Lines::of(text).ok()?;
        let all: Vec<Line> = std::iter::from_fn(|| left.another()).collect();
        let starts = |line: &Line, word: &str| {
            line.words.len() == 2 && line.words[0].bytes == word.as_bytes()
        };
        let rooms = all.get(1).filter(|line| starts(line, "roomcount"))?;
        let rooms = count_of(rooms.words[1].bytes)?;
        let at = all.iter().position(|line| starts(line, "doorhookcount"))?;
        let count = count_of(all[at].words[1].bytes);
        let names = all[2..].iter().map(|line| line.words[0].bytes);
        Some(Section {
            rooms: names.take(rooms).map(<[u8]>::to_ascii_lowercase).collect(),
            count_line: all[at].number as u64,
            count,
            lines: all
                .into_iter()
                .skip(at + 1)
                .take(count.unwrap_or(0))
                .collect(),
        })
    }

    /// The lowest line with a fault, and the first of its faults.
    fn first_fault(&self) -> Option<(u64, u64)> {
        (0..self.lines.len()).find_map(|at| {
            let fault = self.fault_of(at)?;
            Some((fault, self.lines[at].number as u64))
        })
    }

    /// Whether there are as many hooks as the count says, and none has a fault.
    fn is_right(&self) -> bool {
        self.count == Some(self.lines.len()) && self.first_fault().is_none()
    }

    /// The first fault of a line that should be a hook: the first of these that holds.
    fn fault_of(&self, at: usize) -> Option<u64> {
        let [room, door, numbers @ ..] = &self.lines[at].words[..] else {
            return Some(33);
        };
        let [room, door] = [room.bytes, door.bytes];
        let is_number = |typed: &[u8]| Number::of(typed).is_some();
        let mut doors = self.lines[..at].iter().filter_map(|line| line.words.get(1));
        let faults = [
            (33, !matches!(numbers.len(), 7 | 12)),
            (34, !is_name(room)),
            (39, !self.rooms.contains(&room.to_ascii_lowercase())),
            (34, !is_name(door)),
            (
                37,
                doors.any(|other| other.bytes.eq_ignore_ascii_case(door)),
            ),
            (35, !numbers.iter().all(|word| is_number(word.bytes))),
        ];
        let first = faults.into_iter().find(|(_, holds)| *holds);
        first.map(|(number, _)| number)
    }

    /// Whether a refusal of the text is one of its hooks or of their count.
    fn has_inside(&self, number: u64, place: u64) -> bool {
        match number {
            36 => place == self.count_line,
            38 => self.count.is_some_and(|count| self.lines.len() < count),
            _ => self.lines.iter().any(|line| line.number as u64 == place),
        }
    }
}

/// Whether an answer fits the hooks that a layout has. Nothing is said where another fault came first, nor of captions;
/// a line that a sight text's refusal points at may be its own.
fn answers_first_fault(done: &Done) -> bool {
    let [text] = layouts(done)[..] else {
        return true;
    };
    let Some(section) = Section::of(text) else {
        return true;
    };
    let ("place", place) = done.fields[1] else {
        return true;
    };
    let number = done.number();
    let is_layout_alone = !done.call.name().starts_with("sight");
    match number {
        0 | 21 | 40 | 42 => section.is_right(),
        34 | 37 if place == 0 => section.is_right(), // of a typed name
        33..=39 if is_layout_alone && section.has_inside(number, place) => match number {
            36 => section.count.is_none(),
            38 => section.first_fault().is_none(),
            _ => section.first_fault() == Some((number, place)),
        },
        _ => true,
    }
}

/// The layouts before and after a rename that was not refused, and the room's number; nothing of other calls.
fn rename(done: &Done) -> Option<(Option<[Layout; 2]>, usize)> {
    let Call::LayoutRename { room } = done.call else {
        return None;
    };
    let form = digits::form(done)?;
    let both = match [done.lent(0), form].map(layout::read) {
        [Ok(before), Ok(after)] => Some([before, after].map(parts)),
        _ => None,
    };
    Some((both, room as usize))
}

/// Whether the form has the typed name for the room and for exactly the hooks that named it.
fn is_renamed(done: &Done) -> bool {
    let Some((both, room)) = rename(done) else {
        return true;
    };
    let Some([before, after]) = both.filter(|[before, _]| room < before.rooms.len()) else {
        return false;
    };
    let (old, new) = (&before.rooms[room].name, done.lent(1).to_ascii_lowercase());
    let mut wanted = before.clone();
    wanted.rooms[room].name.clone_from(&new);
    for hook in wanted.hooks.iter_mut().filter(|hook| hook.room == *old) {
        hook.room.clone_from(&new);
    }
    after == wanted
}

/// What layouts with hooks were like that calls were handed.
#[derive(Debug, Default)]
pub struct Counts {
    /// Layouts with hooks that read, by the call; those of them with as many as may be, and with hooks of both kinds.
    pub read: BTreeMap<&'static str, usize>,
    pub full: usize,
    pub of_both: usize,
    /// Their hooks by the number of words, and how often numbers of each shape stood there.
    pub words: BTreeMap<usize, usize>,
    pub shapes: BTreeMap<Shape, usize>,
    /// Renames of a layout with hooks: of a room that has some, of one that has none, of a name that a door has, and to
    /// a name that a door has.
    pub with_hooks: usize,
    pub without: usize,
    pub from_door: usize,
    pub to_door: usize,
    /// Refusals of hooks and of their count, by number.
    pub refused: BTreeMap<u64, usize>,
}

impl Counts {
    pub fn add(&mut self, all: &[Done]) {
        let Some(done) = all.first() else {
            return;
        };
        for text in layouts(done) {
            let Some(section) = Section::of(text) else {
                continue;
            };
            match layout::read(text) {
                Ok(_) => self.add_read(done.call.name(), &section),
                Err(refusal) => {
                    let [number, place] = [refusal.number, refusal.place].map(u64::from);
                    if section.has_inside(number, place) {
                        *self.refused.entry(number).or_default() += 1;
                    }
                }
            }
        }
        self.add_rename(done);
    }

    fn add_read(&mut self, call: &'static str, section: &Section) {
        if section.lines.is_empty() {
            return;
        }
        *self.read.entry(call).or_default() += 1;
        self.full += usize::from(section.lines.len() == GREATEST_COUNT);
        let has = |count: &usize| section.lines.iter().any(|line| line.words.len() == *count);
        self.of_both += usize::from(WORDS.iter().all(has));
        for line in &section.lines {
            *self.words.entry(line.words.len()).or_default() += 1;
            for number in digits::numbers_on(line) {
                *self.shapes.entry(digits::shape(&number)).or_default() += 1;
            }
        }
    }

    fn add_rename(&mut self, done: &Done) {
        let Some((Some([before, after]), room)) = rename(done) else {
            return;
        };
        let [old, new] = [&before, &after].map(|layout| layout.rooms.get(room));
        let ([Some(old), Some(new)], false) = ([old, new], before.hooks.is_empty()) else {
            return;
        };
        let has_some = before.hooks.iter().any(|hook| hook.room == old.name);
        let is_door = |name: &[u8]| before.hooks.iter().any(|hook| hook.door == name);
        self.with_hooks += usize::from(has_some);
        self.without += usize::from(!has_some);
        self.from_door += usize::from(is_door(&old.name));
        self.to_door += usize::from(is_door(&new.name));
    }

    /// What the comparison tells of them.
    pub fn line(&self) -> String {
        format!(
            "layouts with hooks read {:?}, with {GREATEST_COUNT} of them {}, with both kinds {}; \
             hooks by words {:?}, numbers of {} shapes of {SHAPES}\n\
             renames in layouts with hooks: room with some {}, with none {}, from a door's name {}, \
             to one {}; refused in hooks by number {:?}",
            self.read,
            self.full,
            self.of_both,
            self.words,
            self.shapes.len(),
            self.with_hooks,
            self.without,
            self.from_door,
            self.to_door,
            self.refused
        )
    }
}
