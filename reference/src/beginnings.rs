//! Names that begin alike: what M-102's comparison, which looks at lengths first and stops at the first difference, must tell
//! apart. Counted in the texts that calls were handed.

use crate::compare::Done;
use crate::doors::layouts;
use crate::generate::cases::Call;
use crate::layout;
use crate::text::{Lines, LONGEST_NAME};

/// How often names that begin alike stood beside each other.
#[derive(Debug, Default)]
pub struct Counts {
    /// Pairs of rooms of a layout that read, one of which begins the other.
    pub begun: usize,
    /// Pairs of such rooms of one length, by the place where they first differ.
    pub parted: [usize; LONGEST_NAME],
    /// Names that stood in a sight text or were typed for a room, where another room's name begins the name or is begun by
    /// it: those that some room has, and those that none has.
    pub known: usize,
    pub unknown: usize,
}

impl Counts {
    pub fn add(&mut self, all: &[Done]) {
        let Some(done) = all.first() else {
            return;
        };
        for text in layouts(done) {
            let Ok(layout) = layout::read(text) else {
                continue;
            };
            let rooms: Vec<&[u8]> = layout.rooms.iter().map(|room| &room.name[..]).collect();
            for (at, room) in rooms.iter().enumerate() {
                rooms[..at]
                    .iter()
                    .for_each(|other| self.add_pair(room, other));
            }
            asked(done)
                .iter()
                .for_each(|name| self.add_asked(name, &rooms));
        }
    }

    fn add_pair(&mut self, one: &[u8], other: &[u8]) {
        self.begun += usize::from(is_begun(one, other));
        let first = one.iter().zip(other).position(|(a, b)| a != b);
        if let (true, Some(first)) = (one.len() == other.len(), first) {
            self.parted[first] += 1;
        }
    }

    fn add_asked(&mut self, name: &[u8], rooms: &[&[u8]]) {
        if rooms.iter().any(|room| is_begun(room, name)) {
            match rooms.contains(&name) {
                true => self.known += 1,
                false => self.unknown += 1,
            }
        }
    }

    /// What the comparison tells of them.
    pub fn line(&self) -> String {
        format!(
            "pairs of rooms of which one begins the other {}, of one length by the place where they first differ {:?}; \
             names asked for beside a room that begins alike: known {}, unknown {}",
            self.begun, self.parted, self.known, self.unknown
        )
    }
}

/// Whether one name is the start of the other and they are not the same.
fn is_begun(one: &[u8], other: &[u8]) -> bool {
    one != other && (one.starts_with(other) || other.starts_with(one))
}

/// The names, in lower case, that a call looks for among a layout's rooms: those of a sight text, and one that is typed.
fn asked(done: &Done) -> Vec<Vec<u8>> {
    let (sight, typed) = match done.call {
        Call::SightRewrite | Call::SightRow { .. } => (Some(1), None),
        Call::SightRename { .. } => (Some(1), Some(2)),
        Call::LayoutRename { .. } => (None, Some(1)),
        _ => (None, None),
    };
    let mut names = Vec::new();
    if let Some(Ok(mut lines)) = sight.map(|number| Lines::of(done.lent(number))) {
        let lines = std::iter::from_fn(|| lines.another());
        names.extend(lines.map(|line| line.words[0].bytes.to_ascii_lowercase()));
    }
    names.extend(typed.map(|number| done.lent(number).to_ascii_lowercase()));
    names
}
