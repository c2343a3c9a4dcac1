//! Digits as typed: what request M-104 makes true of a layout rewritten or renamed, judged on what one side wrote and on
//! what it writes when that is handed in again. The other side is not looked at, nor how this implementation writes
//! numbers, so that a mistake that both sides share is noticed too.

use crate::compare::Done;
use crate::generate::cases::Call;
use crate::hooks;
use crate::layout::{self, Layout};
use crate::number::{MOST_AFTER, MOST_BEFORE};
use crate::text::{Line, Lines};
use std::collections::BTreeMap;

pub const AS_TYPED: &str =
    "a number is written as typed, but for needless zeros in front and the minus of zero";
pub const SAME_PARTS: &str =
    "what is written has the same parts as the text, but for the name of a renamed room, there and in its hooks";
pub const TWICE: &str = "a second rewriting changes no byte";

/// The bytes that a layout's rewriting or renaming says it wrote; nothing of other calls and of refused ones.
pub fn form(done: &Done) -> Option<&[u8]> {
    let out = match done.call {
        Call::LayoutRewrite => 1,
        Call::LayoutRename { .. } => 2,
        _ => return None,
    };
    let length = done.fields[2].1 as usize;
    (done.number() == 0).then(|| done.lent(out).get(..length).unwrap_or_default())
}

/// The sentences that one side broke with a layout. `all` is what it did: the call, then its form rewritten once more.
pub fn broken(all: &[Done]) -> Vec<String> {
    let [done, again @ ..] = all else {
        return Vec::new();
    };
    let Some(form) = form(done) else {
        return Vec::new();
    };
    let typed = done.lent(0);
    let kept: Vec<Vec<u8>> = numbers(typed).iter().map(|number| kept(number)).collect();
    let is_twice = |again: &Done| self::form(again) == Some(form);
    let said = [
        (AS_TYPED, numbers(form) != kept),
        (SAME_PARTS, !has_same_parts(done.call, typed, form)),
        (TWICE, !again.iter().all(is_twice)),
    ];
    let broken = said.into_iter().filter(|(_, is_broken)| *is_broken);
    broken.map(|(sentence, _)| sentence.to_string()).collect()
}

/// The words behind the names of a layout's entries, the only lines of four words, and behind room and door of its hooks.
fn numbers(text: &[u8]) -> Vec<Vec<u8>> {
    let Ok(mut lines) = Lines::of(text) else {
        return Vec::new();
    };
    let mut numbers = Vec::new();
    while let Some(line) = lines.another() {
        numbers.extend(numbers_on(&line));
    }
    numbers
}

/// The numbers of an entry or hook; nothing of other lines.
pub fn numbers_on(line: &Line) -> Vec<Vec<u8>> {
    let names = match line.words.len() {
        4 => 1,
        count if hooks::WORDS.contains(&count) => 2,
        count => count,
    };
    let behind = line.words[names..].iter();
    behind.map(|word| word.bytes.to_vec()).collect()
}

/// A number's word without needless zeros in front, and without a minus where no digit is another than 0.
pub fn kept(word: &[u8]) -> Vec<u8> {
    let is_zero = word.iter().all(|byte| b"-0.".contains(byte));
    let (minus, digits) = match word {
        [b'-', rest @ ..] if is_zero => (&b""[..], rest),
        [b'-', rest @ ..] => (&b"-"[..], rest),
        _ => (&b""[..], word),
    };
    let before = digits.iter().take_while(|&&byte| byte != b'.').count();
    let needless = digits.iter().take_while(|&&byte| byte == b'0').count();
    [minus, &digits[needless.min(before.saturating_sub(1))..]].concat()
}

/// Whether both texts have the same entries and hooks with the same numbers, and the same names but that of a renamed
/// room.
fn has_same_parts(call: Call, text: &[u8], form: &[u8]) -> bool {
    let (Ok(mut of_text), Ok(mut of_form)) = (layout::read(text), layout::read(form)) else {
        return false;
    };
    if let Call::LayoutRename { room } = call {
        for layout in [&mut of_text, &mut of_form] {
            let Some(renamed) = layout.rooms.get_mut(room as usize) else {
                return false;
            };
            let name = std::mem::take(&mut renamed.name);
            let hooks = layout.hooks.iter_mut();
            hooks
                .filter(|hook| hook.room == name)
                .for_each(|hook| hook.room.clear());
        }
    }
    parts(of_text) == parts(of_form)
}

/// A layout's parts: all that was read, but not where the names stand.
pub fn parts(mut layout: Layout) -> Layout {
    let kinds = [&mut layout.rooms, &mut layout.tracks, &mut layout.obstacles];
    for entry in kinds.into_iter().flatten() {
        (entry.start, entry.length) = (0, 0);
    }
    layout
}

/// How a number is typed: with a minus or not, digits before and after the point, and whether all are zeros.
pub type Shape = (bool, usize, usize, bool);

/// All shapes.
pub const SHAPES: usize = 2 * MOST_BEFORE * (MOST_AFTER + 1) * 2;

/// The shape of a number's word.
pub fn shape(word: &[u8]) -> Shape {
    let digits = word.strip_prefix(b"-").unwrap_or(word);
    let before = digits.iter().take_while(|&&byte| byte != b'.').count();
    let after = digits.len().saturating_sub(before + 1);
    let is_zero = digits.iter().all(|byte| b"0.".contains(byte));
    (word.len() > digits.len(), before, after, is_zero)
}

/// How many layouts were rewritten or renamed, and how often numbers of each shape stood in them.
#[derive(Debug, Default)]
pub struct Counts {
    pub layouts: usize,
    pub shapes: BTreeMap<Shape, usize>,
}

impl Counts {
    pub fn add(&mut self, all: &[Done]) {
        if let Some(done) = all.first().filter(|done| form(done).is_some()) {
            self.layouts += 1;
            for number in numbers(done.lent(0)) {
                *self.shapes.entry(shape(&number)).or_default() += 1;
            }
        }
    }

    /// What the comparison tells of them.
    pub fn line(&self) -> String {
        let numbers: usize = self.shapes.values().sum();
        let fewest = match self.shapes.len() {
            SHAPES => self.shapes.values().copied().min().unwrap_or(0),
            _ => 0,
        };
        format!(
            "layouts rewritten {}, with {numbers} numbers of {} shapes of {SHAPES}, each at least {fewest} times",
            self.layouts,
            self.shapes.len()
        )
    }
}
