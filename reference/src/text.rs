//! What layout and sight texts share: byte classes, lines, words, names and counts.

use crate::answer::{refuse, refuse_if, refuse_lowest, Checked};
use crate::fault::{planted, Fault};

/// The greatest length of a text, and of a text's form.
pub const LONGEST: usize = 65_536;
/// The longest name.
pub const LONGEST_NAME: usize = 16;
/// The greatest count.
pub const GREATEST_COUNT: usize = 64;

/// The class of a byte.
#[derive(Clone, Copy, Debug, PartialEq, Eq)]
pub enum Class {
    Letter,
    Digit,
    Underscore,
    Minus,
    Point,
    Blank,
    LineFeed,
    CarriageReturn,
    Refused,
}

/// One class for each of the 256 byte values.
pub fn class_of(byte: u8) -> Class {
    match byte {
        b'a'..=b'z' | b'A'..=b'Z' => Class::Letter,
        b'0'..=b'9' => Class::Digit,
        b'_' => Class::Underscore,
        b'-' => Class::Minus,
        b'.' => Class::Point,
        b' ' | b'\t' => Class::Blank,
        b'\n' => Class::LineFeed,
        b'\r' => Class::CarriageReturn,
        _ => Class::Refused,
    }
}

/// A part of a line between blanks, and where it starts in the text.
#[derive(Clone, Copy, Debug, PartialEq, Eq)]
pub struct Word<'a> {
    pub start: usize,
    pub bytes: &'a [u8],
}

/// A line that is not blank, with its number from 1.
#[derive(Clone, Debug)]
pub struct Line<'a> {
    pub number: usize,
    pub words: Vec<Word<'a>>,
}

/// The lines of a text, taken one after the other.
pub struct Lines<'a> {
    left: std::vec::IntoIter<Line<'a>>,
    count: usize,
}

impl<'a> Lines<'a> {
    /// Rules 31 and 32, then the lines. Blank lines are skipped but counted.
    pub fn of(text: &'a [u8]) -> Checked<Lines<'a>> {
        refuse_if(text.len() > LONGEST, 31, 0)?;
        refuse_lowest(32, text.len(), |at| match class_of(text[at]) {
            Class::Refused => true,
            Class::CarriageReturn => text.get(at + 1) != Some(&b'\n'),
            _ => false,
        })?;
        let lines = split_lines(text);
        let count = lines.len();
        let filled: Vec<Line> = lines.into_iter().filter(|l| !l.words.is_empty()).collect();
        Ok(Lines {
            left: filled.into_iter(),
            count,
        })
    }

    /// The next line; 38 at the number of lines if the text ends early.
    pub fn wanted(&mut self) -> Checked<Line<'a>> {
        let count = self.count;
        self.left.next().map_or(refuse(38, count), Ok)
    }

    /// The next line, if there is one.
    pub fn another(&mut self) -> Option<Line<'a>> {
        self.left.next()
    }
}

/// All lines. A line ends with LF; what follows the last LF is a line if it has bytes.
fn split_lines(text: &[u8]) -> Vec<Line<'_>> {
    let mut lines = Vec::new();
    let mut start = 0;
    for line in text.split_inclusive(|&byte| byte == b'\n') {
        lines.push(Line {
            number: lines.len() + 1,
            words: words_of(line, start),
        });
        start += line.len();
    }
    lines
}

/// The words of a line that starts at `start`. The line's end parts words like a blank does.
fn words_of(line: &[u8], start: usize) -> Vec<Word<'_>> {
    let parts = |byte: &u8| {
        matches!(
            class_of(*byte),
            Class::Blank | Class::LineFeed | Class::CarriageReturn
        )
    };
    let mut words = Vec::new();
    let mut at = 0;
    for bytes in line.split(parts) {
        if !bytes.is_empty() {
            words.push(Word {
                start: start + at,
                bytes,
            });
        }
        at += bytes.len() + 1;
    }
    words
}

/// Whether this is a name: 1 to 16 letters, digits, underscores.
pub fn is_name(bytes: &[u8]) -> bool {
    let allowed = |byte: &u8| {
        matches!(
            class_of(*byte),
            Class::Letter | Class::Digit | Class::Underscore
        )
    };
    (1..=LONGEST_NAME).contains(&bytes.len()) && bytes.iter().all(allowed)
}

/// Whether faults that are planted take a name for a long one.
pub fn is_long(name: &[u8]) -> bool {
    name.len() > LONGEST_NAME / 2
}

/// What stands behind a name in a form: a blank, unless a fault is planted.
pub fn behind(name: &[u8]) -> u8 {
    match planted(Fault::LongNameBroken) && is_long(name) {
        true => b'\n',
        false => b' ',
    }
}

/// The name that is compared and written: in lower case.
pub fn lower(name: &[u8]) -> Vec<u8> {
    match planted(Fault::CaseCounts) {
        true => name.to_vec(),
        false => name.to_ascii_lowercase(),
    }
}

/// The test whether two names in lower case are the same: all their bytes are, unless a fault is planted. That is looked up
/// once, not for each pair.
pub fn same_name() -> impl Fn(&[u8], &[u8]) -> bool {
    let as_far = planted(Fault::LengthsNotCompared);
    let by_first = planted(Fault::FirstByteAlike);
    move |one, other| {
        one == other
            || as_far && one.iter().zip(other).all(|(a, b)| a == b)
            || by_first && one.len() == other.len() && one[0] == other[0]
    }
}

/// A count: one or two digits, not over 64.
pub fn count_of(bytes: &[u8]) -> Option<usize> {
    if !(1..=2).contains(&bytes.len()) {
        return None;
    }
    digits(bytes)
        .map(|count| count as usize)
        .filter(|&count| count <= GREATEST_COUNT)
}

/// What digits say, if these are digits only.
pub fn digits(bytes: &[u8]) -> Option<i64> {
    bytes.iter().try_fold(0, |number, byte| {
        (class_of(*byte) == Class::Digit).then(|| number * 10 + i64::from(byte - b'0'))
    })
}

/// Whether a line that has the right keyword and number of words also states a right count.
/// 33 for a wrong number of words, 36 for a wrong count.
pub fn count_on(line: &Line) -> Checked<usize> {
    refuse_if(line.words.len() != 2, 33, line.number)?;
    count_of(line.words[1].bytes).map_or(refuse(36, line.number), Ok)
}
