//! Numbers of layouts: rule 35, and how M-104 has them written.

use crate::fault::{planted, Fault};
use crate::text::digits;

/// The most digits before and after the point.
pub const MOST_BEFORE: usize = 5;
pub const MOST_AFTER: usize = 6;

/// What is kept of a number: its sign, which for zero is plus, its whole millionths, and how many digits stood after
/// the point.
#[derive(Clone, Copy, Debug, PartialEq, Eq)]
pub struct Number {
    pub negative: bool,
    pub millionths: i64,
    pub after: usize,
}

impl Number {
    /// Optional minus, 1 to 5 digits, optionally a point and 1 to 6 digits.
    pub fn of(word: &[u8]) -> Option<Number> {
        let (minus, unsigned) = match word.split_first() {
            Some((b'-', rest)) => (true, rest),
            _ => (false, word),
        };
        let (whole, part) = match unsigned.iter().position(|&byte| byte == b'.') {
            Some(point) => (&unsigned[..point], Some(&unsigned[point + 1..])),
            None => (unsigned, None),
        };
        if !(1..=MOST_BEFORE).contains(&whole.len()) {
            return None;
        }
        let after = match part {
            None => 0,
            Some(part) if (1..=MOST_AFTER).contains(&part.len()) => part.len(),
            Some(_) => return None,
        };
        let behind = digits(part.unwrap_or(b""))? * weight(after);
        let millionths = digits(whole)? * 1_000_000 + behind;
        let may_be_negative = millionths != 0 || planted(Fault::MinusZeroTyped) && after > 0;
        Some(Number {
            negative: minus && may_be_negative,
            millionths,
            after,
        })
    }

    /// Written out: no needless zeros in front, so many digits after the point, and no point without any.
    pub fn written(self) -> String {
        let sign = if self.negative { "-" } else { "" };
        let whole = self.millionths / 1_000_000;
        match self.after_written() {
            0 if planted(Fault::BarePoint) => format!("{sign}{whole}."),
            0 => format!("{sign}{whole}"),
            after => {
                let part = self.millionths % 1_000_000 / weight(after);
                format!("{sign}{whole}.{part:0after$}")
            }
        }
    }

    /// How many digits are written after the point.
    fn after_written(self) -> usize {
        let zeros_end = |&after: &usize| self.millionths % weight(after) == 0;
        match self.after {
            _ if planted(Fault::SixDigits) => MOST_AFTER,
            after if planted(Fault::OneDigitMore) => MOST_AFTER.min(after + 1),
            after if planted(Fault::ZerosDropped) => (0..=after).find(zeros_end).unwrap_or(after),
            after => after,
        }
    }
}

/// What the last of so many digits after the point counts, in millionths.
fn weight(after: usize) -> i64 {
    10_i64.pow((MOST_AFTER - after) as u32)
}
