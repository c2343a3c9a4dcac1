//! Texts typed once more, for request M-110: the same but for the names of rooms, in any way that likeness leaves free.

use super::random::Random;
use super::texts::{self, recased, Plan, Word};
use crate::number::MOST_BEFORE;
use crate::text::{count_of, LONGEST};

/// The names of the rooms as a plan has them, and what they are now.
#[derive(Clone, Copy)]
pub struct Names<'a> {
    pub old: &'a [Word],
    pub new: &'a [Word],
}

impl Names<'_> {
    /// The new name of the room that this word names, in letters of any case.
    fn of(&self, random: &mut Random, word: &[u8]) -> Word {
        let is_named = |name: &Word| name.eq_ignore_ascii_case(word);
        let room = self.old.iter().position(is_named);
        recased(random, &self.new[room.expect("a room's name")])
    }
}

/// A layout typed once more: a section without entries left out or not, counts and numbers in another way, names in other
/// letters; the names of rooms, on their own lines, as they are now. The plan has all four sections.
pub fn layout(random: &mut Random, plan: &Plan, names: Names) -> Plan {
    let mut again = vec![plan[0].clone()];
    let mut rest = &plan[1..];
    while let [keyword, count] = &rest[0][..] {
        let count = count_of(count).expect("a right count");
        let (entries, more) = rest[1..].split_at(count);
        if count > 0 || keyword == b"roomcount" || random.once_in(2) {
            again.push(vec![keyword.clone(), texts::count(random, count)]);
        }
        for (number, words) in entries.iter().enumerate() {
            let (first, numbers) = match &keyword[..] {
                b"roomcount" => (vec![names.new[number].clone()], &words[1..]),
                b"doorhookcount" => {
                    let room = names.of(random, &words[0]);
                    (vec![room, recased(random, &words[1])], &words[2..])
                }
                _ => (vec![recased(random, &words[0])], &words[1..]),
            };
            let numbers = numbers.iter().map(|number| retyped(random, number));
            again.push(first.into_iter().chain(numbers).collect());
        }
        rest = more;
    }
    again.extend_from_slice(rest);
    again
}

/// A sight text typed once more: names in other letters, counts in another way.
pub fn sight(random: &mut Random, plan: &Plan, names: Names) -> Plan {
    let mut again = Plan::new();
    for words in plan {
        let mut line = vec![names.of(random, &words[0])];
        if let Some(count) = words.get(1) {
            let count = count_of(count).expect("a right count");
            line.push(texts::count(random, count));
        }
        again.push(line);
    }
    again
}

/// The same number: needless zeros in front taken away or put there, zero with a minus or without. The digits after the
/// point stay.
fn retyped(random: &mut Random, number: &[u8]) -> Word {
    let is_zero = number.iter().all(|byte| b"-0.".contains(byte));
    let digits = number.strip_prefix(b"-").unwrap_or(number);
    let has_minus = match is_zero {
        true => random.once_in(2),
        false => digits.len() < number.len(),
    };
    let before = digits.iter().take_while(|&&byte| byte != b'.').count();
    let zeros = digits.iter().take_while(|&&byte| byte == b'0').count();
    let needless = zeros.min(before - 1);
    let most = MOST_BEFORE - (before - needless);
    let zeros = match random.under(3) {
        0 => 0,
        1 => needless,
        _ => random.under(most + 1),
    };
    let minus: &[u8] = if has_minus { b"-" } else { b"" };
    [minus, &vec![b'0'; zeros], &digits[needless..]].concat()
}

/// A plan spaced out in any way, or plainly where that would make the text too long.
pub fn spaced(random: &mut Random, plan: &Plan) -> Vec<u8> {
    let text = texts::spaced(random, plan);
    match text.len() > LONGEST {
        true => texts::plain(plan),
        false => text,
    }
}
