//! Pairs of edits for request M-107: two edits of different fields or of the same one, by one bench or
//! by both, made on the same start in both orders.

use super::fields::{any_value, lay, place, places, right_value, Field, TAGS};
use super::journals::bench_bytes;
use super::random::Random;
use super::sessions::{any_bench, bench, odd_bytes, small_floor, Edit, Play};
use crate::grid::{bits_of, FARTHEST, MINUS_ZERO};
use crate::journal::{
    fitting, held, BENCH_AT, LARGEST_STEP, LINK, MOST_RECORDS, NUDGE, PAINT, RECORD,
};

/// The bits of positive zero.
const PLUS_ZERO: u32 = 0;

/// The start that both orders share, and the two edits.
#[derive(Clone, Debug)]
pub struct Pair {
    pub floor: Vec<u8>,
    pub journal: Vec<u8>,
    pub f: u32,
    pub edits: [Edit; 2],
}

impl Pair {
    /// Whether both edits are of the same field.
    pub fn is_of_one_field(&self) -> bool {
        let [one, other] = self.edits.map(|edit| edit.field());
        one == other
    }

    /// Whether both edits are by the same bench.
    pub fn is_by_one_bench(&self) -> bool {
        self.edits[0].bench == self.edits[1].bench
    }

    /// Whether the journal has room for both edits and, where they are one bench's, so has its half.
    pub fn has_room_for_both(&self) -> bool {
        let fit = fitting(self.journal.len());
        if self.f + 2 > fit {
            return false;
        }
        let held = held(&self.journal, self.f, self.edits[0].bench);
        !self.is_by_one_bench() || held + 2 <= fit / 2
    }

    /// For two nudges of one field the nudge by their sum, if 32 bits hold that, by the first one's bench.
    pub fn by_the_sum(&self) -> Option<Edit> {
        let [one, other] = self.edits;
        if one.tag != NUDGE || !self.is_of_one_field() {
            return None;
        }
        let sum = (one.to as i32).checked_add(other.to as i32)?;
        Some(Edit {
            to: sum as u32,
            ..one
        })
    }

    /// What is played, each from the same start: the first edit and then the second, the second and
    /// then the first, and for two nudges of one field the nudge by the sum. A paint or link alone on
    /// the start needs no play of its own: it begins one of the two orders.
    pub fn plays(&self) -> Vec<Play> {
        let [first, second] = self.edits;
        let mut runs = vec![vec![first, second], vec![second, first]];
        runs.extend(self.by_the_sum().map(|sum| vec![sum]));
        runs.iter().map(|edits| self.play(edits)).collect()
    }

    /// These edits one after the other from the start.
    fn play(&self, edits: &[Edit]) -> Play {
        Play {
            floor: self.floor.clone(),
            journal: self.journal.clone(),
            f: self.f,
            moves: edits.iter().map(|edit| edit.as_move()).collect(),
        }
    }
}

/// Any pair: half of them of different fields. Nudges of one field have the most ways to end.
pub fn pair(random: &mut Random) -> Pair {
    let mut floor = small_floor(random);
    let changes = match random.under(8) {
        0..=3 => of_different_fields(random, &floor),
        4 => of_one_field(random, &floor, PAINT),
        5 => of_one_field(random, &floor, LINK),
        _ => two_nudges(random, &mut floor),
    };
    let (f, journal) = start(random);
    let benches = benches(random);
    Pair {
        floor,
        journal,
        f,
        edits: [0, 1].map(|number| changes[number].by(benches[number])),
    }
}

/// The benches of both edits: one for both or each its own, now and then any that are handed in.
fn benches(random: &mut Random) -> [u32; 2] {
    let first = bench(random);
    match random.under(8) {
        0 => [(); 2].map(|()| any_bench(random)),
        1..=3 => [first, first],
        _ => [first, 1 - first],
    }
}

/// f and a journal of any bytes, mostly with f = 0 and with room for two records or more. The first f
/// are of benches that have their share of it, or not.
fn start(random: &mut Random) -> (u32, Vec<u8>) {
    let f = match random.under(24) {
        0 => MOST_RECORDS - 2,
        1 => MOST_RECORDS - 1,
        2..=7 => random.from_to(1, 6) as u32,
        _ => 0,
    };
    let room = random.pick(&[0, 1, 2, 2, 3, 4, 4, 4, 4, 4, 4, 5, 5, 6, 8, 20]);
    let length = RECORD * (f as usize + room) + odd_bytes(random);
    let mut journal = random.bytes(length);
    for (number, bench) in bench_bytes(random, f as usize).into_iter().enumerate() {
        journal[number * RECORD + BENCH_AT] = bench;
    }
    (f, journal)
}

/// What an edit changes and what it writes there, before it is said by which bench.
#[derive(Clone, Copy)]
struct Change {
    field: Field,
    to: u32,
}

impl Change {
    fn by(self, bench: u32) -> Edit {
        let (tag, place) = self.field;
        let to = self.to;
        Edit {
            bench,
            tag,
            place,
            to,
        }
    }
}

/// A change of this field, mostly a right one.
fn change(random: &mut Random, floor: &[u8], field: Field) -> Change {
    let to = match random.once_in(8) {
        true => any_value(random, floor, field),
        false => right_value(random, floor, field),
    };
    Change { field, to }
}

/// A field with this tag, now and then outside its table.
fn field(random: &mut Random, floor: &[u8], tag: u8) -> Field {
    let count = places(floor, tag);
    let place = match random.once_in(12) {
        true => place(random, count),
        false => random.under(count) as u32,
    };
    (tag, place)
}

/// Two changes of different fields.
fn of_different_fields(random: &mut Random, floor: &[u8]) -> [Change; 2] {
    let mut fields = match random.under(4) {
        0 => neighbours(random, floor),
        1 => equal_places(random, floor),
        _ => any_two(random, floor),
    };
    random.shuffle(&mut fields);
    fields.map(|field| change(random, floor, field))
}

/// Two fields side by side in one table.
fn neighbours(random: &mut Random, floor: &[u8]) -> [Field; 2] {
    let tag = random.pick(&TAGS);
    let (tag, place) = field(random, floor, tag);
    let before = place.checked_sub(1).unwrap_or(1);
    [(tag, place), (tag, before)]
}

/// The same place number under two tags.
fn equal_places(random: &mut Random, floor: &[u8]) -> [Field; 2] {
    let mut tags = TAGS;
    random.shuffle(&mut tags);
    let [one, other, _] = tags;
    let shared = places(floor, one).min(places(floor, other));
    let place = random.under(shared) as u32;
    [(one, place), (other, place)]
}

/// Any two different fields; there are always the twelve floats to choose from.
fn any_two(random: &mut Random, floor: &[u8]) -> [Field; 2] {
    loop {
        let [one, other] = [(); 2].map(|()| {
            let tag = random.pick(&TAGS);
            field(random, floor, tag)
        });
        if one != other {
            return [one, other];
        }
    }
}

/// Two changes of one field with this tag.
fn of_one_field(random: &mut Random, floor: &[u8], tag: u8) -> [Change; 2] {
    let field = field(random, floor, tag);
    [(); 2].map(|()| change(random, floor, field))
}

/// Two nudges of one float: as it stands, or made for the steps to end where a rule has its limit.
fn two_nudges(random: &mut Random, floor: &mut [u8]) -> [Change; 2] {
    if random.once_in(3) {
        return of_one_field(random, floor, NUDGE);
    }
    let (bits, steps) = match random.under(9) {
        0 | 1 => there_and_back(random),
        2 | 3 => to_zero(random),
        4 | 5 => a_far_way(random),
        6 => too_far_and_back(random),
        _ => past_the_end(random),
    };
    let field = (NUDGE, random.under(places(floor, NUDGE)) as u32);
    lay(floor, field, bits);
    let mut changes = steps.map(|step| Change {
        field,
        to: step as u32,
    });
    random.shuffle(&mut changes);
    changes
}

/// Any permitted step.
fn step(random: &mut Random) -> i64 {
    random.from_to(-LARGEST_STEP, LARGEST_STEP)
}

/// A zero of either sign, and two steps whose sum is 0: only +0 is ever written.
fn there_and_back(random: &mut Random) -> (u32, [i64; 2]) {
    let steps = [0, 1, LARGEST_STEP, step(random), step(random)];
    let there = random.pick(&steps);
    (random.pick(&[PLUS_ZERO, MINUS_ZERO]), [there, -there])
}

/// Two steps that end at zero.
fn to_zero(random: &mut Random) -> (u32, [i64; 2]) {
    let steps = [step(random), step(random)];
    (bits_of(-steps[0] - steps[1]), steps)
}

/// Two permitted steps one way whose sum is the largest step, or more and so none.
fn a_far_way(random: &mut Random) -> (u32, [i64; 2]) {
    let beyond = random.from_to(LARGEST_STEP + 1, 2 * LARGEST_STEP);
    let sum = random.pick(&[LARGEST_STEP, LARGEST_STEP + 1, beyond, beyond]);
    let one = random.from_to(sum - LARGEST_STEP, LARGEST_STEP);
    let way = random.pick(&[1, -1]);
    (middle(random), [way * one, way * (sum - one)])
}

/// A step that is none, and a permitted one back: their sum is a permitted step.
fn too_far_and_back(random: &mut Random) -> (u32, [i64; 2]) {
    let out = random.from_to(LARGEST_STEP + 1, 2 * LARGEST_STEP);
    let back = random.from_to(out - LARGEST_STEP, LARGEST_STEP);
    let way = random.pick(&[1, -1]);
    (middle(random), [way * out, -way * back])
}

/// A float from which two steps do not leave the grid.
fn middle(random: &mut Random) -> u32 {
    let far = FARTHEST - 2 * LARGEST_STEP;
    bits_of(random.from_to(-far, far))
}

/// A float near the end of the grid, a step beyond it, and one back that must come first.
fn past_the_end(random: &mut Random) -> (u32, [i64; 2]) {
    let left = random.from_to(0, LARGEST_STEP - 1);
    let out = random.from_to(left + 1, LARGEST_STEP);
    let back = random.from_to(out - left, LARGEST_STEP);
    let way = random.pick(&[1, -1]);
    (bits_of(way * (FARTHEST - left)), [way * out, -way * back])
}
