//! One call with two faults at once, so that the order of the refusals is seen.

use super::fields::{few, lay, places, right_value, Field};
use super::journals::{bench_bytes, chain, next_record};
use super::random::Random;
use super::sessions::{bench, no_bench, put_back, small_model, undo, Edit, Move, Play};
use crate::floor::tables::{Table, FIELDS, HEADER};
use crate::journal::{fitting, BENCH_AT, LINK, MOST_RECORDS, PAINT, PLACE_AT, RECORD};
use crate::words::put_word;

/// What is wrong with a call. They are brought in in this order: later ones need what earlier ones made.
#[derive(Clone, Copy, Debug, PartialEq, Eq, PartialOrd, Ord)]
enum Wrong {
    /// The bench's latest record has a later one of the other bench above it: 43.
    Blocked,
    /// The bench has no record: 26.
    None,
    /// The bench's latest record is spoilt: 27.
    Record,
    /// No room for the bench: 25.
    Room,
    /// What to write: 22, 23 or 24.
    Value,
    /// The place: 21.
    Place,
    /// The bench: 45.
    Bench,
    /// More records than fit: 28.
    F,
    /// The floor: one of 1 to 5.
    Floor,
}

/// The calls by what can be wrong with them.
const EDITS: [Wrong; 6] = [
    Wrong::Room,
    Wrong::Value,
    Wrong::Place,
    Wrong::Bench,
    Wrong::F,
    Wrong::Floor,
];
const UNDOS: [Wrong; 6] = [
    Wrong::Blocked,
    Wrong::None,
    Wrong::Record,
    Wrong::Bench,
    Wrong::F,
    Wrong::Floor,
];

/// A call that is right until something is made wrong with it, and all that is lent to it. The place
/// and the value are an edit's.
struct Start {
    floor: Vec<u8>,
    journal: Vec<u8>,
    f: u32,
    bench: u32,
    field: Field,
    to: u32,
}

/// An edit, an undo or a put-back with two faults, at times with one.
pub(super) fn call(random: &mut Random) -> Play {
    let mut start = start(random);
    let edits = random.once_in(2);
    for wrong in any_two(random, if edits { EDITS } else { UNDOS }) {
        start.make_wrong(random, wrong);
    }
    let take_out = random.pick(&[undo as fn(u32) -> Move, put_back]);
    let made = match edits {
        true => start.edit(),
        false => take_out(start.bench),
    };
    Play {
        floor: start.floor,
        journal: start.journal,
        f: start.f,
        moves: vec![made],
    }
}

/// Two of these in their order, at times one. The likeliest are those that M-108 brings: a bench that there
/// is not, with an f that does not fit or with anything, and a record that is both blocked and spoilt.
fn any_two(random: &mut Random, mut all: [Wrong; 6]) -> Vec<Wrong> {
    random.shuffle(&mut all);
    let mut two = match random.under(6) {
        0 | 1 if all.contains(&Wrong::Blocked) => vec![Wrong::Blocked, Wrong::Record],
        2 => vec![Wrong::Bench, Wrong::F],
        3 => vec![Wrong::Bench, all[0]],
        _ => all[..2].to_vec(),
    };
    two.sort_unstable();
    two.dedup();
    two
}

/// Records of both benches laid on an accepted floor, with room for as many again.
fn start(random: &mut Random) -> Start {
    let mut floor = small_model(random).bytes(random);
    let fields = few(random, &floor);
    let count = random.from_to(1, 5) as usize;
    let benches = bench_bytes(random, count);
    let mut journal = chain(random, &mut floor, &fields, &benches);
    journal.extend(random.bytes((count + 2) * RECORD));
    let field = random.pick(&fields);
    Start {
        to: right_value(random, &floor, field),
        floor,
        journal,
        f: count as u32,
        bench: bench(random),
        field,
    }
}

impl Start {
    fn edit(&self) -> Move {
        let (tag, place) = self.field;
        Edit {
            bench: self.bench,
            tag,
            place,
            to: self.to,
        }
        .as_move()
    }

    fn make_wrong(&mut self, random: &mut Random, wrong: Wrong) {
        let fit = fitting(self.journal.len());
        match wrong {
            Wrong::Blocked => self.block(random),
            Wrong::None => self.give_away(random),
            Wrong::Record => self.spoil_latest(random),
            Wrong::Room => self.fill(random),
            Wrong::Value => {
                self.to = match self.field.0 {
                    PAINT => random.pick(&[23, 255, 0xFFFF_FFFF]),
                    LINK => random.pick(&[64, 0xFFFF_FFFE]),
                    _ => random.pick(&[641, -641_i32 as u32]),
                }
            }
            Wrong::Place => {
                let outside = places(&self.floor, self.field.0) as u32;
                self.field.1 = random.pick(&[outside, outside + 1, 0xFFFF_FFFF]);
            }
            Wrong::Bench => self.bench = no_bench(random),
            Wrong::F => self.f = random.pick(&[fit + 1, fit + 2, MOST_RECORDS + 1, 0xFFFF_FFFF]),
            Wrong::Floor => self.spoil_floor(random),
        }
    }

    /// Adds a record of the bench and one of the other bench with the same field, in what is room.
    fn block(&mut self, random: &mut Random) {
        for bench in [self.bench, 1 - self.bench] {
            let record = next_record(random, &self.floor, self.field, bench as u8);
            lay(&mut self.floor, self.field, record.new);
            self.journal[self.f as usize * RECORD..][..RECORD].copy_from_slice(&record.bytes());
            self.f += 1;
        }
    }

    /// Where the bench's records start, from the lowest on.
    fn own(&self) -> Vec<usize> {
        (0..self.f as usize)
            .map(|number| number * RECORD)
            .filter(|at| u32::from(self.journal[at + BENCH_AT]) == self.bench)
            .collect()
    }

    /// Gives the bench's records to the other bench or to nobody.
    fn give_away(&mut self, random: &mut Random) {
        let to = random.pick(&[1 - self.bench as u8, 2, 255]);
        for at in self.own() {
            self.journal[at + BENCH_AT] = to;
        }
    }

    /// Spoils the bench's latest record: its length, its old or its new bytes, or its tag and place, and
    /// then those of the last record too, so that what was blocked still is.
    fn spoil_latest(&mut self, random: &mut Random) {
        let Some(at) = self.own().pop() else {
            return;
        };
        if random.once_in(3) {
            let last = (self.f as usize - 1) * RECORD;
            let (tag, place) = random.pick(&[(0, 0), (4, 1), (255, 2), (PAINT, 128), (LINK, 255)]);
            for record in [at, last] {
                self.journal[record] = tag;
                self.journal[record + PLACE_AT + 3] = place; // its highest byte
            }
        } else {
            let byte = random.pick(&[1, 1, 2, 9, 11, 13, 15]);
            self.journal[at + byte] ^= random.pick(&[1, 128]);
        }
    }

    /// Leaves no room: all records are the bench's and its half is used up, or they are nobody's and
    /// no more fit.
    fn fill(&mut self, random: &mut Random) {
        let nobody = random.once_in(2);
        for number in 0..self.f as usize {
            self.journal[number * RECORD + BENCH_AT] = match nobody {
                true => 2,
                false => self.bench as u8,
            };
        }
        let room = match nobody {
            true => 0,
            false => random.under(self.f as usize + 1),
        };
        self.journal.truncate((self.f as usize + room) * RECORD);
    }

    /// Breaks one of the rules 1 to 5.
    fn spoil_floor(&mut self, random: &mut Random) {
        let faces = &FIELDS[Table::Faces as usize];
        match random.under(5) {
            0 => self.floor.truncate(HEADER - 1),
            1 => self.floor[random.under(8)] ^= 1,
            2 => put_word(&mut self.floor, 8, random.pick(&[0, 2])),
            3 => put_word(&mut self.floor, faces.count, 4_097),
            _ => put_word(
                &mut self.floor,
                faces.offset,
                random.pick(&[135, 0xFFFF_FFFF]),
            ),
        }
    }
}
