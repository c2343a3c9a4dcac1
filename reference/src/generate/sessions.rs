//! Sessions of two benches: what they are made of, and those of any edits, undos and put-backs, with
//! good and bad arguments and with floors and journals that are spoilt on the way.

use super::cases::Call;
use super::damage;
use super::fields::{any_field, any_value, few, Field};
use super::floors::{self, any_wish, Wish};
use super::model::Model;
use super::random::Random;
use super::{journals, runs, two_faults};
use crate::journal::{fitting, LAST_BENCH, MOST_RECORDS, RECORD};

/// One move of a session.
#[derive(Clone, Copy, Debug)]
pub enum Move {
    /// A call; its f is that of the session.
    Call(Call),
    /// The next call is handed this; if it refuses, the session goes on as before.
    HandIn {
        f: u32,
    },
    /// A byte of the floor or the journal changes between two calls.
    SpoilFloor {
        at: usize,
        by: u8,
    },
    SpoilJournal {
        at: usize,
        by: u8,
    },
}

/// An undo by this bench; its f is that of the session.
pub fn undo(bench: u32) -> Move {
    Move::Call(Call::Undo { f: 0, bench })
}

/// A put-back by this bench; its f is that of the session.
pub fn put_back(bench: u32) -> Move {
    Move::Call(Call::PutBack { f: 0, bench })
}

/// An edit by a bench: its field, which is a tag and a place, and what to write there as 32 bits.
#[derive(Clone, Copy, Debug, PartialEq, Eq)]
pub struct Edit {
    pub bench: u32,
    pub tag: u8,
    pub place: u32,
    pub to: u32,
}

impl Edit {
    /// The field that the edit changes.
    pub fn field(&self) -> Field {
        (self.tag, self.place)
    }

    /// The edit as a move; its f is that of the session.
    pub fn as_move(self) -> Move {
        Move::Call(Call::Edit { f: 0, edit: self })
    }
}

/// A floor, a journal, what is handed in first, and the moves.
#[derive(Clone, Debug)]
pub struct Play {
    pub floor: Vec<u8>,
    pub journal: Vec<u8>,
    pub f: u32,
    pub moves: Vec<Move>,
}

impl Play {
    /// How many calls are made.
    pub fn calls(&self) -> usize {
        let is_call = |next: &&Move| matches!(next, Move::Call(_));
        self.moves.iter().filter(is_call).count()
    }
}

/// Any session.
pub fn play(random: &mut Random) -> Play {
    match random.under(60) {
        0 => journals::full(random),
        1..=12 => journals::crafted(random),
        13..=26 => two_faults::call(random),
        27..=45 => runs::run(random),
        46 | 47 => refused_floor(random),
        _ => usual(random),
    }
}

/// A small floor with faces and edges. Editing asks only for rules 1 to 6, so later rules may be broken.
pub(super) fn small_floor(random: &mut Random) -> Vec<u8> {
    if random.once_in(8) {
        return damage::bad(random);
    }
    let mut model = small_model(random);
    if random.once_in(3) {
        break_later_rules(&mut model, random);
    }
    model.bytes(random)
}

/// A small floor that the reader accepts, mostly with faces and edges.
pub(super) fn small_model(random: &mut Random) -> Model {
    let wish = any_wish(random);
    let least = usize::from(!random.once_in(10));
    let wish = Wish {
        storeys: 1,
        columns: wish.columns.clamp(least, 3),
        rows: wish.rows.clamp(least, 3),
        holes: wish.holes * random.under(2),
        ..wish
    };
    floors::floor(random, wish)
}

/// Gives some faces a material and some edges a transition that no edit would write.
fn break_later_rules(model: &mut Model, random: &mut Random) {
    for material in &mut model.materials {
        if random.once_in(4) {
            *material = random.pick(&[23, 23, 24, 0xFFFF_FFFF]);
        }
    }
    for edge in &mut model.edges {
        if random.once_in(4) {
            edge[1] = random.pick(&[64, 99, 0xFFFF_FFFE]);
        }
    }
}

/// A bench, now and then one that there is not; some of those have a byte in common with 0 or 1.
pub(super) fn any_bench(random: &mut Random) -> u32 {
    match random.once_in(16) {
        true => no_bench(random),
        false => bench(random),
    }
}

/// One of the two benches.
pub(super) fn bench(random: &mut Random) -> u32 {
    random.from_to(0, LAST_BENCH.into()) as u32
}

/// A number that is no bench's.
pub(super) fn no_bench(random: &mut Random) -> u32 {
    random.pick(&[2, 2, 3, 255, 256, 257, 0x8000_0001, 0xFFFF_FFFF])
}

/// Bytes after a journal's last whole record.
pub(super) fn odd_bytes(random: &mut Random) -> usize {
    random.pick(&[0, 0, 1, RECORD / 2, RECORD - 1])
}

/// The length of a journal: mostly of so few records, odd or even in number, that halves are soon
/// reached; now and then of as many as are ever kept, or more.
pub(super) fn journal_length(random: &mut Random) -> usize {
    let most = i64::from(MOST_RECORDS);
    let records = match random.under(24) {
        0 => random.from_to(most - 1, most + 2),
        1..=7 => return random.under(3 * RECORD + 1),
        8..=17 => random.from_to(2, 9),
        _ => random.pick(&[12, 15, 20, 50]),
    };
    RECORD * records as usize + odd_bytes(random)
}

/// A floor that some rule from 1 to 6 refuses, more often than not.
fn refused_floor(random: &mut Random) -> Play {
    let floor = match random.once_in(2) {
        true => damage::noise(random),
        false => damage::bad(random),
    };
    with_moves(random, floor, 6)
}

fn usual(random: &mut Random) -> Play {
    let floor = small_floor(random);
    let moves = random.pick(&[1, 2, 5, 10, 25, 40]);
    with_moves(random, floor, moves)
}

fn with_moves(random: &mut Random, floor: Vec<u8>, count: usize) -> Play {
    let length = journal_length(random);
    let fields = few(random, &floor);
    let moves = (0..count)
        .map(|_| any_move(random, &floor, &fields, length))
        .collect();
    Play {
        journal: random.bytes(length),
        floor,
        f: 0,
        moves,
    }
}

fn any_move(random: &mut Random, floor: &[u8], fields: &[Field], journal: usize) -> Move {
    match random.under(50) {
        0..=30 => edit(random, floor, fields),
        31..=40 => undo(any_bench(random)),
        41..=43 => put_back(any_bench(random)),
        44..=46 => Move::HandIn {
            f: any_f(random, fitting(journal)),
        },
        47 => Move::SpoilFloor {
            at: random.under(floor.len()),
            by: 1 << random.under(8),
        },
        _ => Move::SpoilJournal {
            at: random.under(journal.min(4 * RECORD)),
            by: random.pick(&[1, 2, 3, 128, 255]),
        },
    }
}

/// A number of records to hand in, most often near the number of those that fit or at a limit.
fn any_f(random: &mut Random, fit: u32) -> u32 {
    match random.under(3) {
        0 => random.pick(&[fit.saturating_sub(1), fit, fit + 1]),
        1 => random.pick(&[0, 1, 2, 3, MOST_RECORDS, MOST_RECORDS + 1]),
        _ => random.odd_word(),
    }
}

/// An edit of one of these fields or of any, mostly a right one.
pub(super) fn edit(random: &mut Random, floor: &[u8], fields: &[Field]) -> Move {
    let field = match random.once_in(2) {
        true => any_field(random, floor),
        false => random.pick(fields),
    };
    let (tag, place) = field;
    Edit {
        bench: any_bench(random),
        tag,
        place,
        to: any_value(random, floor, field),
    }
    .as_move()
}
