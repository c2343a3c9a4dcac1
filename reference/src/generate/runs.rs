//! Runs of two benches from an accepted floor and an empty journal, where nothing but calls happens.
//! Both edit few fields, so that they stand in each other's way, and the journal soon has no room.

use super::fields::{any_value, few, right_value, Field};
use super::random::Random;
use super::sessions::{journal_length, no_bench, put_back, small_model, undo, Edit, Move, Play};
use crate::journal::{fitting, LAST_BENCH};

/// Any run. Many end with undos or put-backs by both benches in turn.
pub(super) fn run(random: &mut Random) -> Play {
    let floor = small_model(random).bytes(random);
    let fields = few(random, &floor);
    let length = journal_length(random);
    let eighths = random.pick(&[1, 4, 4, 7]); // of all moves are bench 1's
    let count = random.pick(&[2, 5, 10, 20, 35]);
    let mut moves: Vec<Move> = (0..count)
        .map(|_| {
            let bench = u32::from(random.under(8) < eighths);
            any_move(random, &floor, &fields, bench)
        })
        .collect();
    let records = count.min(fitting(length) as usize);
    match random.under(6) {
        0 => moves.extend(in_turn(random, undo, 2 * records)),
        1..=3 => moves.extend(in_turn(random, put_back, enough_turns(records))),
        _ => (),
    }
    Play {
        journal: random.bytes(length),
        floor,
        f: 0,
        moves,
    }
}

/// So many put-backs in turn leave none of the records and end with both benches put back: each takes
/// out at least one but the first, while there are any.
fn enough_turns(records: usize) -> usize {
    records + 3
}

/// The same of both benches by turns, either one first.
fn in_turn(random: &mut Random, take_out: fn(u32) -> Move, turns: usize) -> Vec<Move> {
    let first = random.under(2) as u32;
    let bench = |turn: usize| (first + turn as u32) % (LAST_BENCH + 1);
    (0..turns).map(|turn| take_out(bench(turn))).collect()
}

fn any_move(random: &mut Random, floor: &[u8], fields: &[Field], bench: u32) -> Move {
    let bench = match random.once_in(24) {
        true => no_bench(random),
        false => bench,
    };
    match random.under(20) {
        0..=12 => edit(random, floor, fields, bench),
        13..=18 => undo(bench),
        _ => put_back(bench),
    }
}

/// An edit of one of these fields, nearly always a right one.
fn edit(random: &mut Random, floor: &[u8], fields: &[Field], bench: u32) -> Move {
    let field = random.pick(fields);
    let to = match random.once_in(8) {
        true => any_value(random, floor, field),
        false => right_value(random, floor, field),
    };
    let (tag, place) = field;
    Edit {
        bench,
        tag,
        place,
        to,
    }
    .as_move()
}
