//! Floors that got a tree: what request M-113 makes true of a planting, judged on what one side answered and wrote and on what its
//! own reader and the call itself say of that. The other side is not looked at, nor how this implementation grows a tree, so
//! that a mistake that both sides share is noticed too.

mod counts;
mod nodes;

use crate::compare::Done;
use crate::floor::mesh;
use crate::floor::tables::{Table, Tables, FIELDS, HEADER, ROOT_FIELD};
use crate::form::ORDER;
use crate::generate::bare::Planting;
use crate::seams::{result, work_left};
use crate::words::word_at;
pub use counts::Counts;
use nodes::Nodes;

/// What is said of every planting.
pub const NUMBERS: &str = "a tree is refused by 20, 1 to 10, 49, 15 to 19 or 40 alone";
pub const WORK_LEFT: &str = "the work memory is as the reader leaves it";
pub const FIRST: &str = "20 and 1 to 10 come first, as the reader has them";
pub const NODES_THERE: &str =
    "a floor with nodes is then refused with 49 at 100, whatever 11 to 19 would say of it";
pub const LISTS: &str =
    "15 to 19 come next, as the reader has them for the floor under any tree, and then 40 alone";
pub const NOTHING: &str = "a refused call writes nothing and answers no length";
pub const TOO_SHORT: &str =
    "40 comes only where the output is shorter than what is written where there is room";

/// What is said of a floor that gets a tree.
pub const REST: &str = "bytes past the form stay";
pub const ACCEPTED: &str = "the result is accepted, with the floor's own counts";
pub const OWN_FORM: &str =
    "the result is its own fixed form, its tables in order from 136 without gaps";
pub const AGAIN: &str =
    "asked again of its result, the call answers 49 at 100, or writes the same where there are no faces";
pub const STAYS: &str = "header floats and all tables but the nodes stay";
pub const COUNT: &str =
    "there is one node less than twice the faces, none without faces, and the root is 0";
pub const NUMBERED: &str =
    "nodes are numbered parent, left subtree, right subtree, with half of the faces, rounded down, on the left";
pub const LEAVES: &str = "the leaves have the faces in order, the unknown number 4 and no plane";
pub const INNER: &str = "other nodes have no face and the unknown number 4";
pub const HELD: &str = "no corner lies outside a box above it";
pub const TIGHT: &str = "every end of a box is a coordinate of a corner below it";
pub const NO_MINUS: &str = "no box has a negative zero";
pub const PLANES: &str =
    "a plane is 1, 2 or 3, no side is longer than its own and every one before that is shorter";
pub const DEPTH: &str = "no leaf is more than 12 steps down";

/// All sentences.
pub const SENTENCES: [&str; 21] = [
    NUMBERS,
    WORK_LEFT,
    FIRST,
    NODES_THERE,
    LISTS,
    NOTHING,
    TOO_SHORT,
    REST,
    ACCEPTED,
    OWN_FORM,
    AGAIN,
    STAYS,
    COUNT,
    NUMBERED,
    LEAVES,
    INNER,
    HELD,
    TIGHT,
    NO_MINUS,
    PLANES,
    DEPTH,
];

/// The refusals of an output that is too short, and of nodes that are there.
const SHORT: u64 = 40;
const NODES: u64 = 49;

/// The lent slices of a planting, by number.
const WORK_SLICE: usize = 1;
const OUT_SLICE: usize = 2;

/// The number and the place that a call answered.
fn verdict(done: &Done) -> (u64, u64) {
    (done.number(), done.fields[1].1)
}

/// How many nodes a floor says it has.
fn nodes_of(floor: &[u8]) -> u32 {
    field_of(floor, FIELDS[Table::Nodes as usize].count)
}

/// A field of the header; 0 if there is none.
fn field_of(floor: &[u8], at: usize) -> u32 {
    match floor.len() >= HEADER {
        true => word_at(floor, at),
        false => 0,
    }
}

/// The sentences that one side broke with a planting.
pub fn broken(planting: &Planting, all: &[Done]) -> Vec<String> {
    let [done, told, rest @ ..] = all else {
        unreachable!("a planting, and what the reader says");
    };
    let number = done.number();
    let known = matches!(number, 0..=10 | 15..=20 | SHORT | NODES);
    let mut said = vec![
        (NUMBERS, !known),
        (
            WORK_LEFT,
            done.lent(WORK_SLICE) != work_left(&planting.work),
        ),
        order_broken(planting, done, told),
    ];
    match (number, rest) {
        (0, [read, rewritten, again]) => {
            said.push((REST, !rest_stays(planting, done)));
            said.push((OWN_FORM, result(rewritten) != result(done)));
            said.extend(result_broken(planting, done, read));
            said.push((AGAIN, !is_asked_again(done, again)));
        }
        (0, _) => said.push((REST, true)),
        (SHORT, [with_room]) => {
            let fits = with_room.fields[2].1 <= planting.out.len() as u64;
            said.push((NOTHING, !wrote_nothing(planting, done)));
            said.push((TOO_SHORT, with_room.number() != 0 || fits));
        }
        _ => said.push((NOTHING, !wrote_nothing(planting, done))),
    }
    let broken = said.into_iter().filter(|(_, is_broken)| *is_broken);
    broken.map(|(sentence, _)| sentence.to_string()).collect()
}

/// The sentence about the order of refusals that speaks of this floor, and whether it is broken. What the reader of the same
/// side was told is the floor with some tree, if it has no nodes of its own.
fn order_broken(planting: &Planting, done: &Done, told: &Done) -> (&'static str, bool) {
    let same = verdict(done) == verdict(told);
    match told.number() {
        1..=10 | 20 => (FIRST, !same),
        _ if nodes_of(&planting.floor) > 0 => (NODES_THERE, verdict(done) != (NODES, 100)),
        15..=19 => (LISTS, !same),
        0 => (LISTS, !matches!(done.number(), 0 | SHORT)),
        _ => (LISTS, false), // there was no room for any tree
    }
}

fn wrote_nothing(planting: &Planting, done: &Done) -> bool {
    done.fields[2].1 == 0 && done.lent(OUT_SLICE) == planting.out
}

fn rest_stays(planting: &Planting, done: &Done) -> bool {
    result(done).is_some_and(|form| {
        let past = form.len();
        done.lent(OUT_SLICE)[past..] == planting.out[past..]
    })
}

/// Whether the call refuses the nodes that it has made, or, where there are none, writes the same once more.
fn is_asked_again(done: &Done, again: &Done) -> bool {
    match result(done).map(nodes_of) {
        Some(0) => again.number() == 0 && result(again) == result(done),
        _ => verdict(again) == (NODES, 100) && again.fields[2].1 == 0,
    }
}

/// What is said of the floor that a planting wrote.
fn result_broken(planting: &Planting, done: &Done, read: &Done) -> Vec<(&'static str, bool)> {
    let opened = Tables::open(&planting.floor);
    let Some(before) = opened.ok().filter(|t| mesh::corners_are_right(t).is_ok()) else {
        return vec![(FIRST, true)];
    };
    let Some(after) = result(done).and_then(|form| Tables::open(form).ok()) else {
        return vec![(ACCEPTED, true)];
    };
    let mut said = vec![
        (ACCEPTED, !is_read_so(&before, read)),
        (OWN_FORM, !is_laid_out(&after)),
    ];
    let whole = [
        (STAYS, !all_else_stays(&before, &after)),
        (COUNT, !has_nodes_enough(&after)),
    ];
    let is_whole = whole.iter().all(|(_, is_broken)| !is_broken);
    said.extend(whole);
    if is_whole && before.count(Table::Faces) > 0 {
        said.extend(Nodes::of(after).broken());
    }
    said
}

/// The side's own reader accepts the result and gives the floor's counts.
fn is_read_so(before: &Tables, read: &Done) -> bool {
    let counts = [
        Table::Faces,
        Table::Adjacency,
        Table::Edges,
        Table::Perimeters,
    ]
    .map(|table| before.count(table) as u64);
    let answered = read.fields[2..].iter().map(|(_, count)| *count);
    read.number() == 0 && answered.eq(counts)
}

fn is_laid_out(after: &Tables) -> bool {
    let mut position = HEADER;
    let in_order = ORDER.into_iter().all(|table| {
        let fields = &FIELDS[table as usize];
        let stands = word_at(after.bytes, fields.offset) as usize == position;
        position += fields.size * after.count(table);
        stands
    });
    in_order && position == after.bytes.len()
}

fn all_else_stays(before: &Tables, after: &Tables) -> bool {
    let same = |table: Table| before.bytes_of(table) == after.bytes_of(table);
    let mut others = ORDER.into_iter().filter(|table| *table != Table::Nodes);
    before.bytes[..72] == after.bytes[..72] && others.all(same)
}

fn has_nodes_enough(after: &Tables) -> bool {
    let nodes = (2 * after.count(Table::Faces)).saturating_sub(1);
    after.count(Table::Nodes) == nodes && word_at(after.bytes, ROOT_FIELD) == 0
}
