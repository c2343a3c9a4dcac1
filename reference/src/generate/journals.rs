//! Journals that no calls wrote: records of either bench or of nobody, right ones in a chain or any,
//! spoilt ones among them, and as many as are ever kept.

use super::fields::{any_field, any_word, few, lay, right_value, word_of, Field};
use super::floors::{self, any_wish};
use super::random::Random;
use super::sessions::{any_bench, edit, odd_bytes, put_back, small_floor, undo, Move, Play};
use crate::grid::{self, FARTHEST};
use crate::journal::{Record, BENCH_AT, LINK, MOST_RECORDS, NUDGE, PAINT, RECORD};

/// The length that a record would state without its bench.
const NO_BENCH_LENGTH: u8 = 12;
/// Bench bytes of records that are nobody's.
const NOBODY: [u8; 2] = [2, 255];

/// Any bench byte.
fn bench_byte(random: &mut Random) -> u8 {
    random.pick(&[0, 0, 0, 0, 1, 1, 1, 1, NOBODY[0], NOBODY[1]])
}

/// Bench bytes of so many records: by turns, one bench's under the other's, all alike, or any.
pub(super) fn bench_bytes(random: &mut Random, count: usize) -> Vec<u8> {
    let first = random.under(2);
    let alike = random.pick(&[0, 1, NOBODY[0], NOBODY[1]]);
    let way = random.under(5);
    (0..count)
        .map(|number| match way {
            0 | 1 => ((first + number) % 2) as u8,
            2 => (first ^ usize::from(2 * number < count)) as u8,
            3 => alike,
            _ => bench_byte(random),
        })
        .collect()
}

/// A few records that are handed in with a floor, and calls that come upon them.
pub(super) fn crafted(random: &mut Random) -> Play {
    let mut floor = small_floor(random);
    let fields = few(random, &floor);
    let count = random.from_to(1, 7) as u32;
    let benches = bench_bytes(random, count as usize);
    let mut journal = match random.once_in(3) {
        true => any_records(random, &mut floor, &fields, &benches),
        false => chain(random, &mut floor, &fields, &benches),
    };
    match random.under(12) {
        0 => journal
            .chunks_mut(RECORD)
            .for_each(|record| record[1] = NO_BENCH_LENGTH),
        1..=6 => spoil_record(random, &mut journal),
        _ => (),
    }
    let room = RECORD * random.under(5) + odd_bytes(random);
    journal.extend(random.bytes(room));
    let moves = (0..random.from_to(1, 5))
        .map(|_| match random.under(5) {
            0 => edit(random, &floor, &fields),
            1 | 2 => put_back(any_bench(random)),
            _ => undo(any_bench(random)),
        })
        .collect();
    Play {
        floor,
        journal,
        f: random.pick(&[count, count, count, count, count - 1, count + 1]),
        moves,
    }
}

/// Records of right edits one after the other, laid on the floor; halves are not asked for.
pub(super) fn chain(
    random: &mut Random,
    floor: &mut [u8],
    fields: &[Field],
    benches: &[u8],
) -> Vec<u8> {
    let mut journal = Vec::new();
    for &bench in benches {
        let field = random.pick(fields);
        let record = next_record(random, floor, field, bench);
        lay(floor, field, record.new);
        journal.extend_from_slice(&record.bytes());
    }
    journal
}

/// The record of a right edit of the field as it stands, often to what it is already.
pub(super) fn next_record(random: &mut Random, floor: &[u8], field: Field, bench: u8) -> Record {
    let (tag, place) = field;
    let old = word_of(floor, field).unwrap_or(0);
    let value = right_value(random, floor, field);
    let new = match tag {
        _ if random.once_in(4) => old,
        NUDGE => grid::scaled(old).map_or(old, |now| {
            grid::bits_of((now + i64::from(value as i32)).clamp(-FARTHEST, FARTHEST))
        }),
        _ => value,
    };
    Record {
        tag,
        bench,
        place,
        old,
        new,
    }
}

/// Any records, with the floor's bytes made to agree with the latest of one bench and some others.
fn any_records(random: &mut Random, floor: &mut [u8], fields: &[Field], benches: &[u8]) -> Vec<u8> {
    let records: Vec<Record> = benches
        .iter()
        .map(|&bench| any_record(random, floor, fields, bench))
        .collect();
    let undone = random.under(2) as u8;
    let latest = records.iter().rposition(|record| record.bench == undone);
    for (number, record) in records.iter().enumerate() {
        if latest == Some(number) || random.once_in(2) {
            lay(floor, (record.tag, record.place), record.new);
        }
    }
    records.iter().flat_map(Record::bytes).collect()
}

fn any_record(random: &mut Random, floor: &[u8], fields: &[Field], bench: u8) -> Record {
    let (tag, place) = match random.under(8) {
        0 => (random.pick(&[0, 4, 255]), random.under(12) as u32),
        1 | 2 => any_field(random, floor),
        _ => random.pick(fields),
    };
    let [old, new] = match tag == PAINT && random.once_in(4) {
        true => random.pick(&[[7, 23], [23, 7], [24, 0], [0, 0xFFFF_FFFF], [23, 23]]),
        false => [any_word(random, tag), any_word(random, tag)],
    };
    Record {
        tag,
        bench,
        place,
        old,
        new,
    }
}

/// Changes one record of a journal: its tag, length, bench, place, or its old or new bytes.
fn spoil_record(random: &mut Random, journal: &mut [u8]) {
    let number = random.under(journal.len() / RECORD);
    let record = &mut journal[number * RECORD..][..RECORD];
    match random.under(6) {
        0 => record[0] = random.pick(&[0, PAINT, LINK, NUDGE, 4, 255]),
        1 => record[1] = random.pick(&[NO_BENCH_LENGTH, 14, 0, 15, 16]),
        2 => record[2] = random.pick(&[1, 128, 13]),
        3 => record[BENCH_AT] = bench_byte(random),
        _ => record[BENCH_AT + 1 + random.under(12)] ^= random.pick(&[1, 2, 128]),
    }
}

/// A journal of 4,096 records or nearly so, each of which leaves its field as it is. Both benches have
/// fields of their own, or all records are of one field.
pub(super) fn full(random: &mut Random) -> Play {
    let floor = floor_with_faces(random);
    let fields = random.pick(&[[(PAINT, 0), (LINK, 0)], [(PAINT, 0), (PAINT, 0)]]);
    let count = random.pick(&[0, 1, 2, 3]) + MOST_RECORDS as usize - 1;
    let mut journal = Vec::new();
    for bench in bench_bytes(random, count) {
        let (tag, place) = fields[usize::from(bench) % 2];
        let word = word_of(&floor, (tag, place)).unwrap_or(0);
        let record = Record {
            tag,
            bench,
            place,
            old: word,
            new: word,
        };
        journal.extend_from_slice(&record.bytes());
    }
    let rest = odd_bytes(random);
    journal.extend(random.bytes(rest));
    Play {
        journal,
        f: MOST_RECORDS - 2 + random.under(4) as u32,
        moves: (0..8)
            .map(|_| near_the_end(random, &floor, &fields))
            .collect(),
        floor,
    }
}

fn floor_with_faces(random: &mut Random) -> Vec<u8> {
    loop {
        let wish = any_wish(random);
        let model = floors::floor(random, wish);
        if !model.faces.is_empty() {
            return model.bytes(random);
        }
    }
}

fn near_the_end(random: &mut Random, floor: &[u8], fields: &[Field]) -> Move {
    match random.under(12) {
        0..=6 => edit(random, floor, fields),
        7..=9 => undo(any_bench(random)),
        10 => Move::SpoilJournal {
            at: RECORD * 4_000 + random.under(RECORD),
            by: 1,
        },
        _ => put_back(any_bench(random)),
    }
}
