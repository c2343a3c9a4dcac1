//! Every refusal of the journal calls, with its place, its turn among the others and the bytes that
//! stay, and what calls leave that are not refused.

mod common;

use common::*;
use reference::answer::Session;
use reference::generate::model::Model;
use reference::journal::{
    link, nudge, paint, put_back, undo, Record, LINK, MOST_RECORDS, NUDGE, PAINT, RECORD,
};
use reference::words::{put_word, word_at};

/// A record by bench 0, written short.
fn record(tag: u8, place: u32, old: u32, new: u32) -> Record {
    Record {
        tag,
        bench: 0,
        place,
        old,
        new,
    }
}

/// The same record by another bench.
fn by(bench: u8, record: Record) -> Record {
    Record { bench, ..record }
}

/// The bytes of these records.
fn journal(records: &[Record]) -> Vec<u8> {
    records.iter().flat_map(Record::bytes).collect()
}

/// What a call answers that is to leave the floor and the journal as they are.
fn refused(
    floor: &mut [u8],
    journal: &mut [u8],
    call: impl FnOnce(&mut [u8], &mut [u8]) -> Session,
) -> Session {
    let before = (floor.to_vec(), journal.to_vec());
    let answer = call(floor, journal);
    assert_ne!(answer.number, 0);
    assert_eq!((floor.to_vec(), journal.to_vec()), before);
    answer
}

#[test]
fn refusals_1_to_6_keep_the_readers_places_and_come_first() {
    let mut journal = [0; 32];
    let mut floor = square().in_order();
    assert_eq!(
        paint(&mut floor[..135], &mut journal, 5, 9, 0, 0),
        session(1, 0, 5)
    );
    put_word(&mut floor, 8, 0);
    assert_eq!(undo(&mut floor, &mut journal, 5, 9), session(3, 8, 5));
    put_word(&mut floor, 8, 1);
    put_word(&mut floor, 120, 12_289);
    assert_eq!(put_back(&mut floor, &mut journal, 5, 9), session(4, 120, 5));
}

#[test]
fn refusal_21_place_outside_its_table() {
    let mut floor = square().in_order();
    let mut journal = [0; 31]; // 25 comes later
    assert_eq!(
        paint(&mut floor, &mut journal, 0, 0, 2, 99),
        session(21, 2, 0)
    );
    assert_eq!(
        link(&mut floor, &mut journal, 1, 1, 4, 99),
        session(21, 4, 1)
    );
    assert_eq!(
        nudge(&mut floor, &mut journal, 0, 1, 12, 999),
        session(21, 12, 0)
    );
    assert_eq!(
        nudge(&mut floor, &mut journal, 0, 0, NONE, 1),
        session(21, NONE, 0)
    );
}

#[test]
fn refusal_22_materials() {
    let mut model = square();
    model.materials[1] = 23;
    let mut floor = model.in_order();
    let mut journal = [0; 31];
    for (face, material) in [(0, 23), (0, 0), (1, 0)] {
        let answer = paint(&mut floor, &mut journal, 0, 0, face, material);
        assert_eq!(answer, session(22, face, 0)); // the old one of face 1 is over 22
    }
}

#[test]
fn refusal_23_transitions() {
    let mut model = square();
    model.edges[3][1] = 99; // the old transition is not looked at
    let mut floor = model.in_order();
    let mut journal = [0; 32];
    for transition in [-2, 64, i32::MIN, i32::MAX] {
        assert_eq!(
            link(&mut floor, &mut journal[..31], 0, 0, 3, transition),
            session(23, 3, 0)
        );
    }
    assert_eq!(
        link(&mut floor, &mut journal, 0, 0, 3, 63),
        session(0, 0, 1)
    );
    assert_eq!(undo(&mut floor, &mut journal, 1, 0), session(27, 1, 1)); // 99 may not be written
}

#[test]
fn refusal_24_nudges() {
    let mut model = Model::default();
    model.floats[0] = 1024.0_f32.to_bits();
    model.floats[1] = 0.01_f32.to_bits();
    model.floats[2] = f32::INFINITY.to_bits();
    let mut floor = model.in_order();
    let mut journal = [0; 32];
    for (place, step) in [(0, 1), (1, 0), (2, 0), (3, 641), (3, -641), (3, i32::MIN)] {
        let answer = nudge(&mut floor, &mut journal[..31], 0, 0, place, step);
        assert_eq!(answer, session(24, place, 0));
    }
    assert_eq!(
        nudge(&mut floor, &mut journal, 0, 0, 0, 0),
        session(0, 0, 1)
    );
    assert_eq!(
        nudge(&mut floor, &mut journal, 0, 1, 3, -640),
        session(0, 0, 1)
    );
}

#[test]
fn refusal_25_a_bench_holds_its_half_and_the_other_one_does_not_lower_it() {
    for (length, half) in [(16, 0), (32, 1), (63, 1), (64, 2), (95, 2), (96, 3)] {
        for busy in [0, 1] {
            let mut floor = square().in_order();
            let mut journal = vec![0; length];
            for f in 0..half {
                let answer = paint(&mut floor, &mut journal, f, busy, 1, 5);
                assert_eq!(answer, session(0, 0, f + 1));
            }
            let full = refused(&mut floor, &mut journal, |floor, journal| {
                paint(floor, journal, half, busy, 1, 5)
            });
            assert_eq!(full, session(25, 1, half));
            for f in half..2 * half {
                let answer = paint(&mut floor, &mut journal, f, 1 - busy, 1, 6);
                assert_eq!(answer, session(0, 0, f + 1));
            }
            let full = paint(&mut floor, &mut journal, 2 * half, 1 - busy, 1, 5);
            assert_eq!(full, session(25, 1, 2 * half));
        }
    }
}

#[test]
fn refusal_25_counts_bench_bytes_whatever_else_a_record_says() {
    let mut floor = square().in_order();
    let wrong = record(9, NONE, 1, 2);
    let spoilt = |benches: [u8; 3]| {
        let mut bytes = journal(&benches.map(|bench| by(bench, wrong)));
        bytes[1] = 12; // the length of record 0
        bytes.extend([0; RECORD]);
        bytes
    };
    for (benches, answer) in [
        ([0, 0, 1], session(25, 1, 3)),  // its half
        ([0, 0, 0], session(25, 1, 3)),  // more than its half
        ([0, 2, 255], session(0, 0, 4)), // two are nobody's
        ([1, 1, 1], session(0, 0, 4)),   // the other bench has more than its half
        ([2, 2, 255], session(0, 0, 4)), // all are nobody's
    ] {
        let mut journal = spoilt(benches);
        assert_eq!(paint(&mut floor, &mut journal, 3, 0, 1, 5), answer);
    }
    let mut full = spoilt([1, 2, 255]);
    full.truncate(3 * RECORD);
    assert_eq!(paint(&mut floor, &mut full, 3, 0, 1, 5), session(25, 1, 3)); // f is R
    assert_eq!(paint(&mut floor, &mut full, 2, 0, 1, 5), session(0, 0, 3));
}

#[test]
fn refusal_25_at_4_096_records_however_long_the_journal() {
    let mut floor = square().in_order();
    let nobody = by(2, record(PAINT, 0, 4, 4));
    let mut long = journal(&vec![nobody; 5_000]);
    assert_eq!(
        paint(&mut floor, &mut long, 4_096, 1, 1, 5),
        session(25, 1, 4_096)
    );
    assert_eq!(
        paint(&mut floor, &mut long, 4_095, 1, 1, 5),
        session(0, 0, 4_096)
    );
    let mut half = journal(&vec![by(1, nobody); 5_000]);
    assert_eq!(
        paint(&mut floor, &mut half, 2_048, 1, 1, 5),
        session(25, 1, 2_048)
    );
    assert_eq!(
        paint(&mut floor, &mut half, 2_047, 1, 1, 5),
        session(0, 0, 2_048)
    );
}

#[test]
fn refusal_26_the_bench_has_nothing_to_undo() {
    let mut floor = square().in_order();
    let mine = by(1, record(PAINT, 0, 4, 4));
    let mut three = journal(&[mine, by(2, mine), by(255, mine)]);
    for f in [0, 1, 3] {
        let answer = refused(&mut floor, &mut three, |floor, journal| {
            undo(floor, journal, f, 0)
        });
        assert_eq!(answer, session(26, f, f));
    }
    assert_eq!(undo(&mut floor, &mut three, 0, 1), session(26, 0, 0)); // its record is not among the first 0
    assert_eq!(undo(&mut floor, &mut three, 3, 1), session(0, 0, 2));
}

/// What undo answers for one record, with the floor's bytes made to be the record's new ones.
fn undone(record: Record, damage: Option<usize>) -> Session {
    let mut floor = square().in_order();
    let at = match record.tag {
        PAINT => word_at(&floor, 88) as usize + 4 * record.place as usize,
        LINK => word_at(&floor, 124) as usize + 8 * record.place as usize + 4,
        _ => 12 + 4 * record.place as usize,
    };
    put_word(&mut floor, at, record.new);
    let mut journal = record.bytes();
    if let Some(byte) = damage {
        journal[byte] ^= 0x80;
    }
    let before = (floor.clone(), journal);
    let answer = undo(&mut floor, &mut journal, 1, 0);
    assert_eq!(journal, before.1); // nothing moves, and the record's bytes stay
    if answer.number == 0 {
        assert_eq!(word_at(&floor, at), record.old);
    } else {
        assert_eq!(floor, before.0);
    }
    answer
}

#[test]
fn refusal_27_records_that_may_not_be_undone() {
    let right = record(PAINT, 1, 5, 4);
    assert_eq!(undone(right, None), session(0, 0, 0));
    for byte in [0, 1, 2, 4, 7, 12, 13, 14, 15] {
        assert_eq!(undone(right, Some(byte)), session(27, 1, 1), "byte {byte}");
    }
    assert_eq!(undone(right, Some(3)), session(26, 1, 1)); // the bench is another's
    for wrong in [
        record(0, 0, 5, 4),
        record(4, 0, 5, 4),
        record(PAINT, 0, 7, 4),
        record(PAINT, 0, 23, 4),
        record(PAINT, 0, 7, 23),
        record(LINK, 0, 64, 1),
        record(LINK, 0, NONE - 1, 1),
        record(NUDGE, 0, 0x7F80_0000, 0),
        record(NUDGE, 0, 0.01_f32.to_bits(), 0),
        record(NUDGE, 0, 1_024.015_6_f32.to_bits(), 0),
    ] {
        assert_eq!(undone(wrong, None), session(27, 1, 1), "{wrong:?}");
    }
    for unusual in [
        record(LINK, 3, NONE, 77), // the bytes now there are not judged
        record(NUDGE, 11, 1024.0_f32.to_bits(), NONE), // nor is the length of the step
        record(NUDGE, 0, 0x8000_0000, 1.0_f32.to_bits()), // -0 is on the grid
    ] {
        assert_eq!(undone(unusual, None), session(0, 0, 0), "{unusual:?}");
    }
}

#[test]
fn refusal_28_more_records_than_fit() {
    let mut floor = square().in_order();
    let mut long = vec![0; RECORD * 4_097 + 15];
    for (length, f) in [
        (long.len(), MOST_RECORDS + 1),
        (long.len(), NONE),
        (31, 2),
        (15, 1),
        (0, 1),
    ] {
        let journal = &mut long[..length];
        for bench in [0, 1, 2] {
            assert_eq!(
                paint(&mut floor, journal, f, bench, 7, 5),
                session(28, 7, f)
            );
            assert_eq!(undo(&mut floor, journal, f, bench), session(28, f, f));
            assert_eq!(put_back(&mut floor, journal, f, bench), session(28, f, f));
        }
    }
}

#[test]
fn refusal_45_a_bench_over_1_has_place_f() {
    let mut floor = square().in_order();
    let mut two = journal(&[by(2, record(PAINT, 0, 4, 4)); 2]);
    for bench in [2, 3, 255, 256, NONE] {
        for f in [0, 1, 2] {
            assert_eq!(
                paint(&mut floor, &mut two, f, bench, 7, 99), // 21 comes later
                session(45, f, f)
            );
            assert_eq!(
                link(&mut floor, &mut two, f, bench, 0, 99),
                session(45, f, f)
            );
            assert_eq!(
                nudge(&mut floor, &mut two, f, bench, 0, 1), // so does 25
                session(45, f, f)
            );
            assert_eq!(undo(&mut floor, &mut two, f, bench), session(45, f, f));
            assert_eq!(put_back(&mut floor, &mut two, f, bench), session(45, f, f));
        }
    }
}

#[test]
fn refusal_43_a_later_record_of_the_other_bench_has_the_same_field() {
    let mine = record(PAINT, 1, 4, 4);
    let over = by(1, record(PAINT, 1, 4, 4));
    for (later, number) in [
        (over, 43),
        (record(PAINT, 1, 4, 4), 0), // the bench's own: that one is undone
        (by(2, over), 0),            // nobody's
        (by(1, record(PAINT, 0, 4, 4)), 0), // another place
        (by(1, record(LINK, 1, NONE, NONE)), 0), // another tag
        (by(1, record(PAINT, 1, 999, 7)), 43), // one that could not be undone
    ] {
        let mut floor = square().in_order();
        let mut two = journal(&[mine, later]);
        let answer = undo(&mut floor, &mut two, 2, 0);
        assert_eq!(answer.number, number, "{later:?}");
        if number == 43 {
            assert_eq!(answer, session(43, 2, 2));
            assert_eq!(two, journal(&[mine, later]));
            assert_eq!(undo(&mut floor, &mut two, 1, 0), session(0, 0, 0)); // f says what is later
        }
    }
}

#[test]
fn refusal_43_comes_before_27_and_does_not_go_on_to_an_earlier_record() {
    let blocked = record(9, NONE, 1, 2);
    let mut three = journal(&[record(PAINT, 0, 4, 4), blocked, by(1, blocked)]);
    three[RECORD + 1] = 12;
    three[2 * RECORD + 1] = 12;
    let mut floor = square().in_order();
    let answer = refused(&mut floor, &mut three, |floor, journal| {
        undo(floor, journal, 3, 0)
    });
    assert_eq!(answer, session(43, 3, 3));
    let answer = refused(&mut floor, &mut three, |floor, journal| {
        put_back(floor, journal, 3, 0)
    });
    assert_eq!(answer, session(43, 3, 3));
    let answer = refused(&mut floor, &mut three, |floor, journal| {
        undo(floor, journal, 2, 0)
    });
    assert_eq!(answer, session(27, 2, 2));
}

#[test]
fn a_nudge_writes_positive_zero_and_its_undo_brings_minus_zero_back() {
    let mut model = Model::default();
    model.floats[0] = 0x8000_0000;
    let mut floor = model.in_order();
    let mut journal = [0; 64];
    assert_eq!(
        nudge(&mut floor, &mut journal, 0, 1, 0, 0),
        session(0, 0, 1)
    );
    assert_eq!(word_at(&floor, 12), 0);
    assert_eq!(word_at(&journal, 8), 0x8000_0000);
    assert_eq!(
        nudge(&mut floor, &mut journal, 1, 1, 0, -5),
        session(0, 0, 2)
    );
    assert_eq!(word_at(&floor, 12), (-0.078_125_f32).to_bits());
    assert_eq!(put_back(&mut floor, &mut journal, 2, 1), session(0, 0, 0));
    assert_eq!(word_at(&floor, 12), 0x8000_0000);
}

#[test]
fn a_put_back_stops_at_27_and_keeps_what_was_undone() {
    let mut floor = square().in_order();
    let opening = floor.clone();
    let mut journal = [0; 6 * RECORD];
    paint(&mut floor, &mut journal, 0, 0, 0, 5);
    link(&mut floor, &mut journal, 1, 0, 2, 9);
    let after_two = floor.clone();
    paint(&mut floor, &mut journal, 2, 0, 1, 6);
    journal[RECORD] = 9;
    assert_eq!(put_back(&mut floor, &mut journal, 3, 0), session(27, 2, 2));
    assert_eq!(floor, after_two);
    journal[RECORD] = LINK;
    assert_eq!(put_back(&mut floor, &mut journal, 2, 0), session(0, 0, 0));
    assert_eq!(floor, opening);
    assert_eq!(put_back(&mut floor, &mut journal, 0, 0), session(0, 0, 0)); // never refused 26
}
