//! Two benches on one floor: what undos and put-backs leave, runs of every kind, and each sentence about
//! them noticed where it is broken, even if both sides break it alike and so do not differ.

mod common;

use common::*;
use reference::answer::Session;
use reference::benches::*;
use reference::calls::{Calls, TakeOut, REFERENCE};
use reference::compare::{compare, Side};
use reference::fault::Fault;
use reference::floor::tables::Tables;
use reference::journal::{
    fitting, held, link, nudge, paint, put_back, undo, BENCH_AT, LAST_BENCH, RECORD,
};

/// A floor and a journal that both benches use, from the two faces of W5.
struct Table {
    floor: Vec<u8>,
    journal: Vec<u8>,
    f: u32,
}

impl Table {
    fn new(records: usize) -> Table {
        Table {
            floor: square().in_order(),
            journal: vec![0xEE; records * RECORD],
            f: 0,
        }
    }

    /// Makes a call; the next one goes on with its f.
    fn call(&mut self, call: impl FnOnce(&mut [u8], &mut [u8], u32) -> Session) -> (u32, u32) {
        let answer = call(&mut self.floor, &mut self.journal, self.f);
        self.f = answer.f;
        (answer.number, answer.f)
    }

    fn paint(&mut self, bench: u32, face: u32, material: u32) -> (u32, u32) {
        self.call(|floor, journal, f| paint(floor, journal, f, bench, face, material))
    }

    fn undo(&mut self, bench: u32) -> (u32, u32) {
        self.call(|floor, journal, f| undo(floor, journal, f, bench))
    }

    fn put_back(&mut self, bench: u32) -> (u32, u32) {
        self.call(|floor, journal, f| put_back(floor, journal, f, bench))
    }

    /// Record `number` as it stands.
    fn record(&self, number: usize) -> &[u8] {
        &self.journal[number * RECORD..][..RECORD]
    }
}

#[test]
fn an_undo_moves_later_records_down_and_bytes_past_them_stay() {
    let mut table = Table::new(8);
    table.paint(0, 0, 5);
    table.call(|floor, journal, f| link(floor, journal, f, 1, 2, 9));
    table.call(|floor, journal, f| nudge(floor, journal, f, 1, 4, 7));
    let before = table.journal.clone();
    assert_eq!(table.undo(0), (0, 2));
    assert_eq!(table.journal[..2 * RECORD], before[RECORD..3 * RECORD]);
    assert_eq!(table.journal[2 * RECORD..], before[2 * RECORD..]); // the last one's old bytes too
    assert_eq!(table.paint(0, 1, 6), (0, 3)); // its room is used again
    assert_eq!(table.record(2)[BENCH_AT], 0);
    assert_eq!(table.journal[3 * RECORD..], before[3 * RECORD..]);
}

#[test]
fn a_put_back_of_one_bench_leaves_the_other_ones_records_in_their_order() {
    let mut table = Table::new(12);
    for (bench, face, material) in [(0, 0, 5), (1, 1, 6), (0, 0, 9), (1, 1, 3), (0, 0, 1)] {
        table.paint(bench, face, material);
    }
    let kept = [table.record(1), table.record(3)].concat();
    assert_eq!(table.put_back(0), (0, 2));
    assert_eq!(table.journal[..2 * RECORD], kept);
    assert_eq!(table.put_back(0), (0, 2)); // nothing of its own is left
    assert_eq!(table.put_back(1), (0, 0));
    assert_eq!(table.floor, square().in_order());
}

#[test]
fn benches_that_stand_in_each_others_way_put_back_by_turns() {
    let mut table = Table::new(12);
    for (bench, face, material) in [(0, 0, 5), (1, 0, 6), (0, 0, 9), (1, 1, 3), (0, 1, 1)] {
        table.paint(bench, face, material);
    }
    assert_eq!(table.undo(1), (43, 5));
    assert_eq!(table.put_back(1), (43, 5)); // its latest is under the last of all
    let stopped = table.call(|floor, journal, f| {
        let answer = put_back(floor, journal, f, 0);
        assert_eq!(answer, session(43, 3, 3)); // the place is f as answered
        answer
    });
    assert_eq!(stopped, (43, 3)); // its first is under bench 1's first
    assert_eq!(table.put_back(1), (0, 1));
    assert_eq!(table.put_back(0), (0, 0));
    assert_eq!(table.floor, square().in_order());
}

#[test]
fn runs_of_every_kind_occur() {
    let nothing_wrong = |number, found| panic!("case {number}: {found:?}");
    let tally = compare(10_000, 7, [&HONEST, &HONEST], |_| (), nothing_wrong);
    let counts = tally.benches;
    assert!(counts.runs >= 1_000, "{counts:?}");
    for count in [
        counts.both_put_back,
        counts.moved,
        counts.stopped_at_43,
        counts.stopped_at_27,
        counts.at_half[0],
        counts.at_half[1],
        counts.no_record_left,
    ] {
        assert!(count >= 20, "{counts:?}");
    }
    for (number, call) in [
        (43, "undo"),
        (43, "put_back"),
        (27, "undo"),
        (27, "put_back"),
        (45, "paint"),
        (45, "link"),
        (45, "nudge"),
        (45, "undo"),
        (45, "put_back"),
    ] {
        let count = tally.answered_by(number, call);
        assert!(count >= 50, "{number} by {call}: {count}");
    }
}

/// How many cases show each broken sentence.
const CASES: u64 = 4_000;

#[test]
fn planted_faults_break_sentences() {
    for (fault, sentences) in [
        (Fault::RecordOnly, &[LAID_ON][..]),
        (Fault::WidePaint, &[LAID_ON, ACCEPTED]),
        (Fault::UndoSubtracts, &[LAID_ON, OPENING_FLOOR]),
        (Fault::OtherBenchTakenOut, &[PLAIN_LIST]),
        (Fault::LatestOfAll, &[PLAIN_LIST, LAID_ON]),
        (Fault::BlockedNotAsked, &[NEVER, LAID_ON]),
        (Fault::HalfByF, &[BELOW_HALF]),
        (Fault::HoleLeft, &[PLAIN_LIST]),
        (Fault::OneByteOff, &[PLAIN_LIST]),
        (Fault::PutBackClearsF, &[PLAIN_LIST]),
        (Fault::StoppedPutBack, &[PLAIN_LIST, ONE_CAN_UNDO]),
        (Fault::BenchTwo, &[BELOW_HALF]),
    ] {
        let found = broken_by_both(CASES, REFERENCE, Some(fault));
        are_noticed(&found, sentences);
    }
}

#[test]
fn a_bench_that_any_record_of_the_other_hinders_is_noticed() {
    let calls = Calls {
        undo: |floor, journal, f, bench| {
            let holds = |bench: u32| f <= fitting(journal.len()) && held(journal, f, bench) > 0;
            match bench <= LAST_BENCH && holds(0) && holds(1) {
                true => session(43, f, f),
                false => undo(floor, journal, f, bench),
            }
        },
        ..REFERENCE
    };
    are_noticed(&broken_by_both(CASES, calls, None), &[ONE_CAN_UNDO]);
}

#[test]
fn a_put_back_that_takes_out_one_record_alone_is_noticed() {
    let calls = Calls {
        put_back: |floor, journal, f, bench| match undo(floor, journal, f, bench) {
            Session { number: 26, .. } => session(0, 0, f),
            answer => answer,
        },
        ..REFERENCE
    };
    are_noticed(&broken_by_both(CASES, calls, None), &[OWN_GONE]);
}

/// Whether the floor breaks none of the rules 1 to 6, which come before all that is asked of a session.
fn opens(floor: &[u8]) -> bool {
    Tables::open(floor).is_ok()
}

/// The length that every record states.
const LENGTH: [u8; 2] = [13, 0];

/// The bench's latest record, of which there is one.
fn own_latest(journal: &[u8], f: u32, bench: u32) -> &[u8] {
    let records = journal[..f as usize * RECORD].chunks(RECORD);
    let own = |record: &&[u8]| u32::from(record[BENCH_AT]) == bench;
    records.rev().find(own).expect("a record of the bench")
}

/// How many cases differ between calls that ask in another order and those that do not.
fn differences(calls: Calls) -> u64 {
    let side = Side { calls, fault: None };
    compare(10_000, 1, [&side, &HONEST], |_| (), |_, _| ()).different
}

/// An undo that asks 45 before 28.
fn bench_before_f(floor: &mut [u8], journal: &mut [u8], f: u32, bench: u32) -> Session {
    match opens(floor) && bench > LAST_BENCH {
        true => session(45, f, f),
        false => undo(floor, journal, f, bench),
    }
}

/// An undo that asks 45 after 26.
fn bench_after_26(floor: &mut [u8], journal: &mut [u8], f: u32, bench: u32) -> Session {
    match undo(floor, journal, f, bench) {
        Session { number: 45, .. } => session(26, f, f),
        answer => answer,
    }
}

/// An undo that asks 27 of a record's length before 43.
fn length_before_43(floor: &mut [u8], journal: &mut [u8], f: u32, bench: u32) -> Session {
    let answer = undo(floor, journal, f, bench);
    match answer.number {
        43 if own_latest(journal, f, bench)[1..BENCH_AT] != LENGTH => session(27, f, f),
        _ => answer,
    }
}

#[test]
fn other_orders_of_an_undos_refusals_are_noticed() {
    for (name, undo) in [
        ("45 before 28", bench_before_f as TakeOut),
        ("45 after 26", bench_after_26),
        ("27 by the length before 43", length_before_43),
    ] {
        let different = differences(Calls { undo, ..REFERENCE });
        assert!(different >= 5, "{name}: {different}");
    }
}

#[test]
fn other_orders_of_an_edits_refusals_are_noticed() {
    let bench_after_place = Calls {
        nudge: |floor, journal, f, bench, place, step| match nudge(
            floor,
            journal,
            f,
            bench,
            place,
            step as i32,
        ) {
            Session { number: 45, .. } if place > 11 => session(21, place, f),
            answer => answer,
        },
        ..REFERENCE
    };
    let room_before_place = Calls {
        nudge: |floor, journal, f, bench, place, step| {
            let answer = nudge(floor, journal, f, bench, place, step as i32);
            let fit = fitting(journal.len());
            match answer.number {
                21 | 24 if f == fit || held(journal, f, bench) >= fit / 2 => session(25, place, f),
                _ => answer,
            }
        },
        ..REFERENCE
    };
    for (name, calls) in [
        ("45 after 21", bench_after_place),
        ("25 before 21 and 24", room_before_place),
    ] {
        let different = differences(calls);
        assert!(different >= 5, "{name}: {different}");
    }
}
