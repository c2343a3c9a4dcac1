//! Edits and their order: pairs of every kind occur, and each sentence is noticed where it is broken,
//! even if both sides break it alike and so do not differ.

mod common;

use common::*;
use reference::benches;
use reference::calls::{Calls, REFERENCE};
use reference::compare::{compare, run, Done, Side};
use reference::fault::Fault;
use reference::generate::cases::Case;
use reference::generate::edit_pairs::{pair, Pair};
use reference::generate::random::Random;
use reference::generate::sessions::Edit;
use reference::journal::{
    self, fitting, held, LARGEST_STEP, LINK, MOST_RECORDS, NUDGE, PAINT, RECORD,
};
use reference::order::*;
use reference::words::word_at;

#[test]
fn pairs_of_every_kind_are_accepted() {
    let nothing_wrong = |number, found| panic!("case {number}: {found:?}");
    let tally = compare(10_000, 7, [&HONEST, &HONEST], |_| (), nothing_wrong);
    let counts = tally.pairs;
    for count in [
        counts.different_fields,
        counts.two_paints,
        counts.two_links,
        counts.two_nudges,
        counts.in_one_order,
        counts.no_step,
        counts.at_zero,
        counts.by_two_benches,
    ] {
        assert!(count >= 20, "{counts:?}");
    }
    let accepted =
        counts.different_fields + counts.two_paints + counts.two_links + counts.two_nudges;
    assert!(accepted - counts.by_two_benches >= 100, "{counts:?}");
}

#[test]
fn starts_of_every_kind_occur() {
    let mut random = Random::new(8);
    let pairs: Vec<Pair> = (0..2_000).map(|_| pair(&mut random)).collect();
    let room = |pair: &Pair| pair.journal.len() / RECORD - pair.f as usize;
    let holds = |pair: &Pair| held(&pair.journal, pair.f, pair.edits[0].bench);
    let half = |pair: &Pair| fitting(pair.journal.len()) / 2;
    let occurs = |kind: &dyn Fn(&Pair) -> bool| {
        let count = pairs.iter().filter(|pair| kind(pair)).count();
        assert!(count >= 20, "{count}");
    };
    occurs(&|pair| room(pair) == 0);
    occurs(&|pair| room(pair) == 1);
    occurs(&|pair| pair.f == MOST_RECORDS - 2 && pair.has_room_for_both());
    occurs(&|pair| pair.f == MOST_RECORDS - 1 && room(pair) >= 2);
    occurs(&|pair| pair.is_by_one_bench() && holds(pair) + 1 == half(pair) && room(pair) >= 2);
    occurs(&|pair| !pair.is_by_one_bench() && holds(pair) + 1 == half(pair) && room(pair) >= 2);
    occurs(&|pair| pair.f > 0 && holds(pair) > 0 && pair.has_room_for_both());
    for by_one_bench in [true, false] {
        let roomy =
            |pair: &&Pair| pair.is_by_one_bench() == by_one_bench && pair.has_room_for_both();
        let roomy = pairs.iter().filter(roomy).count();
        assert!(roomy > 300, "{roomy}");
    }
}

/// What is found wrong in many cases if both sides are this one.
fn found_of_both(side: &Side) -> Vec<String> {
    let mut all = Vec::new();
    compare(
        10_000,
        3,
        [side, side],
        |_| (),
        |_, found| all.extend(found),
    );
    all
}

/// Two sides that are alike do not differ, so nothing but sentences is found: of those about pairs
/// exactly these.
fn breaks_exactly(side: &Side, sentences: &[&str]) {
    let found = found_of_both(side);
    for words in &found {
        assert!(words.starts_with("reference breaks: "), "{words}");
        let says = |sentence: &&str| words.contains(*sentence);
        let about_runs = benches::SENTENCES.iter().any(says);
        assert!(about_runs || sentences.iter().any(says), "{words}");
    }
    for sentence in sentences {
        assert!(
            found.iter().any(|words| words.contains(sentence)),
            "{sentence} was not noticed"
        );
    }
}

#[test]
fn planted_faults_break_sentences() {
    let all_but_no_step = [
        EITHER_ORDER,
        LATER_ALONE,
        BY_THE_SUM,
        LATER_DECIDES, // where f is not 0, neither order writes anything
        NUDGES_EITHER_ORDER,
    ];
    for (fault, sentences) in [
        (Fault::MinusZero, &[BY_THE_SUM][..]),
        (Fault::RecordOnly, &all_but_no_step),
        (Fault::WidePaint, &[EITHER_ORDER]),
    ] {
        let planted = Side {
            calls: REFERENCE,
            fault: Some(fault),
        };
        breaks_exactly(&planted, sentences);
    }
}

/// This implementation with one edit made wrong.
fn with(calls: Calls) -> Side {
    Side { calls, fault: None }
}

#[test]
fn a_step_cut_to_the_largest_is_noticed() {
    let side = with(Calls {
        nudge: |floor, journal, f, bench, place, step| {
            let cut = i64::from(step as i32).clamp(-LARGEST_STEP, LARGEST_STEP);
            journal::nudge(floor, journal, f, bench, place, cut as i32)
        },
        ..REFERENCE
    });
    breaks_exactly(&side, &[NO_STEP, BY_THE_SUM]);
}

#[test]
fn links_that_all_lead_to_one_room_are_noticed() {
    let side = with(Calls {
        link: |floor, journal, f, bench, entry, _| {
            journal::link(floor, journal, f, bench, entry, 0)
        },
        ..REFERENCE
    });
    breaks_exactly(&side, &[LATER_DECIDES]);
}

/// What is done with these two edits on the two faces of W5, with float 0 as given and an empty
/// journal with room for both, whichever benches make them.
fn done(float: u32, edits: [Edit; 2]) -> Vec<Done> {
    let mut model = square();
    model.floats[0] = float;
    let pair = Pair {
        floor: model.in_order(),
        journal: vec![0xEE; 4 * RECORD],
        f: 0,
        edits,
    };
    let all = run(&Case::Pair(pair.clone()), &HONEST);
    assert_eq!(broken(&pair, &all), Vec::<String>::new());
    all
}

/// The numbers that all calls answered.
fn numbers(all: &[Done]) -> Vec<u64> {
    all.iter().map(Done::number).collect()
}

/// One edit by bench 0, written short.
fn edit(tag: u8, place: u32, to: u32) -> Edit {
    Edit {
        bench: 0,
        tag,
        place,
        to,
    }
}

/// The same edit by bench 1.
fn by_bench_1(edit: Edit) -> Edit {
    Edit { bench: 1, ..edit }
}

#[test]
fn a_pair_is_played_in_both_orders_from_the_same_start() {
    let (one, other) = (edit(PAINT, 0, 5), edit(LINK, 0, 9));
    let all = done(0, [one, other]);
    let calls: Vec<&str> = all.iter().map(|done| done.call.name()).collect();
    assert_eq!(calls, ["paint", "link", "link", "paint"]);
    let kept: Vec<u32> = all.iter().map(Done::f).collect();
    assert_eq!(kept, [1, 2, 1, 2]);
    assert_eq!(all[1].memory[0], all[3].memory[0]);
    assert_ne!(all[1].memory[1], all[3].memory[1]); // the journal tells the order
    for other in [edit(PAINT, 1, 6), by_bench_1(edit(PAINT, 1, 6))] {
        let all = done(0, [edit(PAINT, 1, 5), other]);
        assert_eq!(all[1].memory[0], all[2].memory[0]);
        assert_eq!(all[3].memory[0], all[0].memory[0]);
    }
}

#[test]
fn two_nudges_of_minus_zero_there_and_back_leave_plus_zero_as_their_sum_does() {
    let minus_five = -5_i32 as u32;
    let back = edit(NUDGE, 0, minus_five);
    for back in [back, by_bench_1(back)] {
        let all = done(0x8000_0000, [edit(NUDGE, 0, 5), back]);
        assert_eq!(numbers(&all), [0; 5]);
        for last in [1, 3, 4] {
            assert_eq!(word_at(all[last].floor(), 12), 0);
        }
    }
}

#[test]
fn a_sum_beyond_the_largest_step_is_refused_though_both_steps_are_not() {
    let all = done(0, [edit(NUDGE, 0, 640), edit(NUDGE, 0, 1)]);
    assert_eq!(numbers(&all), [0, 0, 0, 0, 24]);
    let all = done(0, [edit(NUDGE, 0, i32::MAX as u32), edit(NUDGE, 0, 1)]);
    assert_eq!(numbers(&all), [24, 0, 0, 24]); // 32 bits do not hold the sum
}

#[test]
fn at_the_end_of_the_grid_one_order_alone_may_be_accepted() {
    let end = 1024.0_f32.to_bits();
    let minus_two = -2_i32 as u32;
    let all = done(end, [edit(NUDGE, 0, 1), edit(NUDGE, 0, minus_two)]);
    assert_eq!(numbers(&all), [24, 0, 0, 0, 0]);
}
