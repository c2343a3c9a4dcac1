//! Mended floors in the comparison: seams of every kind, outputs lent at every length, and each sentence about a
//! mending noticed where it is broken, even if both sides break it alike and so do not differ.

mod common;

use common::*;
use reference::answer::Mended;
use reference::calls::{Calls, Mend, REFERENCE};
use reference::compare::{compare, run};
use reference::fault::Fault;
use reference::floor::tables::{Table, Tables, FIELDS};
use reference::floor::WORK;
use reference::form::rewrite;
use reference::generate::cases::{case, Case, TURN};
use reference::generate::random::Random;
use reference::generate::seams::{in_turn, mending, needed, seam, small_seam};
use reference::mend::mend;
use reference::seams::*;
use reference::words::{put_word, word_at};
use std::collections::BTreeSet;

#[test]
fn mendings_of_every_kind_occur() {
    let nothing_wrong = |number, found| panic!("case {number}: {found:?}");
    let tally = compare(10_000, 7, [&HONEST, &HONEST], |_| (), nothing_wrong);
    let counts = tally.seams;
    assert!(counts.mendings >= 1_500, "{counts:?}");
    for count in [
        counts.read_before,
        counts.nothing_listed,
        counts.changed_corners,
        counts.lost_transitions,
        counts.kept_transitions,
        counts.several_loops,
        counts.corners_by_8,
        counts.corners_by_15,
        counts.short_out,
        counts.short_list,
        counts.short_both,
        counts.large,
    ] {
        assert!(count >= 10, "{counts:?}");
    }
    for number in (1..=15).chain([20, 40]) {
        let count = tally.answered_by(number, "mend");
        assert!(count >= 3, "{number} by mend: {count}");
    }
    for number in 16..=19 {
        assert_eq!(tally.answered_by(number, "mend"), 0, "{number} by mend");
    }
}

#[test]
fn seams_have_what_they_are_made_for() {
    let mut random = Random::new(14);
    let (mut zeros, mut unused, mut large) = (0, 0, 0);
    for _ in 0..2_000 {
        let model = seam(&mut random);
        let turned = |bits: &u32| *bits == 0x8000_0000;
        zeros += usize::from(model.vertices.iter().flatten().any(turned));
        let used: BTreeSet<u32> = model.faces.iter().flatten().copied().collect();
        let last = used.last().copied().unwrap_or(0);
        unused += usize::from((0..last).any(|vertex| !used.contains(&vertex)));
        large += usize::from(model.faces.len() >= 500);
        assert!(model.vertices.len() <= 4_096 && model.edges.len() <= 12_288);
    }
    assert!(
        zeros >= 100 && unused >= 100 && large >= 10,
        "{zeros} {unused} {large}"
    );
}

#[test]
fn every_length_of_the_outputs_is_lent_in_turn() {
    let floor = small_seam().in_order();
    let [out, list] = needed(&floor);
    assert!(out > 300 && list > 15);
    let mut lent = [BTreeSet::new(), BTreeSet::new()];
    for number in (TURN - 1..20_000).step_by(TURN as usize) {
        let Case::Mending(mending) = case(1, number) else {
            panic!("case {number} is not in turn");
        };
        assert_eq!(mending.floor, floor);
        lent[0].insert(mending.out.len());
        lent[1].insert(mending.list.len());
    }
    assert!(lent[0].iter().copied().eq(0..=out + 2));
    assert!(lent[1].iter().copied().eq(0..=list + 2));
    let turn = in_turn(&mut Random::new(1), 2 * out + 1);
    assert_eq!((turn.out.len(), turn.list.len()), (out, out % (list + 3)));
}

#[test]
fn lengths_around_what_is_needed_occur_and_so_does_work_memory_around_its_size() {
    let mut random = Random::new(15);
    let mut around = [[0; 4]; 2];
    let mut works = [0; 3];
    for _ in 0..1_500 {
        let mending = mending(&mut random);
        let needed = needed(&mending.floor);
        for (which, lent) in [mending.out.len(), mending.list.len()]
            .into_iter()
            .enumerate()
        {
            let by = lent as i64 - needed[which] as i64;
            if needed[which] > 0 {
                around[which][0] += usize::from(lent == 0);
                around[which][1] += usize::from(by == -1);
                around[which][2] += usize::from(by == 0);
                around[which][3] += usize::from(by == 1);
            }
        }
        works[0] += usize::from(mending.work.len() == WORK - 1);
        works[1] += usize::from(mending.work.len() == WORK);
        works[2] += usize::from(mending.work.len() > WORK);
    }
    assert!(
        around
            .iter()
            .flatten()
            .chain(&works)
            .all(|&count| count >= 5),
        "{around:?} {works:?}"
    );
}

/// How many cases show each broken sentence.
const CASES: u64 = 3_000;

#[test]
fn planted_faults_break_sentences() {
    for (fault, sentences) in [
        (Fault::HighestEqual, &[LOWEST][..]),
        (Fault::EqualByBits, &[LOWEST, ONE_NUMBER]),
        (Fault::LowestUsed, &[LOWEST]),
        (Fault::WalkableAlone, &[LOWEST, ONE_NUMBER]),
        (Fault::PastTheStart, &[LOOPS]),
        (Fault::FirstEntryKept, &[ONE_ENTRY, KEPT_OR_LISTED]),
        (Fault::LossNotListed, &[KEPT_OR_LISTED, LOSSES_LISTED]),
        (Fault::RunsNotAskedAgain, &[ACCEPTED]),
        (Fault::FormBeforeList, &[NEITHER]),
        (Fault::WorkKept, &[WORK_LEFT]),
    ] {
        let found = broken_by_both(CASES, REFERENCE, Some(fault));
        are_noticed(&found, sentences);
    }
}

/// Mends and then spoils the form that was written.
fn spoilt(bytes: &[u8], [work, out, list]: [&mut [u8]; 3], spoil: impl Fn(&mut [u8])) -> Mended {
    let answer = mend(bytes, work, out, list);
    if answer.number == 0 {
        spoil(&mut out[..answer.length as usize]);
    }
    answer
}

/// The byte where a table of a form starts, if it has entries.
fn start(form: &[u8], table: Table) -> Option<usize> {
    let fields = &FIELDS[table as usize];
    (word_at(form, fields.count) > 0).then(|| word_at(form, fields.offset) as usize)
}

/// A mending that turns a byte of a table in what it has written.
fn turns(bytes: &[u8], lent: [&mut [u8]; 3], table: Table) -> Mended {
    spoilt(bytes, lent, |form| {
        if let Some(at) = start(form, table) {
            form[at] ^= 1;
        }
    })
}

#[test]
fn other_wrong_mendings_are_noticed() {
    let normals: Mend = |b, w, o, l| turns(b, [w, o, l], Table::Normals);
    let corners: Mend = |b, w, o, l| turns(b, [w, o, l], Table::Faces);
    let adjacency: Mend = |b, w, o, l| turns(b, [w, o, l], Table::Adjacency);
    let root: Mend = |b, w, o, l| spoilt(b, [w, o, l], |form| put_word(form, 108, 0));
    let one_room_on: Mend = |b, w, o, l| {
        spoilt(b, [w, o, l], |form| {
            let edges = word_at(form, FIELDS[Table::Edges as usize].count) as usize;
            if let Some(at) = start(form, Table::Edges) {
                for at in (0..edges).map(|entry| at + 8 * entry + 4) {
                    let room = word_at(form, at);
                    put_word(form, at, if room < 63 { room + 1 } else { room });
                }
            }
        })
    };
    // the floor as it is, where that is accepted: no seam is mended
    let rewritten: Mend = |b, w, o, l| {
        let answer = rewrite(b, w, o);
        match answer.number {
            0 => Mended {
                length: answer.length,
                ..Mended::default()
            },
            _ => mend(b, w, o, l),
        }
    };
    let not_listed: Mend = |b, w, o, l| Mended {
        listed: 0,
        ..mend(b, w, o, l)
    };
    let past_the_form: Mend = |b, w, o, l| {
        let answer = mend(b, w, o, l);
        if let (0, Some(byte)) = (answer.number, o.get_mut(answer.length as usize)) {
            *byte ^= 1;
        }
        answer
    };
    let always_short: Mend = |b, w, o, l| match mend(b, w, &mut o.to_vec(), &mut l.to_vec()) {
        Mended { number: 0, .. } => Mended {
            number: 40,
            ..Mended::default()
        },
        answer => answer,
    };
    let reader: Mend = |b, w, o, l| match (REFERENCE.read)(b, w) {
        read if read.number != 0 => Mended {
            number: read.number,
            place: read.place,
            ..Mended::default()
        },
        _ => mend(b, w, o, l),
    };
    let nothing_asked: Mend = |b, w, o, l| match mend(b, w, o, l) {
        Mended { number: 7, .. } if Tables::open(b).is_ok() && o.len() >= b.len() => {
            o[..b.len()].copy_from_slice(b);
            Mended {
                length: b.len() as u32,
                ..Mended::default()
            }
        }
        answer => answer,
    };
    for (name, mend, sentences) in [
        ("normals", normals, &[STAYS][..]),
        ("corners", corners, &[SAME_PLACE, CORNERS_LISTED, ACCEPTED]),
        ("adjacency", adjacency, &[ACCEPTED]),
        ("root", root, &[STAYS]),
        ("one room on", one_room_on, &[TWICE, ONE_ENTRY]),
        ("rewritten", rewritten, &[LOWEST, ONE_NUMBER]),
        ("not listed", not_listed, &[CORNERS_LISTED, KEPT_OR_LISTED]),
        ("past the form", past_the_form, &[REST]),
        ("always short", always_short, &[TOO_SHORT]),
        ("reader", reader, &[NUMBERS]),
        ("nothing asked", nothing_asked, &[TO_15, OWN_FORM]),
    ] {
        let found = broken_by_both(CASES, Calls { mend, ..REFERENCE }, None);
        assert!(!found.is_empty(), "{name}");
        are_noticed(&found, sentences);
    }
}

#[test]
fn a_mending_that_says_more_than_there_is_is_noticed() {
    let more: Mend = |b, w, o, l| {
        let answer = mend(b, w, o, l);
        match answer.number {
            0 => Mended {
                length: o.len() as u32 + 1,
                ..answer
            },
            _ => answer,
        }
    };
    let calls = Calls {
        mend: more,
        ..REFERENCE
    };
    are_noticed(&broken_by_both(CASES, calls, None), &[REST]);
}

#[test]
fn a_mending_is_played_with_what_it_wrote() {
    let floor = small_seam().in_order();
    let [out, list] = needed(&floor);
    let mut mending = in_turn(&mut Random::new(1), 2 * out);
    mending.work = vec![0xEE; WORK];
    let all = run(&Case::Mending(mending.clone()), &HONEST);
    let names: Vec<&str> = all.iter().map(|done| done.call.name()).collect();
    assert_eq!(names, ["mend", "read", "rewrite", "mend"]);
    assert_eq!(result(&all[0]), result(&all[3]));
    mending.list = vec![0xEE; list - 1];
    let all = run(&Case::Mending(mending), &HONEST);
    assert_eq!(all[0].number(), 40);
    assert_eq!(all[1].fields[3], ("listed", list as u64));
}
