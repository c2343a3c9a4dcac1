//! Floors that get a tree in the comparison: floors of every kind, outputs lent at every length, and each sentence about a
//! planting noticed where it is broken, even if both sides break it alike and so do not differ.

mod common;

use common::*;
use reference::answer::Form;
use reference::calls::{Calls, REFERENCE};
use reference::compare::{compare, run};
use reference::fault::Fault;
use reference::floor::tables::{Table, FIELDS, ROOT_FIELD};
use reference::floor::WORK;
use reference::form::rewrite;
use reference::generate::bare::{bare, in_turn, needed, planting, small_bare, under_any_tree};
use reference::generate::cases::{case, Case, TURN};
use reference::generate::random::Random;
use reference::plant::tree;
use reference::seams::result;
use reference::trees::*;
use reference::words::{bytes_of, put_word, word_at};
use std::collections::BTreeSet;

#[test]
fn plantings_of_every_kind_occur() {
    let nothing_wrong = |number, found| panic!("case {number}: {found:?}");
    let tally = compare(12_000, 7, [&HONEST, &HONEST], |_| (), nothing_wrong);
    let counts = tally.trees;
    assert!(counts.plantings >= 1_200, "{counts:?}");
    let met = [
        counts.odd,
        counts.without_faces,
        counts.another_root,
        counts.minus_zero,
        counts.rounded_ties,
        counts.wrong_tree,
        counts.wrong_lists,
        counts.short_too,
        counts.before_nodes,
        counts.lists,
        counts.short,
    ];
    let mut all = met
        .iter()
        .chain(&counts.sizes)
        .chain(&counts.ties)
        .chain(&counts.infinite);
    assert!(all.all(|&count| count >= 5), "{counts:?}");
    for number in (0..=10).chain(15..=20).chain([40, 49]) {
        let count = tally.answered_by(number, "tree");
        assert!(count >= 3, "{number} by tree: {count}");
    }
    for number in 11..=14 {
        assert_eq!(tally.answered_by(number, "tree"), 0, "{number} by tree");
    }
}

#[test]
fn bare_floors_are_right_but_for_their_nodes() {
    let mut random = Random::new(14);
    let mut sizes = BTreeSet::new();
    for _ in 0..1_500 {
        let model = bare(&mut random);
        let bytes = model.in_order();
        assert_eq!(read(&under_any_tree(&bytes)).number, 0);
        let wanted = if model.faces.is_empty() { 0 } else { 11 };
        assert_eq!(read(&bytes).number, wanted);
        sizes.insert(model.faces.len());
    }
    assert!((0..=9).all(|faces| sizes.contains(&faces)), "{sizes:?}");
    assert!(sizes.last() >= Some(&4_095), "{sizes:?}");
}

#[test]
fn every_length_of_the_output_is_lent_in_turn() {
    let floor = small_bare().in_order();
    let needed = needed(&floor);
    assert_eq!(needed, floor.len() + 44 * 3);
    let mut lent = BTreeSet::new();
    for number in (3 * TURN / 4..20_000).step_by(TURN as usize) {
        let Case::Planting(planting) = case(1, number) else {
            panic!("case {number} is not in turn");
        };
        assert_eq!(planting.floor, floor);
        lent.insert(planting.out.len());
    }
    assert!(lent.iter().copied().eq(0..=needed + 2));
}

#[test]
fn lengths_around_what_is_needed_occur_and_so_does_work_memory_around_its_size() {
    let mut random = Random::new(15);
    let (mut around, mut works) = ([0; 4], [0; 3]);
    for _ in 0..1_500 {
        let planting = planting(&mut random);
        let (lent, needed) = (planting.out.len(), needed(&planting.floor));
        if needed > 0 {
            around[0] += usize::from(lent == 0);
            around[1] += usize::from(lent + 1 == needed);
            around[2] += usize::from(lent == needed);
            around[3] += usize::from(lent == needed + 1);
        }
        works[0] += usize::from(planting.work.len() == WORK - 1);
        works[1] += usize::from(planting.work.len() == WORK);
        works[2] += usize::from(planting.work.len() > WORK);
    }
    let mut all = around.iter().chain(&works);
    assert!(all.all(|&count| count >= 5), "{around:?} {works:?}");
}

/// How many cases show each broken sentence.
const CASES: u64 = 3_000;

#[test]
fn planted_faults_break_sentences() {
    for (fault, sentences) in [
        (Fault::LowerHalfUp, &[NUMBERED][..]),
        (Fault::RightFirst, &[NUMBERED, LEAVES]),
        (Fault::FirstCorner, &[HELD, ACCEPTED]),
        (Fault::MinusZeroKept, &[NO_MINUS]),
        (Fault::LastOnTie, &[PLANES]),
        (Fault::PlanesFromZero, &[PLANES, ACCEPTED]),
        (Fault::InfiniteLeftOut, &[PLANES]),
        (Fault::LeafPlane, &[LEAVES, ACCEPTED]),
        (Fault::UnknownZero, &[LEAVES, INNER]),
        (Fault::RootKept, &[COUNT]),
        (Fault::NodesAskedLate, &[NODES_THERE]),
        (Fault::NodesAskedEarly, &[FIRST]),
        (Fault::TreeAsked, &[NUMBERS, NODES_THERE]),
        (Fault::WorkKept, &[WORK_LEFT]),
    ] {
        let found = broken_by_both(CASES, REFERENCE, Some(fault));
        are_noticed(&found, sentences);
    }
}

type Tree = fn(&[u8], &mut [u8], &mut [u8]) -> Form;

/// Gives a tree and then spoils the form that was written.
fn spoilt(bytes: &[u8], [work, out]: [&mut [u8]; 2], spoil: impl Fn(&mut [u8])) -> Form {
    let answer = tree(bytes, work, out);
    if answer.number == 0 {
        spoil(&mut out[..answer.length as usize]);
    }
    answer
}

/// The byte where a table of a form starts, if it has entries.
fn start(form: &[u8], table: Table) -> Option<usize> {
    let fields = &FIELDS[table as usize];
    (word_at(form, fields.count) > 0).then(|| word_at(form, fields.offset) as usize)
}

/// A tree whose root's box begins, along x, far below every corner.
fn wide(form: &mut [u8]) {
    if let Some(at) = start(form, Table::Nodes) {
        put_word(form, at, f32::MIN.to_bits());
    }
}

/// A tree whose root has its children changed for each other, which the reader accepts.
fn turned(form: &mut [u8]) {
    if let Some(at) = start(form, Table::Nodes).filter(|_| word_at(form, 80) > 1) {
        let [left, right] = [36, 40].map(|word| word_at(form, at + word));
        put_word(form, at + 36, right);
        put_word(form, at + 40, left);
    }
}

/// A tree that has one face on the left of each node, so that it goes as deep as can be, with boxes as large as can be.
fn chained(form: &mut [u8]) {
    let Some(at) = start(form, Table::Nodes) else {
        return;
    };
    let last = word_at(form, 100) - 1;
    for node in 0..=last {
        let words = match node % 2 == 0 && node < last {
            true => [NONE, 4, 1, node + 1, node + 2],
            false => [node / 2, 4, 0, NONE, NONE],
        };
        let ends = [f32::MIN, f32::MAX].map(|end| [end.to_bits(); 3]).concat();
        let bytes = bytes_of(&[&ends[..], &words].concat());
        form[at + 44 * node as usize..][..44].copy_from_slice(&bytes);
    }
}

/// Checks that each of these calls, on both sides, breaks its sentences.
fn are_all_noticed(calls: &[(Tree, &[&str])]) {
    for &(tree, sentences) in calls {
        let found = broken_by_both(CASES, Calls { tree, ..REFERENCE }, None);
        are_noticed(&found, sentences);
    }
}

#[test]
fn forms_that_are_wrong_are_noticed() {
    let normals: Tree = |b, w, o| {
        spoilt(b, [w, o], |form| {
            if let Some(at) = start(form, Table::Normals) {
                form[at] ^= 1;
            }
        })
    };
    let root: Tree = |b, w, o| spoilt(b, [w, o], |form| put_word(form, ROOT_FIELD, 1));
    are_all_noticed(&[
        (normals, &[STAYS]),
        (root, &[COUNT]),
        (|b, w, o| spoilt(b, [w, o], wide), &[TIGHT]),
        (|b, w, o| spoilt(b, [w, o], turned), &[NUMBERED]),
        (
            |b, w, o| spoilt(b, [w, o], chained),
            &[DEPTH, NUMBERED, TIGHT],
        ),
        (no_tree, &[COUNT, ACCEPTED, OWN_FORM]),
        (past_the_form, &[REST]),
        (more, &[REST]),
    ]);
}

/// Writes a floor that may get a tree as it is.
fn no_tree(bytes: &[u8], work: &mut [u8], out: &mut [u8]) -> Form {
    match tree(bytes, work, &mut out.to_vec()).number {
        0 if bytes.len() <= out.len() => {
            out[..bytes.len()].copy_from_slice(bytes);
            Form {
                length: bytes.len() as u32,
                ..Form::default()
            }
        }
        _ => tree(bytes, work, out),
    }
}

/// Changes a byte past the form.
fn past_the_form(bytes: &[u8], work: &mut [u8], out: &mut [u8]) -> Form {
    let answer = tree(bytes, work, out);
    if let (0, Some(byte)) = (answer.number, out.get_mut(answer.length as usize)) {
        *byte ^= 1;
    }
    answer
}

/// Says that it wrote more than there is room for.
fn more(bytes: &[u8], work: &mut [u8], out: &mut [u8]) -> Form {
    match tree(bytes, work, out) {
        answer if answer.number == 0 => Form {
            length: out.len() as u32 + 1,
            ..answer
        },
        answer => answer,
    }
}

/// The answer of an output that is too short.
const SHORT: Form = Form {
    number: 40,
    place: 0,
    length: 0,
};

#[test]
fn answers_that_are_wrong_are_noticed() {
    // a floor with a tree that is right already is written as it is
    let kept: Tree = |b, w, o| match tree(b, w, o).number {
        49 => rewrite(b, w, o),
        _ => tree(b, w, o),
    };
    let always_short: Tree = |b, w, o| match tree(b, w, &mut o.to_vec()).number {
        0 => SHORT,
        _ => tree(b, w, o),
    };
    let lists_not_asked: Tree = |b, w, o| match tree(b, w, o).number {
        15..=19 => SHORT,
        _ => tree(b, w, o),
    };
    let begun: Tree = |b, w, o| {
        let answer = tree(b, w, o);
        if let (40, Some(byte)) = (answer.number, o.first_mut()) {
            *byte = !*byte;
        }
        answer
    };
    are_all_noticed(&[
        (kept, &[NODES_THERE, AGAIN]),
        (always_short, &[TOO_SHORT]),
        (lists_not_asked, &[LISTS]),
        (begun, &[NOTHING]),
    ]);
}

#[test]
fn a_planting_is_played_with_what_it_wrote() {
    let needed = needed(&small_bare().in_order());
    let mut planting = in_turn(&mut Random::new(1), needed);
    planting.work = vec![0xEE; WORK];
    let all = run(&Case::Planting(planting.clone()), &HONEST);
    let names: Vec<&str> = all.iter().map(|done| done.call.name()).collect();
    assert_eq!(names, ["tree", "read", "read", "rewrite", "tree"]);
    assert_eq!(all[4].number(), 49);
    assert_eq!(result(&all[0]), result(&all[3]));
    planting.out.pop();
    let all = run(&Case::Planting(planting), &HONEST);
    assert_eq!((all[0].number(), all.len()), (40, 3));
    assert_eq!(all[2].fields[2], ("length", needed as u64));
}
