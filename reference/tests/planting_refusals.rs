//! Every refusal of a tree (M-113) with its place, and their order: 20, 1 to 10, 49, 15 to 19, 40.

mod common;

use common::*;
use reference::floor;
use reference::floor::tables::{Table, FIELDS};
use reference::generate::bare::under_any_tree;
use reference::generate::damage;
use reference::generate::model::Model;
use reference::generate::random::Random;
use reference::plant::tree;

/// The floor with some word changed in its bytes.
fn with_word(model: &Model, at: usize, word: u32) -> Vec<u8> {
    let mut bytes = model.in_order();
    bytes[at..at + 4].copy_from_slice(&word.to_le_bytes());
    bytes
}

/// The byte where a table of the model starts.
fn start(model: &Model, table: Table) -> usize {
    let at = FIELDS[table as usize].offset;
    let bytes = model.in_order();
    u32::from_le_bytes(bytes[at..at + 4].try_into().expect("four bytes")) as usize
}

/// The square broken by each of 1 to 10, with the refusal that this must give.
fn broken_to_10(model: &Model) -> Vec<(Vec<u8>, (u32, u32))> {
    let place = start(model, Table::Vertices);
    let [faces, materials] = [Table::Faces, Table::Materials].map(|table| start(model, table));
    vec![
        (model.in_order()[..135].to_vec(), (1, 0)),
        (with_word(model, 4, 0), (2, 0)),
        (with_word(model, 8, 0), (3, 8)),
        (with_word(model, 72, 4_097), (4, 72)),
        (with_word(model, 76, 135), (5, 76)),
        (with_word(model, 84, place as u32), (6, 84)),
        (
            with_word(model, place + 4, 0x7F80_0000),
            (7, place as u32 + 4),
        ),
        (with_word(model, faces + 12, 4), (8, 1)),
        (with_word(model, materials + 4, 23), (9, 1)),
        (with_word(model, materials, 7), (10, 0)),
    ]
}

/// The square broken by each of 15 to 19, with the refusal that this must give.
fn broken_from_15(model: &Model) -> Vec<(Model, (u32, u32))> {
    let broken = |number: u32, place: u32, breaks: fn(&mut Model)| {
        let mut model = model.clone();
        breaks(&mut model);
        (model, (number, place))
    };
    vec![
        broken(15, 4, |model| model.faces[1] = [3, 1, 2]),
        broken(16, 1, |model| model.adjacency[0][1] = NONE),
        broken(17, 3, |model| model.edges.truncate(3)),
        broken(18, 2, |model| model.edges[2][1] = 64),
        broken(19, 0, |model| model.perimeters[0] = 3),
    ]
}

/// The square with three right nodes, with one that is nothing, and with a right tree and a root that is none.
fn with_nodes() -> Vec<Model> {
    let nothing = Model {
        nodes: vec![node([0.0; 3], [0.0; 3], [9; 5])],
        ..plain_square()
    };
    let no_root = Model {
        root: 3,
        ..square()
    };
    vec![square(), nothing, no_root]
}

#[test]
fn every_rule_but_11_to_14_refuses_a_floor_without_nodes() {
    let model = plain_square();
    for (bytes, wanted) in broken_to_10(&model) {
        assert_eq!(refused(&bytes), wanted);
    }
    for (model, wanted) in broken_from_15(&model) {
        assert_eq!(refusal(&model), wanted);
        let told = read(&under_any_tree(&model.in_order()));
        assert_eq!((told.number, told.place), wanted);
    }
}

#[test]
fn nodes_are_refused_after_10_and_before_15() {
    for model in with_nodes() {
        assert_eq!(refusal(&model), (49, 100));
        for (bytes, wanted) in broken_to_10(&model) {
            assert_eq!(refused(&bytes), wanted);
        }
        for (model, _) in broken_from_15(&model) {
            assert_eq!(refusal(&model), (49, 100));
        }
    }
    let no_faces = Model {
        nodes: square().nodes,
        edges: vec![[0, 99]],
        ..Model::default()
    };
    assert_eq!(refusal(&no_faces), (49, 100));
}

#[test]
fn nodes_that_are_there_are_read_by_4_to_7() {
    let model = square();
    let nodes = start(&model, Table::Nodes);
    let last_float = nodes + 2 * 44 + 5 * 4;
    for (at, word, wanted) in [
        (100, 8_192, (4, 100)),
        (100, 8_191, (5, 104)),
        (104, 135, (5, 104)),
        (104, NONE, (5, 104)),
        (104, 136, (6, 104)),
        (104, nodes as u32 + 4, (6, 116)),
        (last_float, 0x7FC0_0000, (7, last_float as u32)),
        (last_float + 4, 0x7FC0_0000, (49, 100)), // a face's number is no float
    ] {
        assert_eq!(refused(&with_word(&model, at, word)), wanted, "{at} {word}");
    }
    let bare = plain_square();
    for offset in [0, 135, 136, 0x8000_0000, NONE] {
        assert_eq!(planted(&with_word(&bare, 104, offset)).0.number, 0);
    }
}

#[test]
fn an_output_that_is_too_short_comes_last_and_is_left_alone() {
    let bare = plain_square();
    let (answer, form) = planted(&bare.in_order());
    for length in 0..form.len() + 3 {
        let (mut work, mut out) = (vec![0xEE; floor::WORK], vec![0xEE; length]);
        let lent = tree(&bare.in_order(), &mut work, &mut out);
        assert!(work.iter().all(|&byte| byte == 0));
        if length >= form.len() {
            assert_eq!(lent, answer);
            assert_eq!(out[..form.len()], form);
            assert!(out[form.len()..].iter().all(|&byte| byte == 0xEE));
        } else {
            assert_eq!((lent.number, lent.place, lent.length), (40, 0, 0));
            assert!(out.iter().all(|&byte| byte == 0xEE));
        }
    }
    let short = |bytes: &[u8]| {
        let answer = tree(bytes, &mut vec![0; floor::WORK], &mut []);
        (answer.number, answer.place)
    };
    let first_ten = broken_to_10(&bare);
    let lists = broken_from_15(&bare)
        .into_iter()
        .map(|(model, wanted)| (model.in_order(), wanted));
    for (bytes, wanted) in first_ten.into_iter().chain(lists) {
        assert_eq!(short(&bytes), wanted);
    }
    assert_eq!(short(&square().in_order()), (49, 100));
    assert_eq!(short(&Model::default().in_order()), (40, 0));
}

#[test]
fn too_little_work_memory_comes_first_and_is_left_alone() {
    let (bare, whole) = (plain_square().in_order(), square().in_order());
    for bytes in [bare, whole, Vec::new()] {
        for length in [0, 1, floor::OLD_WORK, floor::WORK - 1] {
            let mut work = vec![0xEE; length];
            let answer = tree(&bytes, &mut work, &mut []);
            assert_eq!((answer.number, answer.place), (20, 0));
            assert!(work.iter().all(|&byte| byte == 0xEE));
        }
    }
}

#[test]
fn damaged_floors_are_refused_as_the_reader_does_but_for_11_to_14() {
    let mut random = Random::new(21);
    let mut met = [0; 20];
    for _ in 0..6_000 {
        let bytes = damage::bad(&mut random);
        let (reader, answer) = (read(&bytes), planted(&bytes).0);
        let told = read(&under_any_tree(&bytes));
        met[reader.number as usize] += 1;
        let nodes = bytes.len() >= 136 && bytes[100..104] != [0; 4];
        let wanted = match (reader.number, nodes) {
            (1..=10, _) => (reader.number, reader.place),
            (_, true) => (49, 100),
            (_, false) => (told.number, told.place),
        };
        assert_eq!((answer.number, answer.place), wanted);
    }
    assert!(met[1..].iter().all(|&count| count >= 20), "{met:?}");
}
