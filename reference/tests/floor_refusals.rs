//! Every refusal of the reader, the rewriter and the query, with its place.

mod common;

use common::*;
use reference::answer::{Answer, Form, Point};
use reference::floor;
use reference::floor::tables::FIELDS;
use reference::generate::floors;
use reference::generate::random::Random;
use reference::{form, links, query};

const INFINITE: u32 = 0x7F80_0000;

#[test]
fn refusal_1_length() {
    assert_eq!(read(&[]).number, 1);
    assert_eq!(read(&triangle().in_order()[..135]).number, 1);
}

#[test]
fn refusal_2_first_eight_bytes() {
    assert_eq!(verdict_with(&triangle(), 4, 0x302E_3256), (2, 0));
}

#[test]
fn refusal_3_world_coords() {
    assert_eq!(verdict_with(&triangle(), 8, 0), (3, 8));
}

#[test]
fn refusal_4_counts() {
    let model = triangle();
    let counts = [
        (72, 4_097),
        (80, 4_097),
        (100, 8_192),
        (112, 2),
        (120, 12_289),
        (128, 12_289),
    ];
    for (field, count) in counts {
        assert_eq!(verdict_with(&model, field, count), (4, field as u32));
        assert_eq!(verdict_with(&model, field, NONE), (4, field as u32));
    }
}

#[test]
fn refusal_5_tables_outside() {
    let model = triangle();
    let length = model.in_order().len() as u32;
    for fields in &FIELDS {
        for start in [0, 135, length, NONE] {
            assert_eq!(
                verdict_with(&model, fields.offset, start),
                (5, fields.offset as u32)
            );
        }
    }
    assert_eq!(verdict_with(&model, 132, length - 3), (5, 132));
}

#[test]
fn refusal_6_tables_that_share_a_byte() {
    let model = triangle();
    assert_eq!(verdict_with(&model, 84, 136), (6, 84));
    assert_eq!(verdict_with(&model, 76, 137), (6, 84)); // the earlier table moved onto the later
    assert_eq!(verdict_with(&model, 132, 283), (6, 132));
    let mut empty = triangle();
    empty.perimeters.clear();
    assert_eq!(verdict_with(&empty, 132, 136), (19, 0)); // an empty table's offset is ignored
}

#[test]
fn refusal_7_floats() {
    let model = triangle();
    let bytes = model.in_order();
    let starts = FIELDS.map(|fields| reference::words::word_at(&bytes, fields.offset) as usize);
    let floats = [
        12,
        56,
        60,
        68,
        starts[0],
        starts[0] + 32,
        starts[3] + 8,
        starts[4],
        starts[5],
    ];
    for at in floats.into_iter().chain([starts[5] + 20]) {
        for wrong in [INFINITE, INFINITE | 0x8000_0000, 0x7F80_0001, NONE] {
            assert_eq!(verdict_with(&model, at, wrong), (7, at as u32));
        }
    }
    let mut both = triangle();
    both.nodes[0][0] = INFINITE;
    both.distances[0] = INFINITE;
    both.normals[0][2] = INFINITE;
    assert_eq!(verdict(&both), (7, starts[3] as u32 + 8)); // normals come first
}

#[test]
fn refusal_8_corners() {
    for corner in [4, NONE, 2, 3] {
        let mut model = square();
        model.faces[1][1] = corner;
        assert_eq!(verdict(&model), (8, 1));
    }
}

#[test]
fn refusal_9_materials() {
    let mut model = square();
    model.materials[1] = 23;
    assert_eq!(verdict(&model), (9, 1));
}

#[test]
fn refusal_10_walkable_faces_come_first() {
    let mut model = square();
    model.materials[1] = 7;
    assert_eq!(verdict(&model), (10, 1));
    model.adjacency.pop();
    assert_eq!(verdict(&model).0, 16); // now rule 10 is met
    model.materials.swap(0, 1);
    assert_eq!(verdict(&model), (10, 0));
}

#[test]
fn refusal_11_node_count_and_root() {
    let mut model = square();
    model.nodes.pop();
    assert_eq!(verdict(&model), (11, 100));
    for root in [3, 4, 8_191, NONE] {
        let mut model = square();
        model.root = root;
        assert_eq!(verdict(&model), (11, 108));
        model.nodes.pop();
        assert_eq!(verdict(&model), (11, 100)); // the count comes first
    }
}

#[test]
fn without_nodes_the_root_says_nothing() {
    for root in [0, 1, NONE] {
        let empty = reference::generate::model::Model {
            root,
            ..Default::default()
        };
        assert_eq!(verdict(&empty), (0, 0));
        assert_eq!(rewritten(&empty.in_order()).1, empty.in_order()); // the form keeps it
        assert_eq!(query(&empty.in_order(), 0, 0), Point::default());
    }
}

#[test]
fn a_tree_hangs_from_any_node() {
    for root in 0..3 {
        let model = hung_from(root);
        assert_eq!(verdict(&model), (0, 0));
        let bytes = model.in_order();
        let answer = query(&bytes, 64, 64);
        assert_eq!((answer.found, answer.face, answer.visited), (1, 1, 3));
        let answer = query(&bytes, 65, 64);
        assert_eq!((answer.found, answer.face, answer.visited), (0, 0, 1));
        for other in 0..3 {
            let moved = verdict_with(&model, 108, other);
            assert_eq!(moved, if other == root { (0, 0) } else { (13, 0) });
        }
    }
}

/// The square, whose root is any of its three nodes.
fn hung_from(root: u32) -> reference::generate::model::Model {
    let mut model = square();
    model.nodes.swap(0, root as usize);
    model.root = root;
    let children = match root {
        0 => [1, 2],
        1 => [0, 2],
        _ => [1, 0],
    };
    model.nodes[root as usize][9..].copy_from_slice(&children);
    model
}

#[test]
fn refusal_12_neither_leaf_nor_inner() {
    let wrong = [
        (1, 6, 2),
        (1, 8, 1),
        (1, 9, 0),
        (1, 10, 0),
        (0, 8, 0),
        (0, 8, 4),
        (0, 9, 3),
        (0, 10, NONE),
    ];
    for (node, field, word) in wrong {
        let mut model = square();
        model.nodes[node][field] = word;
        assert_eq!(verdict(&model), (12, node as u32), "{node} {field} {word}");
    }
    for plane in [1, 2, 3, -1, -2, -3] {
        let mut model = square();
        model.nodes[0][8] = plane as u32;
        assert_eq!(verdict(&model), (0, 0));
    }
}

#[test]
fn refusal_13_not_one_tree() {
    for (node, field, word) in [(0, 9, 2), (0, 9, 0), (1, 6, 1)] {
        let mut model = square();
        model.nodes[node][field] = word;
        assert_eq!(verdict(&model), (13, 0));
    }
}

#[test]
fn refusal_13_more_than_64_steps() {
    let mut random = Random::new(7);
    assert_eq!(verdict(&floors::chain(&mut random, 65)), (0, 0));
    assert_eq!(verdict(&floors::chain(&mut random, 66)), (13, 0));
}

#[test]
fn refusal_13_a_detached_ring() {
    let mut model = floors::chain(&mut Random::new(7), 3);
    let root = model.root as usize;
    let inner = model.nodes[root][9..]
        .iter()
        .position(|&n| model.nodes[n as usize][6] == NONE);
    let side = 9 + inner.expect("one child of the root is an inner node");
    let cut = model.nodes[root][side];
    model.nodes[root][side] = model.nodes[cut as usize][9];
    model.nodes[cut as usize][9] = cut;
    assert_eq!(verdict(&model), (13, 0));
}

#[test]
fn refusal_14_boxes() {
    for node in [0, 1, 2] {
        let mut model = square();
        model.nodes[node][3] = 1.0_f32.next_down().to_bits();
        assert_eq!(verdict(&model), (14, node as u32));
    }
    let mut model = square();
    model.nodes[1][0] = 0x8000_0000; // -0 is not under 0
    assert_eq!(verdict(&model), (0, 0));
}

#[test]
fn refusal_15_half_edges_that_run_the_same_way() {
    let mut model = square();
    model.faces[1] = [1, 2, 3];
    assert_eq!(verdict(&model), (15, 3));
}

#[test]
fn refusal_16_adjacency() {
    for h in 0..6 {
        let mut model = square();
        model.adjacency[h / 3][h % 3] ^= 1;
        assert_eq!(verdict(&model), (16, h as u32));
    }
}

#[test]
fn refusal_17_edges() {
    let mut model = square();
    model.edges[2][0] = 1;
    assert_eq!(verdict(&model), (17, 2)); // no border
    model.edges[2][0] = 0;
    assert_eq!(verdict(&model), (17, 2)); // repeats entry 0
    model.edges[1][0] = 6;
    assert_eq!(verdict(&model), (17, 1)); // 3A
    let mut model = square();
    model.edges.pop();
    assert_eq!(verdict(&model), (17, 3)); // one missing: the edge count
}

#[test]
fn refusal_18_transitions() {
    for (transition, number) in [(64, 18), (NONE - 1, 18), (63, 0), (0x8000_0000, 18)] {
        let mut model = square();
        model.edges[3][1] = transition;
        assert_eq!(verdict(&model).0, number);
        assert_eq!(verdict(&model).1, if number == 0 { 0 } else { 3 });
    }
}

#[test]
fn refusal_19_perimeters() {
    let wrong: [(&[u32], u32); 8] = [
        (&[], 0),
        (&[0, 4], 0),
        (&[5], 0),
        (&[3], 0),
        (&[3, 4], 0),
        (&[4, 4], 1),
        (&[4, 5], 1),
        (&[NONE], 0),
    ];
    for (perimeters, place) in wrong {
        let mut model = square();
        model.perimeters = perimeters.to_vec();
        assert_eq!(verdict(&model), (19, place), "{perimeters:?}");
    }
}

#[test]
fn refusal_19_edges_left_over() {
    let mut model = two_apart();
    assert_eq!(verdict(&model), (0, 0));
    model.perimeters.pop();
    assert_eq!(verdict(&model), (19, 1));
    model.perimeters = vec![6];
    assert_eq!(verdict(&model), (19, 0)); // both loops at once are no chain
}

#[test]
fn refusal_20_work_memory() {
    let bytes = triangle().in_order();
    for length in [0, 16_384, 65_535] {
        let mut work = vec![0xEE; length];
        assert_eq!(floor::read(&bytes, &mut work).number, 20);
        assert_eq!(floor::read(&[], &mut work).number, 20); // before rule 1
        assert!(work.iter().all(|&byte| byte == 0xEE));
    }
    let mut work = vec![0xEE; 65_542];
    assert_eq!(floor::read(&bytes, &mut work).number, 0);
    assert!(work[..65_536].iter().all(|&byte| byte == 0));
    assert_eq!(work[65_536..], [0xEE; 6]);
}

#[test]
fn refusal_29_point_beyond_the_grid() {
    let bytes = triangle().in_order();
    for (x, y) in [(65_537, 0), (0, -65_537), (i32::MIN, i32::MAX)] {
        assert_eq!(
            query(&bytes, x, y),
            Point {
                number: 29,
                ..Point::default()
            }
        );
    }
    assert_eq!(query(&bytes, 65_536, -65_536).number, 0);
}

#[test]
fn refusal_30_vertex_off_the_grid() {
    for (vertex, axis, value) in [(1, 2, 0.01), (2, 0, 1_024.015_6), (0, 1, -1_024.015_6)] {
        let mut model = square();
        model.vertices[vertex][axis] = f32::to_bits(value);
        for node in &mut model.nodes {
            node[..3].fill((-2000.0_f32).to_bits());
            node[3..6].fill(2000.0_f32.to_bits());
        }
        let refused = Point {
            number: 30,
            place: vertex as u32,
            ..Point::default()
        };
        assert_eq!(query(&model.in_order(), 0, 0), refused);
        assert_eq!(query(&model.in_order(), 0, 65_537).number, 29);
    }
    let mut unused = triangle();
    unused.vertices.push([0, 0, 1]); // the least float above zero, in no face
    assert_eq!(query(&unused.in_order(), 0, 0).number, 30);
    unused.vertices[3][2] = 0x8000_0000;
    assert_eq!(query(&unused.in_order(), 0, 0).number, 0);
}

#[test]
fn refusal_40_output_too_short() {
    let bytes = triangle().in_order();
    let mut out = [0xEE; 287];
    let answer = form::rewrite(&bytes, &mut vec![0; floor::WORK], &mut out);
    assert_eq!(
        answer,
        Form {
            number: 40,
            place: 0,
            length: 0
        }
    );
    assert_eq!(out, [0xEE; 287]);
}

#[test]
fn refusal_42_transition_without_room() {
    let mut model = square();
    model.edges[1][1] = 2;
    model.edges[2][1] = 3;
    let bytes = model.in_order();
    let mut work = vec![1; floor::WORK];
    let answer = links::link_check(&bytes, &mut work, THREE_ROOMS.as_bytes());
    assert_eq!(
        answer,
        Answer {
            number: 42,
            place: 2
        }
    );
    assert!(work.iter().all(|&byte| byte == 0));
    let none = b"beginlayout\nroomcount 0\ndonelayout";
    assert_eq!(
        links::link_check(&bytes, &mut work, none),
        Answer {
            number: 42,
            place: 1
        }
    );
    let linked_nowhere = square().in_order();
    assert_eq!(
        links::link_check(&linked_nowhere, &mut work, none),
        Answer::default()
    );
    assert_eq!(
        links::link_check(&bytes, &mut work, b"\n"),
        Answer {
            number: 38,
            place: 1
        }
    );
    assert_eq!(links::link_check(&[], &mut work, b"!").number, 1);
}

#[test]
fn a_query_counts_nodes_whose_ancestors_hold_the_point() {
    let bytes = square().in_order();
    let answer = query(&bytes, 64, 64);
    assert_eq!((answer.found, answer.face, answer.visited), (1, 1, 3));
    let answer = query(&bytes, 65, 64);
    assert_eq!((answer.found, answer.face, answer.visited), (0, 0, 1));
    let empty = reference::generate::model::Model::default().in_order();
    assert_eq!(query(&empty, 0, 0), Point::default());
}

#[test]
fn a_face_with_no_area_holds_no_point() {
    let line = [[0, 0], [64, 64], [128, 128]];
    assert!(!query::holds(line, [64, 64]));
    let turned = [[0, 0], [0, 64], [64, 0]];
    assert!(query::holds(turned, [32, 32]) && !query::holds(turned, [33, 32]));
}
