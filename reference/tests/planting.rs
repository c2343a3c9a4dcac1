//! Trees for floors without one (M-113) on small floors made by hand: nodes word by word, how they are numbered, planes, zeros,
//! and what stays.

mod common;

use common::*;
use reference::generate::finish::finish;
use reference::generate::floors::{Wish, PLAIN};
use reference::generate::model::{Model, NodeWords};
use reference::generate::random::Random;
use reference::generate::shapes::{shape, SHAPES};

const MAX: f32 = f32::MAX;

/// Gives a model a tree. The result must be the model with these nodes and the root 0, and be read with its counts.
fn gets(model: &Model, nodes: &[NodeWords]) {
    let wanted = Model {
        nodes: nodes.to_vec(),
        root: 0,
        ..model.clone()
    };
    let (answer, form) = planted(&model.in_order());
    assert_eq!((answer.number, answer.place), (0, 0));
    assert_eq!(form, wanted.in_order());
    let counts = read(&form);
    assert_eq!(counts.number, 0);
    assert_eq!(counts.faces as usize, model.faces.len());
    assert_eq!(counts.walkable as usize, model.adjacency.len());
    assert_eq!(counts.edges as usize, model.edges.len());
    assert_eq!(counts.perimeters as usize, model.perimeters.len());
    match nodes {
        [] => assert_eq!(planted(&form), (answer, form)),
        _ => assert_eq!(refused(&form), (49, 100)),
    }
}

/// Triangles that are all apart, each from one corner to the other of these boxes.
fn apart(boxes: &[[[f32; 3]; 2]]) -> Model {
    let mut model = Model::default();
    for [one, other] in boxes {
        let first = model.vertices.len() as u32;
        model.faces.push([first, first + 1, first + 2]);
        model.vertices.extend([*one, *other, *one].map(bits));
    }
    let wish = Wish {
        columns: 0,
        rows: 0,
        ..PLAIN
    };
    finish(&mut model, &mut Random::new(5), wish);
    model.nodes.clear();
    model
}

/// The nodes of a form with a tree, in their order.
fn nodes_of(form: &[u8]) -> Vec<NodeWords> {
    let word = |at: usize| u32::from_le_bytes(form[at..at + 4].try_into().expect("four bytes"));
    let start = word(104) as usize;
    (0..word(100) as usize)
        .map(|node| [0, 1, 2, 3, 4, 5, 6, 7, 8, 9, 10].map(|i| word(start + 44 * node + 4 * i)))
        .collect()
}

/// The plane of the root over two faces whose box reaches from one of these to the other.
fn plane(least: [f32; 3], greatest: [f32; 3]) -> u32 {
    let model = bare_square([least, greatest, least, least]);
    let nodes = nodes_of(&planted(&model.in_order()).1);
    let wanted = node(least, greatest, [NONE, 4, nodes[0][8], 1, 2]);
    assert_eq!(nodes[0], wanted);
    nodes[0][8]
}

#[test]
fn two_triangles_word_by_word() {
    let model = bare_square([
        [-0.0, 0.0, 1.0],
        [1.0, -0.0, 1.0],
        [0.0, 5.0, 1.0],
        [2.0, 3.0, -2.0],
    ]);
    let [one, two, five, minus_two] = [0x3F80_0000, 0x4000_0000, 0x40A0_0000, 0xC000_0000];
    gets(
        &model,
        &[
            [0, 0, minus_two, two, five, one, NONE, 4, 2, 1, 2],
            [0, 0, one, one, five, one, 0, 4, 0, NONE, NONE],
            [0, 0, minus_two, two, five, one, 1, 4, 0, NONE, NONE],
        ],
    );
    let (answer, form) = planted(&model.in_order());
    assert_eq!(answer.length, 136 + 48 + 64 + 132 + 24 + 32 + 4);
    assert_eq!(form.len(), model.in_order().len() + 44 * 3);
}

#[test]
fn one_face_is_a_leaf_and_the_root() {
    let mut model = triangle();
    model.nodes.clear();
    model.root = NONE;
    gets(
        &model,
        &[node([0.0; 3], [1.0, 1.0, 0.0], [0, 4, 0, NONE, NONE])],
    );
}

#[test]
fn three_faces_have_one_on_the_left() {
    let at = |x: f32| [[x, 0.0, 0.0], [x + 1.0, 2.0, 0.5]];
    let model = apart(&[at(20.0), at(0.0), at(10.0)]);
    let leaf = |x: f32, face: u32| node(at(x)[0], at(x)[1], [face, 4, 0, NONE, NONE]);
    gets(
        &model,
        &[
            node([0.0; 3], [21.0, 2.0, 0.5], [NONE, 4, 1, 1, 2]),
            leaf(20.0, 0),
            node([0.0; 3], [11.0, 2.0, 0.5], [NONE, 4, 1, 3, 4]),
            leaf(0.0, 1),
            leaf(10.0, 2),
        ],
    );
}

#[test]
fn five_and_six_faces_are_numbered_parent_left_right() {
    let links = |faces: usize| -> Vec<[u32; 3]> {
        let form = planted(&apart(&vec![[[0.0; 3], [1.0; 3]]; faces]).in_order()).1;
        let links = |node: &NodeWords| [node[6], node[9], node[10]];
        nodes_of(&form).iter().map(links).collect()
    };
    let leaf = |face: u32| [face, NONE, NONE];
    let inner = |left: u32, right: u32| [NONE, left, right];
    let two_of_five = [inner(1, 4), inner(2, 3), leaf(0), leaf(1)];
    let three_of_five = [inner(5, 6), leaf(2), inner(7, 8), leaf(3), leaf(4)];
    assert_eq!(links(5), [&two_of_five[..], &three_of_five].concat());
    let three_of_six = [
        inner(1, 6),
        inner(2, 3),
        leaf(0),
        inner(4, 5),
        leaf(1),
        leaf(2),
    ];
    let others = [inner(7, 8), leaf(3), inner(9, 10), leaf(4), leaf(5)];
    assert_eq!(links(6), [&three_of_six[..], &others].concat());
}

#[test]
fn negative_zero_is_written_as_zero_wherever_it_stands() {
    let flat = [-0.0; 3];
    let leaves = |face: u32| node([0.0; 3], [0.0; 3], [face, 4, 0, NONE, NONE]);
    let root = node([0.0; 3], [0.0; 3], [NONE, 4, 1, 1, 2]);
    for other in [flat, [0.0; 3], [0.0, -0.0, 0.0]] {
        gets(
            &bare_square([flat, other, flat, other]),
            &[root, leaves(0), leaves(1)],
        );
        gets(
            &bare_square([other, flat, other, flat]),
            &[root, leaves(0), leaves(1)],
        );
    }
    let model = bare_square([
        [-0.0, -3.0, -0.0],
        [5.0, -0.0, 0.0],
        [-0.0, -0.0, 0.0],
        [0.0; 3],
    ]);
    let [root, ..] = nodes_of(&planted(&model.in_order()).1)[..] else {
        panic!("a root");
    };
    assert_eq!(
        root,
        node([0.0, -3.0, 0.0], [5.0, 0.0, 0.0], [NONE, 4, 1, 1, 2])
    );
}

#[test]
fn the_plane_is_the_first_of_the_longest_sides() {
    let zero = [0.0; 3];
    for (sides, wanted) in [
        ([3.0, 2.0, 1.0], 1),
        ([2.0, 3.0, 1.0], 2),
        ([1.0, 2.0, 3.0], 3),
        ([1.0, 1.0, 0.5], 1),
        ([0.5, 1.0, 1.0], 2),
        ([1.0, 0.5, 1.0], 1),
        ([1.0, 1.0, 2.0], 3),
        ([1.0, 1.0, 1.0], 1),
        ([0.0, 0.0, 0.0], 1),
        ([0.0, 0.0, f32::from_bits(1)], 3),
        ([0.0, f32::from_bits(2), f32::from_bits(1)], 2),
    ] {
        assert_eq!(plane(zero, sides), wanted, "{sides:?}");
    }
}

#[test]
fn sides_are_rounded_before_they_are_compared() {
    let far = 16_777_216.0; // and one more is rounded to it
    assert_eq!(plane([0.0, -1.0, 0.0], [far, far, 0.0]), 1);
    assert_eq!(plane([-1.0, 0.0, 0.0], [far, far, 0.0]), 1);
    assert_eq!(plane([-1.0, 0.0, -1.0], [1.0, far, far]), 2);
    assert_eq!(plane([0.0, -2.0, 0.0], [far, far, 0.0]), 2);
    assert_eq!(plane([0.0, -1.0, -2.0], [far, far, far]), 3);
}

#[test]
fn an_infinite_side_is_longest_and_two_are_a_tie() {
    assert_eq!(plane([0.0, -MAX, 0.0], [MAX, MAX, 0.0]), 2);
    assert_eq!(plane([0.0, 0.0, -MAX], [MAX, MAX, MAX]), 3);
    assert_eq!(plane([0.0, -MAX, -1.0e38], [MAX, MAX, MAX]), 2);
    assert_eq!(plane([-1.0e38, 0.0, -MAX], [MAX, MAX, MAX]), 1);
    assert_eq!(plane([-1.0e38, -MAX, 0.0], [MAX, MAX, 0.0]), 1);
    assert_eq!(plane([-1.0e38, -2.0e38, -MAX], [MAX; 3]), 1);
    // half a step past the largest float is infinite, and less is not
    let half_a_step = f32::from_bits(0x7300_0000);
    assert_eq!(plane([0.0, -half_a_step, 0.0], [MAX, MAX, 0.0]), 2);
    assert_eq!(
        plane([0.0, -f32::from_bits(0x72FF_FFFF), 0.0], [MAX, MAX, 0.0]),
        1
    );
}

#[test]
fn a_vertex_that_no_face_uses_is_in_no_box() {
    let mut model = plain_square();
    model.vertices.push(bits([MAX, -MAX, 7.0]));
    let nodes = nodes_of(&planted(&model.in_order()).1);
    assert_eq!(nodes[0][..6], [[0; 3], bits([1.0, 1.0, 0.0])].concat());
}

#[test]
fn faces_that_no_one_can_walk_on_are_in_the_tree_too() {
    let mut model = apart(&[[[0.0; 3], [1.0; 3]], [[5.0; 3], [6.0; 3]]]);
    model.materials[1] = 7;
    model.adjacency.pop();
    model.edges.truncate(3);
    model.perimeters.pop();
    assert_eq!(model.edges.len(), 3);
    let nodes = nodes_of(&planted(&model.in_order()).1);
    assert_eq!(nodes[0], node([0.0; 3], [6.0; 3], [NONE, 4, 1, 1, 2]));
    assert_eq!(nodes[2], node([5.0; 3], [6.0; 3], [1, 4, 0, NONE, NONE]));
}

#[test]
fn without_faces_the_root_becomes_0_and_nothing_else_changes() {
    for root in [0, 1, 7, 0x8000_0000, NONE] {
        let mut empty = Model {
            root,
            ..Model::default()
        };
        gets(&empty, &[]);
        empty.vertices = vec![[0; 3], [0x8000_0000, 0, 0]];
        empty.floats = [0x8000_0000; 15];
        gets(&empty, &[]);
    }
    let edges = Model {
        edges: vec![[0, 5]],
        ..Model::default()
    };
    assert_eq!(refusal(&edges), (17, 0));
}

#[test]
fn the_largest_floors_go_12_steps_down_and_no_further() {
    for kind in SHAPES {
        let mut model = shape(&mut Random::new(3), kind, 4_096, 9);
        model.nodes.clear();
        let (answer, form) = planted(&model.in_order());
        assert_eq!((answer.number, read(&form).number), (0, 0));
        let nodes = nodes_of(&form);
        assert_eq!(nodes.len(), 8_191);
        let mut steps = vec![0; nodes.len()];
        for (number, node) in nodes.iter().enumerate() {
            if node[6] == NONE {
                steps[node[9] as usize] = steps[number] + 1;
                steps[node[10] as usize] = steps[number] + 1;
            } else {
                assert_eq!(steps[number], 12);
            }
        }
    }
}

#[test]
fn offsets_gaps_and_the_root_field_do_not_matter() {
    let mut random = Random::new(22);
    let mut model = plain_square();
    let wanted = planted(&model.in_order());
    for _ in 0..200 {
        model.root = random.odd_word();
        assert_eq!(planted(&model.scattered(&mut random)), wanted);
    }
}
