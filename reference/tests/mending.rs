//! Mending split seams (M-109) on small floors made by hand: corners, loops, transitions, the list, every refusal
//! in its order, and what is written where.

mod common;

use common::*;
use reference::answer::Mended;
use reference::floor;
use reference::generate::damage;
use reference::generate::finish::finish;
use reference::generate::floors::{Wish, PLAIN};
use reference::generate::model::Model;
use reference::generate::random::Random;
use reference::generate::seams::enough;
use reference::mend::mend;

const MINUS_ZERO: u32 = 0x8000_0000;

/// What a mending answered and wrote.
#[derive(Debug, PartialEq)]
struct Done {
    answer: Mended,
    form: Vec<u8>,
    list: Vec<u8>,
}

/// Mends bytes with room enough; what is past the outputs must stay.
fn mended(bytes: &[u8]) -> Done {
    let mut work = vec![0xEE; floor::WORK + 3];
    let [mut form, mut list] = enough(bytes).map(|length| vec![0xEE; length + 3]);
    let answer = mend(bytes, &mut work, &mut form, &mut list);
    assert!(work[..floor::WORK].iter().all(|&byte| byte == 0));
    assert_eq!(work[floor::WORK..], [0xEE; 3]);
    for (out, length) in [(&mut form, answer.length), (&mut list, answer.listed)] {
        let past = out.split_off(length as usize);
        assert!(past.iter().all(|&byte| byte == 0xEE));
    }
    Done { answer, form, list }
}

/// The number and place with which a floor is refused; it must be.
fn refusal(model: &Model) -> (u32, u32) {
    let done = mended(&model.in_order());
    assert_ne!(done.answer.number, 0);
    assert_eq!((done.answer.length, done.answer.listed), (0, 0));
    (done.answer.number, done.answer.place)
}

/// Mends a model. The result must be `wanted`, be read with its counts, and stay as it is.
fn is_mended_to(model: &Model, wanted: &Model, list: &[u8]) {
    let done = mended(&model.in_order());
    let form = wanted.in_order();
    assert_eq!((done.answer.number, done.answer.place), (0, 0));
    assert_eq!(done.form, form);
    assert_eq!(done.list, list);
    let counts = read(&form);
    assert_eq!(counts.number, 0);
    assert_eq!(counts.faces as usize, wanted.faces.len());
    assert_eq!(counts.walkable as usize, wanted.adjacency.len());
    assert_eq!(counts.edges as usize, wanted.edges.len());
    assert_eq!(counts.perimeters as usize, wanted.perimeters.len());
    let again = mended(&form);
    assert_eq!((again.form, again.list), (form, Vec::new()));
}

/// A record of a corner changed.
fn corner(place: u8, old: u8, new: u8) -> Vec<u8> {
    vec![1, 12, 0, place, 0, 0, 0, old, 0, 0, 0, new, 0, 0, 0]
}

/// A record of a half-edge that lost its transition.
fn lost(h: u8) -> Vec<u8> {
    vec![2, 4, 0, h, 0, 0, 0]
}

/// A floor of these places and faces, so many of which are walkable; its lists are empty.
fn floor_of(places: &[[f32; 2]], faces: &[[u32; 3]], walkable: usize) -> Model {
    let mut model = Model {
        vertices: places
            .iter()
            .map(|&[x, y]| [x, y, 0.0].map(f32::to_bits))
            .collect(),
        faces: faces.to_vec(),
        ..Model::default()
    };
    let wish = Wish {
        columns: 0,
        rows: 0,
        ..PLAIN
    };
    finish(&mut model, &mut Random::new(5), wish);
    for material in &mut model.materials[walkable..] {
        *material = 7;
    }
    model.adjacency = vec![[NONE; 3]; walkable];
    model.edges.clear();
    model.perimeters.clear();
    model
}

/// The same floor with these faces and lists; an edge leads nowhere.
fn with(model: &Model, faces: &[[u32; 3]], adjacency: &[[u32; 3]], loops: &[&[u32]]) -> Model {
    let mut ends = Vec::new();
    for one in loops {
        ends.push(ends.last().unwrap_or(&0) + one.len() as u32);
    }
    Model {
        faces: faces.to_vec(),
        adjacency: adjacency.to_vec(),
        edges: loops.concat().iter().map(|&h| [h, NONE]).collect(),
        perimeters: ends,
        ..model.clone()
    }
}

/// The square of W5 as a school sends it: face 1 has corners 2 and 1 of its own, 4 and 5. Its lists are right as it
/// stands.
fn split_square() -> Model {
    let mut model = square();
    model.vertices.push(model.vertices[2]);
    model.vertices.push(model.vertices[1]);
    model.faces[1] = [4, 5, 3];
    model.adjacency = vec![[NONE; 3]; 2];
    model.edges = (0..6).map(|h| [h, NONE]).collect();
    model.perimeters = vec![3, 6];
    assert_eq!(verdict(&model), (0, 0));
    model
}

/// The square that it becomes: two faces that are neighbours, edges 0, 4, 5, 2, and the vertices as they were.
fn whole_square(split: &Model) -> Model {
    Model {
        vertices: split.vertices.clone(),
        ..square()
    }
}

/// The list of its changed corners.
fn both_corners() -> Vec<u8> {
    [corner(3, 4, 2), corner(4, 5, 1)].concat()
}

#[test]
fn two_triangles_along_a_split_seam_become_one_square() {
    let split = split_square();
    is_mended_to(&split, &whole_square(&split), &both_corners());
    let lengths = mended(&split.in_order()).answer;
    assert_eq!(
        (lengths.length, lengths.listed),
        (136 + 72 + 64 + 132 + 24 + 32 + 4, 30)
    );
}

#[test]
fn minus_zero_is_zero_and_stays_as_it_is() {
    let mut split = split_square();
    split.vertices[4][0] = MINUS_ZERO;
    split.vertices[5][2] = MINUS_ZERO;
    is_mended_to(&split, &whole_square(&split), &both_corners());
    split.vertices[2][0] = MINUS_ZERO;
    split.vertices[4][0] = 0;
    is_mended_to(&split, &whole_square(&split), &both_corners());
}

#[test]
fn the_least_difference_of_a_coordinate_is_one() {
    let mut split = split_square();
    split.vertices[4][1] -= 1; // still inside every box
    let wanted = with(
        &split,
        &[[0, 1, 2], [4, 1, 3]],
        &[[NONE; 3]; 2],
        &[&[0, 1, 2], &[3, 4, 5]],
    );
    is_mended_to(&split, &wanted, &corner(4, 5, 1));
}

#[test]
fn a_fan_of_four_triangles_gets_its_middle() {
    let (c, e, n, w, s) = ([0.0, 0.0], [1.0, 0.0], [0.0, 1.0], [-1.0, 0.0], [0.0, -1.0]);
    let places = [c, e, n, c, n, w, c, w, s, c, s, e];
    let apart = [[0, 1, 2], [3, 4, 5], [6, 7, 8], [9, 10, 11]];
    let split = floor_of(&places, &apart, 4);
    let wanted = with(
        &split,
        &[[0, 1, 2], [0, 2, 5], [0, 5, 8], [0, 8, 1]],
        &[[11, NONE, 3], [2, NONE, 6], [5, NONE, 9], [8, NONE, 0]],
        &[&[1, 4, 7, 10]],
    );
    let changed = [
        [3, 3, 0],
        [4, 4, 2],
        [6, 6, 0],
        [7, 7, 5],
        [9, 9, 0],
        [10, 10, 8],
        [11, 11, 1],
    ];
    let list = changed.map(|[place, old, new]| corner(place, old, new));
    is_mended_to(&split, &wanted, &list.concat());
}

#[test]
fn triangles_that_touch_in_one_vertex_have_two_loops() {
    let places = [
        [0.0, 0.0],
        [1.0, 0.0],
        [0.0, 1.0],
        [0.0, 0.0],
        [-1.0, 0.0],
        [0.0, -1.0],
    ];
    let split = floor_of(&places, &[[0, 1, 2], [3, 4, 5]], 2);
    let wanted = with(
        &split,
        &[[0, 1, 2], [0, 4, 5]],
        &[[NONE; 3]; 2],
        &[&[0, 1, 2], &[3, 4, 5]],
    );
    is_mended_to(&split, &wanted, &corner(3, 3, 0));
}

#[test]
fn a_loop_goes_on_with_the_lowest_border_and_may_pass_a_vertex_twice() {
    let places = [
        [0.0, 0.0],
        [1.0, 0.0],
        [0.0, 1.0],
        [1.0, 1.0],
        [1.0, 1.0],
        [2.0, 1.0],
        [1.0, 2.0],
    ];
    // face 1 touches the square of faces 0 and 2 at (1,1)
    let split = floor_of(&places, &[[0, 1, 2], [4, 5, 6], [2, 1, 3]], 3);
    let wanted = with(
        &split,
        &[[0, 1, 2], [3, 5, 6], [2, 1, 3]],
        &[[NONE, 6, NONE], [NONE; 3], [1, NONE, NONE]],
        &[&[0, 7, 3, 4, 5, 8, 2]],
    );
    is_mended_to(&split, &wanted, &corner(3, 4, 3));
}

#[test]
fn corners_that_no_one_can_walk_on_change_too_and_an_unused_vertex_may_be_the_lowest() {
    let places = [
        [1.0, 0.0], // used by no face
        [0.0, 0.0],
        [1.0, 0.0],
        [0.0, 1.0],
        [0.0, 1.0],
        [1.0, 0.0],
        [1.0, 1.0],
    ];
    let split = floor_of(&places, &[[1, 2, 3], [4, 5, 6]], 1);
    let wanted = with(&split, &[[1, 0, 3], [3, 0, 6]], &[[NONE; 3]], &[&[0, 1, 2]]);
    let list = [corner(1, 2, 0), corner(3, 4, 3), corner(4, 5, 0)];
    is_mended_to(&split, &wanted, &list.concat());
}

#[test]
fn changed_corners_that_break_15_or_8_are_refused_at_their_places() {
    let places = [
        [0.0, 0.0],
        [1.0, 0.0],
        [0.0, 1.0],
        [0.0, 0.0],
        [1.0, 0.0],
        [0.0, -1.0],
        [0.0, -1.0],
    ];
    // face 1 runs from (0,0) to (1,0) as face 0 does; the other way round it does not
    let faces = [[0, 1, 2], [3, 4, 5]];
    assert_eq!(refusal(&floor_of(&places, &faces, 2)), (15, 3));
    let turned = [[0, 1, 2], [5, 3, 4]];
    assert_eq!(refusal(&floor_of(&places, &turned, 2)), (15, 4));
    let opposite = floor_of(&places, &[[0, 1, 2], [4, 3, 5]], 2);
    assert_eq!(mended(&opposite.in_order()).answer.number, 0);
    // half-edges of a face that no one can walk on run as they like
    assert_eq!(
        mended(&floor_of(&places, &faces, 1).in_order())
            .answer
            .number,
        0
    );
    // two corners of one face at one place, walkable or not, and before 15
    let narrow = [[0, 1, 2], [3, 4, 5], [5, 4, 6]];
    for walkable in [3, 2] {
        assert_eq!(refusal(&floor_of(&places, &narrow, walkable)), (8, 2));
    }
}

#[test]
fn an_edge_keeps_its_transition_if_its_half_edge_had_just_one_valid_entry() {
    let mut split = split_square();
    split.edges = vec![[5, 63], [4, 9], [2, NONE], [0, 0]];
    let mut wanted = whole_square(&split);
    wanted.edges = vec![[0, 0], [4, 9], [5, 63], [2, NONE]];
    is_mended_to(&split, &wanted, &both_corners());
}

#[test]
fn a_lost_transition_is_listed() {
    let mut split = split_square();
    // 1 and 3 are the seam; 4 has two entries that are equal, 5 two others, 2 twice nowhere, 0 somewhere and nowhere
    split.edges = vec![
        [1, 7],
        [3, NONE],
        [4, 5],
        [4, 5],
        [5, 1],
        [5, 2],
        [2, NONE],
        [2, NONE],
        [0, NONE],
        [0, 3],
    ];
    let list = [both_corners(), lost(0), lost(1), lost(4), lost(5)].concat();
    is_mended_to(&split, &whole_square(&split), &list);
}

#[test]
fn an_entry_that_is_not_valid_counts_for_nothing() {
    let mut split = split_square();
    let below = -2_i32 as u32;
    // 6 is no half-edge of a walkable face; 64, 99 and -2 are no transitions
    split.edges = vec![
        [6, 5],
        [0x8000_0000, 5],
        [NONE, 5],
        [0, 64],
        [0, 8],
        [4, 99],
        [5, below],
        [5, 0x8000_0000],
        [1, 64],
        [2, 63],
        [2, 0x0001_003F],
    ];
    split.perimeters = vec![NONE, 0, 77];
    let mut wanted = whole_square(&split);
    wanted.edges = vec![[0, 8], [4, NONE], [5, NONE], [2, 63]];
    is_mended_to(&split, &wanted, &both_corners());
}

#[test]
fn a_half_edge_of_a_face_that_no_one_can_walk_on_has_no_valid_entry() {
    let mut mixed = square();
    mixed.materials[1] = 7;
    mixed.adjacency.pop();
    mixed.edges = vec![[3, 5], [2, 6]];
    let mut wanted = with(&mixed, &mixed.faces, &[[NONE; 3]], &[&[0, 1, 2]]);
    wanted.edges[2][1] = 6;
    is_mended_to(&mixed, &wanted, &[]);
}

#[test]
fn wrong_lists_are_mended_without_a_seam() {
    let right = square();
    let mut wrong = square();
    wrong.adjacency = vec![[5, 5, NONE - 1], [0, 77, 1]];
    wrong.edges = vec![];
    wrong.perimeters = vec![9, 9];
    is_mended_to(&wrong, &right, &[]);
    // edges of the same loop from another start, as W6 may be turned
    wrong.edges = [5, 2, 0, 4].map(|h| [h, NONE]).to_vec();
    is_mended_to(&wrong, &right, &[]);
    is_mended_to(&right, &right, &[]);
}

#[test]
fn a_floor_of_nothing_is_mended_to_itself() {
    let mut empty = Model::default();
    is_mended_to(&empty, &empty, &[]);
    empty.root = 7; // says nothing where there are no nodes
    is_mended_to(&empty, &empty, &[]);
    empty.vertices = vec![[0; 3], [MINUS_ZERO, 0, 0]];
    let wanted = empty.clone();
    empty.edges = vec![[0, 5]];
    empty.perimeters = vec![1];
    is_mended_to(&empty, &wanted, &[]); // no half-edge is walkable, so nothing is lost
}

#[test]
fn outputs_one_byte_short_are_refused_and_neither_is_written() {
    let mut split = split_square();
    split.edges[1][1] = 5;
    let bytes = split.in_order();
    let Done { answer, form, list } = mended(&bytes);
    let needed = [form.len(), list.len()];
    assert_eq!(needed, [464, 37]);
    for out in [0, 1, 463, 464, 465] {
        for listed in [0, 1, 36, 37, 38] {
            let (mut work, mut to, mut told) =
                (vec![0xEE; floor::WORK], vec![0xEE; out], vec![0xEE; listed]);
            let lent = mend(&bytes, &mut work, &mut to, &mut told);
            assert!(work.iter().all(|&byte| byte == 0));
            if out >= 464 && listed >= 37 {
                assert_eq!(lent, answer);
                assert_eq!((&to[..464], &told[..37]), (&form[..], &list[..]));
                assert!(to[464..]
                    .iter()
                    .chain(&told[37..])
                    .all(|&byte| byte == 0xEE));
            } else {
                let short = Mended {
                    number: 40,
                    ..Mended::default()
                };
                assert_eq!(lent, short);
                assert!(to.iter().chain(&told).all(|&byte| byte == 0xEE));
            }
        }
    }
}

#[test]
fn too_little_work_memory_comes_first_and_is_left_alone() {
    for bytes in [split_square().in_order(), Vec::new()] {
        for length in [0, 1, floor::OLD_WORK, floor::WORK - 1] {
            let mut work = vec![0xEE; length];
            let answer = mend(&bytes, &mut work, &mut [], &mut []);
            assert_eq!((answer.number, answer.place), (20, 0));
            assert!(work.iter().all(|&byte| byte == 0xEE));
        }
    }
}

#[test]
fn the_readers_refusals_stand_but_for_16_to_19() {
    let mut random = Random::new(21);
    let mut met = [0; 20];
    for _ in 0..6_000 {
        let bytes = damage::bad(&mut random);
        let (reader, answer) = (read(&bytes), mended(&bytes).answer);
        let number = reader.number as usize;
        met[number] += 1;
        match number {
            1..=15 => assert_eq!((answer.number, answer.place), (reader.number, reader.place)),
            _ => assert!(matches!(answer.number, 0 | 8 | 15), "{answer:?}"),
        }
    }
    assert!(met[1..].iter().all(|&count| count >= 20), "{met:?}");
}

#[test]
fn offsets_and_gaps_of_the_old_floor_do_not_matter() {
    let mut random = Random::new(22);
    let split = split_square();
    let wanted = mended(&split.in_order());
    for _ in 0..200 {
        assert_eq!(mended(&split.scattered(&mut random)), wanted);
    }
}
