//! The checked examples W1 to W12 of 01, as 02 changes them, and its whole case of a layout.

mod common;

use common::*;
use reference::answer::Floor;
use reference::floor::tables::Tables;
use reference::form;
use reference::generate::model::Model;
use reference::journal::{nudge, paint};
use reference::words::word_at;

#[test]
fn w1_a_right_header_alone_is_accepted() {
    let bytes = Model::default().in_order();
    assert_eq!(bytes.len(), 136);
    assert_eq!(read(&bytes), Floor::default());
}

#[test]
fn w2_135_bytes_are_too_few() {
    let bytes = Model::default().in_order();
    assert_eq!(read(&bytes[..135]).number, 1);
}

#[test]
fn w3_1_048_577_bytes_are_too_many() {
    let mut bytes = Model::default().in_order();
    bytes.resize(1_048_577, 0);
    assert_eq!(read(&bytes).number, 1);
    bytes.truncate(1_048_576);
    assert_eq!(read(&bytes).number, 0);
}

#[test]
fn w4_one_walkable_triangle_has_288_bytes() {
    let bytes = triangle().in_order();
    assert_eq!(bytes.len(), 288);
    let (answer, written) = rewritten(&bytes);
    assert_eq!((answer.number, answer.length), (0, 288));
    assert_eq!(written, bytes);
    let counts = read(&bytes);
    assert_eq!((counts.faces, counts.walkable), (1, 1));
    assert_eq!((counts.edges, counts.perimeters), (3, 1));
    assert_eq!(word_at(&bytes, 284), 3);
}

#[test]
fn w5_w6_two_faces_are_partners_along_one_side() {
    let model = square();
    assert_eq!(model.adjacency.concat(), [NONE, 3, NONE, 1, NONE, NONE]);
    assert_eq!(
        model.edges.iter().map(|edge| edge[0]).collect::<Vec<u32>>(),
        [0, 4, 5, 2]
    );
    assert_eq!(verdict(&model), (0, 0));
}

#[test]
fn w7_edges_in_the_wrong_order_are_no_chain() {
    let mut model = square();
    model.edges = [0, 5, 4, 2].map(|h| [h, NONE]).to_vec();
    assert_eq!(verdict(&model), (19, 0));
}

#[test]
fn w8_a_triangle_holds_its_border_but_nothing_beyond() {
    let bytes = triangle().in_order();
    for (x, y, found) in [(32, 32, 1), (64, 0, 1), (33, 32, 0)] {
        let answer = query(&bytes, x, y);
        assert_eq!((answer.number, answer.found, answer.visited), (0, found, 1));
    }
}

#[test]
fn w9_a_paint_writes_this_record() {
    let mut floor = triangle().in_order();
    let mut journal = [0xEE; 37];
    let answer = paint(&mut floor, &mut journal, 0, 0, 0, 5);
    assert_eq!(answer, session(0, 0, 1));
    let record = [1, 0x0D, 0, 0, 0, 0, 0, 0, 4, 0, 0, 0, 5, 0, 0, 0];
    assert_eq!(journal[..16], record);
    assert_eq!(journal[16..], [0xEE; 21]);
    let materials = Tables::open(&floor)
        .unwrap()
        .bytes_of(reference::floor::tables::Table::Materials);
    assert_eq!(materials, [5, 0, 0, 0]);
}

#[test]
fn w10_a_walkable_material_stays_walkable() {
    let mut floor = triangle().in_order();
    let before = floor.clone();
    let answer = paint(&mut floor, &mut [0; 32], 0, 0, 0, 7);
    assert_eq!(answer, session(22, 0, 0));
    assert_eq!(floor, before);
}

#[test]
fn w11_one_and_a_half_nudged_by_one() {
    let mut model = triangle();
    model.floats[3] = 1.5_f32.to_bits();
    let mut floor = model.in_order();
    let answer = nudge(&mut floor, &mut [0; 32], 0, 0, 3, 1);
    assert_eq!(answer.number, 0);
    assert_eq!(word_at(&floor, 24), 0x3FC2_0000);
    assert_eq!(f32::from_bits(0x3FC2_0000), 1.515625);
}

#[test]
fn w12_a_journal_of_31_bytes_is_full_and_one_of_32_holds_one_edit_for_each_bench() {
    for first in [0, 1] {
        let mut floor = triangle().in_order();
        let full = paint(&mut floor, &mut [0; 31], 0, first, 0, 5);
        assert_eq!(full, session(25, 0, 0));
        let mut journal = [0; 32];
        for (f, bench, answer) in [
            (0, first, session(0, 0, 1)),
            (1, first, session(25, 0, 1)),
            (1, 1 - first, session(0, 0, 2)),
            (2, first, session(25, 0, 2)),
            (2, 1 - first, session(25, 0, 2)),
        ] {
            assert_eq!(paint(&mut floor, &mut journal, f, bench, 0, 5), answer);
        }
    }
}

#[test]
fn the_whole_case_of_a_layout() {
    let (answer, written) = layout_form("beginlayout\nroomcount 1\nHall 1.5 0 -0\ndonelayout");
    let form = "beginlayout\nroomcount 1\nhall 1.5 0 0\ntrackcount 0\n\
                obstaclecount 0\ndoorhookcount 0\ndonelayout\n";
    assert_eq!(String::from_utf8(written).unwrap(), form);
    assert_eq!(answer.length as usize, form.len());
}

#[test]
fn the_fixed_form_puts_empty_tables_at_the_running_position() {
    let mut bytes = Model::default().in_order();
    bytes[76..80].copy_from_slice(&NONE.to_le_bytes());
    let (answer, written) = rewritten(&bytes);
    assert_eq!(answer.length, 136);
    for field in [76, 84, 88, 92, 96, 104, 116, 124, 132] {
        assert_eq!(word_at(&written, field), 136);
    }
    assert_eq!(form::fixed(&Tables::open(&written).unwrap()), written);
}
