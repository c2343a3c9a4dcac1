//! The generator and the comparison themselves: valid floors are accepted, every refusal occurs,
//! forms read back, and every planted fault is noticed.

mod common;

use common::*;
use reference::calls::{OTHER, REFERENCE};
use reference::compare::{compare, Side};
use reference::fault::FAULTS;
use reference::floor;
use reference::form;
use reference::generate::cases::{case, Call, Case};
use reference::generate::finish::shuffle_faces;
use reference::generate::floors::{any_wish, floor as make};
use reference::generate::pair_damage::{forget_or_invent, repeat_last};
use reference::generate::random::Random;
use reference::generate::shapes::{crowded, large, shape, Shape, SHAPES};
use reference::generate::texts;
use reference::tally::numbers;
use reference::{layout, sight};

#[test]
fn generated_floors_are_accepted_and_their_forms_too() {
    let mut random = Random::new(11);
    for _ in 0..400 {
        let wish = any_wish(&mut random);
        let model = make(&mut random, wish);
        let bytes = model.scattered(&mut random);
        let counts = read(&bytes);
        assert_eq!(counts.number, 0);
        assert_eq!(counts.faces as usize, model.faces.len());
        let (answer, once) = rewritten(&bytes);
        assert_eq!(answer.number, 0);
        assert_eq!(once, model.in_order());
        assert_eq!(rewritten(&once).1, once);
        assert_eq!(read(&once), counts);
    }
}

#[test]
fn generated_texts_are_accepted_and_their_forms_read_back() {
    let mut random = Random::new(12);
    for _ in 0..400 {
        let rooms = texts::rooms(&mut random);
        let plan = texts::layout(&mut random, &rooms);
        let text = texts::spaced(&mut random, &plan);
        let read = layout::read(&text).expect("a valid layout");
        let form = layout::fixed(&read);
        let again = layout::read(&form).expect("a form reads back");
        assert_eq!(layout::fixed(&again), form);
        let plan = texts::sight(&mut random, &rooms);
        let vis = texts::spaced(&mut random, &plan);
        let rows = sight::read(&read, &vis).expect("a valid sight text");
        assert_eq!(sight::read(&again, &sight::fixed(&read, &rows)), Ok(rows));
    }
}

#[test]
fn a_large_floor_is_accepted() {
    let counts = read(&large(&mut Random::new(1), 64, 32).in_order());
    assert_eq!((counts.number, counts.faces), (0, 4_096));
    let counts = read(&crowded(&mut Random::new(6), 4_096).in_order());
    assert_eq!((counts.number, counts.faces), (0, 4_096));
    assert_eq!(counts.edges, 3 * counts.walkable);
}

#[test]
fn every_refusal_occurs() {
    let there = Side {
        calls: OTHER,
        fault: None,
    };
    let tally = compare(
        12_000,
        2,
        [&HONEST, &there],
        |_| (),
        |number, found| panic!("case {number}: {found:?}"),
    );
    for number in numbers() {
        assert!(
            tally.answered(number) >= 20,
            "{number}: {}",
            tally.answered(number)
        );
    }
}

#[test]
fn names_that_begin_alike_are_met() {
    let tally = compare(4_000, 7, [&HONEST, &HONEST], |_| (), |_, _| ());
    let met = &tally.beginnings;
    let asked = [met.begun, met.known, met.unknown];
    let mut each = asked.iter().chain(&met.parted);
    assert!(each.all(|&times| times >= 20), "{met:?}");
}

#[test]
fn trees_hang_from_any_node() {
    let tally = compare(4_000, 5, [&HONEST, &HONEST], |_| (), |_, _| ());
    assert!(tally.with_tree > 400, "{}", tally.with_tree);
    let tenth = tally.with_tree / 10;
    assert!(
        tally.with_another_root > tenth,
        "{}",
        tally.with_another_root
    );
    assert!(
        tally.with_tree - tally.with_another_root > tenth,
        "{}",
        tally.with_another_root
    );
}

#[test]
fn large_floors_meet_rules_15_and_16() {
    let tally = compare(20_000, 6, [&HONEST, &HONEST], |_| (), |_, _| ());
    for number in [0, 15, 16] {
        let met = tally.large.get(&number).copied().unwrap_or(0);
        assert!(met >= 5, "{number}: {met}");
    }
    for number in [15, 16] {
        let met = tally.large_at_last.get(&number).copied().unwrap_or(0);
        assert!(met >= 1, "{number}: {met}");
    }
}

#[test]
fn every_shape_is_accepted_or_refused_at_its_last_half_edge() {
    let mut random = Random::new(13);
    for kind in SHAPES {
        for (faces, unwalkable) in [(8, 0), (64, 3), (500, 0), (4_096, 0), (4_096, 9)] {
            let mut model = shape(&mut random, kind, faces, unwalkable);
            assert_eq!(model.faces.len(), faces);
            assert_eq!(verdict(&model), (0, 0), "{kind:?} {faces}");
            shuffle_faces(&mut model, &mut random);
            assert_eq!(verdict(&model), (0, 0), "{kind:?} {faces}, shuffled");
            let last = 3 * model.adjacency.len() as u32 - 1;
            forget_or_invent(&mut model, last as usize);
            assert_eq!(verdict(&model), (16, last), "{kind:?} {faces}");
            if faces > 8 {
                repeat_last(&mut model, &mut random);
                assert_eq!(verdict(&model), (15, last), "{kind:?} {faces}");
            }
        }
    }
}

/// How many half-edges are passed if each is put behind those of its chain (a + 517 b) % 16,384.
fn steps_along_chains(kind: Shape) -> usize {
    let mut lengths = vec![0; 16_384];
    let mut steps = 0;
    for [a, b, c] in shape(&mut Random::new(1), kind, 4_096, 0).faces {
        for (from, to) in [(a, b), (b, c), (c, a)] {
            let length = &mut lengths[(from as usize + 517 * to as usize) % 16_384];
            steps += *length;
            *length += 1;
        }
    }
    steps
}

#[test]
fn colliding_half_edges_make_long_chains() {
    assert!(steps_along_chains(Shape::Colliding) > 3_000_000);
    for kind in [Shape::Grid, Shape::Fan, Shape::Strip] {
        assert!(steps_along_chains(kind) < 10_000, "{kind:?}");
    }
}

#[test]
fn every_planted_fault_is_noticed() {
    for (name, fault) in FAULTS {
        let planted = Side {
            calls: REFERENCE,
            fault: Some(fault),
        };
        let says_why = |_, found: Vec<String>| assert!(!found.is_empty());
        let noticed = |cases: &u64| {
            let tally = compare(*cases, 3, [&planted, &HONEST], |_| (), says_why);
            tally.different > 0
        };
        assert!([500, 6_000].iter().any(noticed), "{name} was not noticed"); // most of them soon
    }
}

#[test]
fn a_case_is_the_same_each_time() {
    for number in 0..200 {
        let [one, other] = [0, 1].map(|_| format!("{:?}", case(9, number)));
        assert_eq!(one, other);
    }
}

#[test]
fn outputs_of_the_exact_size_and_one_less_occur() {
    let (mut exact, mut less) = (0, 0);
    for number in 0..6_000 {
        if let Case::One {
            call: Call::Rewrite,
            lent,
        } = case(4, number)
        {
            let [(_, floor), _, (_, out)] = &lent[..] else {
                panic!("a rewrite is lent three slices");
            };
            let mut space = vec![0; 1_000_000];
            let wanted = form::rewrite(floor, &mut vec![0; floor::WORK], &mut space).length;
            exact += usize::from(wanted as usize == out.len());
            less += usize::from(wanted as usize == out.len() + 1);
        }
    }
    assert!(exact > 20 && less > 5, "{exact} {less}");
}
