//! One visitor's name and nobody else's screen: two pairs of texts written out, pairs of every kind in the cases, and each
//! sentence noticed where it is broken, even if both sides break it alike and so do not differ.

mod common;

use common::*;
use reference::calls::{Calls, REFERENCE};
use reference::compare::{run, Done, Side};
use reference::fault::Fault;
use reference::floor::WORK;
use reference::generate::cases::Case;
use reference::generate::random::Random;
use reference::generate::screens::{screens, Screens};
use reference::screens::*;
use reference::{caption, layout, links};
use std::collections::BTreeSet;

/// Two layouts that are alike but for the name of room 0, and two sight texts.
const HALL: [&str; 2] = [
    "beginlayout\nroomcount 3\nHall 1.5 0 -0\nCave 1 2 3\nroof 0 0 0\ntrackcount 1\nhall 0 0 0\n\
     doorhookcount 2\nHALL Hall 0 0 0 0 0 0 0\ncave d 1 1 1 1 1 1 1\ndonelayout\n",
    "cave 2\nhALL\ncave\nHall 1\nroof\n",
];
const DEN: [&str; 2] = [
    "\r\nbeginlayout\nroomcount  03\nDen_2 001.5 -0 0\r\nCave 1 2 3\n\nroof 0 0 0\ntrackcount 1\nHall 0 0 0\nobstaclecount 0\n\
     doorhookcount 02\ndEN_2 HALL 0 0 0 0 0 0 0\nCAVE D 01 1 1 1 1 1 1\n\tdonelayout",
    "CAVE 02\n  den_2\nCave\n\nDEN_2 1\nROOF",
];
const HOUSE: &str = "beginlayout\nroomcount 4\na 0 0 0\nb 0 0 0\nc 0 0 0\nd 0 0 0\ndonelayout\n";

/// Both pairs by their first room's names, with room enough for all forms and all rooms asked for, two of them past the last.
fn pairs(one: [&str; 2], other: [&str; 2], names: [&str; 2]) -> Screens {
    let bytes = |text: &str| text.as_bytes().to_vec();
    let mut floor = triangle();
    floor.edges[1][1] = 3;
    Screens {
        layouts: [bytes(one[0]), bytes(other[0])],
        sights: [bytes(one[1]), bytes(other[1])],
        rooms: 3,
        room: 0,
        names: names.map(bytes),
        house: bytes(HOUSE),
        floor: floor.in_order(),
        work: vec![0xEE; WORK],
        asked: vec![0, 1, 2, 3, 4],
        typed: bytes("Attic"),
        with_break: bytes("hall\ncave"),
        plain: [1_000; 2],
        renamed: [1_000; 2],
    }
}

/// What this implementation does with pairs that break nothing.
fn done(screens: &Screens) -> Vec<Done> {
    let all = run(&Case::Screens(Box::new(screens.clone())), &HONEST);
    assert_eq!(broken(screens, &all), Vec::<String>::new());
    all
}

/// What a call wrote, line by line.
fn written(done: &Done) -> Vec<String> {
    let length = done.fields[2].1 as usize;
    let form = done.lent(done.memory.len() - 1)[..length].to_vec();
    let form = String::from_utf8(form).expect("plain letters");
    form.lines().map(str::to_string).collect()
}

/// The lines in which two forms of as many lines differ, from 1.
fn differing(one: &[String], other: &[String]) -> Vec<usize> {
    assert_eq!(one.len(), other.len());
    let all = one.iter().zip(other).enumerate();
    all.filter(|(_, (one, other))| one != other)
        .map(|(at, _)| at + 1)
        .collect()
}

#[test]
fn two_pairs_written_out() {
    let all = done(&pairs(HALL, DEN, ["Hall", "Den_2"]));
    let (one, other) = (&all[..13], &all[13..26]);
    let [hall, den] = [one, other].map(|all| written(&all[0]));
    assert_eq!(differing(&hall, &den), [3, 10]);
    assert_eq!(hall[2], "hall 1.5 0 0");
    assert_eq!(den[2], "den_2 1.5 0 0");
    assert_eq!([&hall[6][..], &den[6]], ["hall 0 0 0"; 2]); // a track's name
    assert_eq!(den[9], "den_2 hall 0 0 0 0 0 0 0"); // and a door's
    let [hall, den] = [one, other].map(|all| written(&all[1]));
    assert_eq!(differing(&hall, &den), [1, 4]);
    assert_eq!(den[..4], ["den_2 1", "  roof", "cave 2", "  den_2"]);
    for (room, row) in [4, 3, 0, 0, 0].into_iter().enumerate() {
        let at = 3 + 2 * room;
        assert_eq!(one[at].fields[2], ("row", row), "{room}");
        assert_eq!(one[at].fields, other[at].fields);
    }
    let links = [&one[2], &other[2]].map(|done| (done.number(), done.fields[1].1));
    assert_eq!(links, [(42, 1); 2]);
}

#[test]
fn the_bytes_shown_agree_and_not_their_places() {
    let all = done(&pairs(HALL, DEN, ["Hall", "Den_2"]));
    let captions = |from: usize| {
        let all = all[from..].iter().skip(4).step_by(2).take(5);
        let fields = all.map(|done| done.fields.iter().map(|field| field.1).collect());
        fields.collect::<Vec<Vec<u64>>>()
    };
    let (one, other) = (captions(0), captions(13));
    assert_eq!(one[0], [0, 0, 24, 4]); // number, house, start, length
    assert_eq!(other[0], [0, 0, 28, 5]);
    assert_eq!(one[1], [0, 0, 38, 4]);
    assert_eq!(other[1], [0, 0, 46, 4]);
    assert_eq!([&one[3], &other[3]], [&[0, 1, 48, 1]; 2]); // of the house
    assert_eq!([&one[4], &other[4]], [&[41, 1, 0, 0]; 2]);
}

/// The numbers that the plain forms of both pairs are answered with, layouts first, if so many bytes are lent for each.
fn numbers_with(lent: usize) -> [u64; 4] {
    let screens = Screens {
        plain: [lent; 2],
        ..pairs(HALL, DEN, ["Hall", "Den_2"])
    };
    let all = done(&screens);
    [0, 13, 1, 14].map(|at| all[at].number())
}

#[test]
fn one_form_alone_may_be_too_long() {
    assert_eq!(numbers_with(172), [0, 40, 0, 0]); // the longer name stands twice
    assert_eq!(numbers_with(173), [0; 4]);
    assert_eq!(numbers_with(43), [40, 40, 0, 40]);
    assert_eq!(numbers_with(0), [40; 4]);
}

#[test]
fn typed_names_make_no_lines() {
    for (typed, numbers) in [
        ("Den_2", [0, 0]),
        ("hALL", [0, 0]),
        ("cave", [37, 37]),
        ("a b", [34, 34]),
    ] {
        let screens = Screens {
            typed: typed.as_bytes().to_vec(),
            ..pairs(HALL, DEN, ["Hall", "Den_2"])
        };
        let all = done(&screens);
        let renamed = [&all[26], &all[27]];
        assert_eq!(renamed.map(|done| done.number()), numbers, "{typed}");
        if typed == "Den_2" {
            assert_eq!(renamed.map(written), [&all[13], &all[14]].map(written));
        }
    }
    for name in ["\n", "\r", "hall\n", "\rhall", "x 0 0 0\ny", "a\r\nb"] {
        let screens = Screens {
            with_break: name.as_bytes().to_vec(),
            ..pairs(HALL, DEN, ["Hall", "Den_2"])
        };
        let all = done(&screens);
        for refused in &all[28..] {
            let answer: Vec<u64> = refused.fields.iter().map(|field| field.1).collect();
            assert_eq!(answer, [34, 0, 0], "{name:?}");
        }
    }
}

#[test]
fn nothing_differs_where_there_is_no_such_room() {
    let screens = Screens {
        room: 3,
        ..pairs(HALL, HALL, ["", ""])
    };
    let all = done(&screens);
    let renames = all[26..].iter().map(|done| done.number());
    assert_eq!(renames.collect::<Vec<u64>>(), [21; 4]);
    let unlike = Screens {
        room: 3,
        ..pairs(HALL, DEN, ["", ""])
    };
    let all = run(&Case::Screens(Box::new(unlike.clone())), &HONEST);
    let found = broken(&unlike, &all);
    are_noticed(&found, &[SAME_CAPTIONS, LAYOUT_FORMS, SIGHT_FORMS]);
}

/// Pairs that are not alike are no fault of the calls, and yet tell whether each sentence is looked at.
#[test]
fn pairs_that_are_not_alike_break_sentences() {
    let (layout, sight) = (0, 1);
    for (text, old, new, sentences) in [
        (sight, "den_2", "hall", &[ACCEPTED][..]),
        (layout, "Cave 1", "cAVE 1", &[SAME_CAPTIONS]),
        (layout, "Cave 1 2", "Cave 1 2.0", &[LAYOUT_FORMS]),
        (layout, "Hall 0 0 0", "Dun_2 0 0 0", &[LAYOUT_FORMS]),
        (layout, "Hall 0 0 0", "Den_2 0 0 0", &[]), // a track of the name is a line that holds it
        (layout, "HALL 0", "den 0", &[LAYOUT_FORMS]),
        (layout, "HALL 0", "den_2 0", &[LAYOUT_FORMS]), // twice in one line
        (sight, "1\nROOF", "0", &[SAME_ROWS, SIGHT_FORMS]),
        (sight, "ROOF", "den_2", &[SAME_ROWS, SIGHT_FORMS]),
    ] {
        let mut den = DEN.map(str::to_string);
        den[text] = den[text].replacen(old, new, 1);
        let screens = pairs(HALL, [&den[0], &den[1]], ["Hall", "Den_2"]);
        let all = run(&Case::Screens(Box::new(screens.clone())), &HONEST);
        let found = broken(&screens, &all);
        are_noticed(&found, sentences);
        assert_eq!(found.len(), sentences.len(), "{old:?}: {found:?}");
    }
}

#[test]
fn pairs_of_every_kind_are_counted() {
    let mut counts = Counts::default();
    let mut random = Random::new(5);
    for _ in 0..2_000 {
        let screens = screens(&mut random);
        let all = run(&Case::Screens(Box::new(screens.clone())), &HONEST);
        assert_eq!(broken(&screens, &all), Vec::<String>::new());
        counts.add(&screens, &all);
    }
    for count in [
        counts.own_caption,
        counts.with_forms,
        counts.lengths,
        counts.one_refused,
        counts.hooks,
        counts.seen,
        counts.past_the_last,
        counts.other_letters,
        counts.of_the_house,
        counts.without,
        counts.renamed,
        counts.with_other_name,
        counts.line_breaks,
    ] {
        assert!(count >= 100, "{counts:?}");
    }
    assert_eq!((counts.pairs, counts.most_rooms), (2_000, 64));
}

/// The sentences that a side breaks with some hundred pairs.
fn broken_by(side: &Side) -> BTreeSet<&'static str> {
    let mut random = Random::new(6);
    let mut sentences = BTreeSet::new();
    for _ in 0..500 {
        let screens = screens(&mut random);
        let all = run(&Case::Screens(Box::new(screens.clone())), side);
        for words in broken(&screens, &all) {
            let said = |sentence: &&str| words.starts_with(sentence);
            sentences.extend(SENTENCES.into_iter().find(said));
        }
    }
    sentences
}

#[test]
fn planted_faults_break_sentences() {
    for (fault, sentences) in [
        (Fault::HookRoomCase, &[ACCEPTED][..]),
        (Fault::CaptionAfterLong, &[SAME_CAPTIONS, CAPTION_BYTES]),
        (Fault::ShortCaption, &[OWN_CAPTION]),
        (Fault::RowByName, &[SAME_ROWS]),
        (Fault::SeenByName, &[SIGHT_FORMS, RENAMED_SIGHT]),
        (Fault::LinksAskDoors, &[SAME_LINKS]),
        (
            Fault::LongNameBroken,
            &[LAYOUT_FORMS, SIGHT_FORMS, RENAMED_LAYOUT, RENAMED_SIGHT],
        ),
        (Fault::NameAskedLate, &[LINE_BREAK]),
        (Fault::HooksLeft, &[OTHER_NAME]), // no line differs but those that hold the name
        (Fault::DoorRenamed, &[RENAMED_LAYOUT, OTHER_NAME]),
    ] {
        let side = Side {
            calls: REFERENCE,
            fault: Some(fault),
        };
        let found = broken_by(&side);
        assert_eq!(found, sentences.iter().copied().collect(), "{fault:?}");
    }
}

#[test]
fn a_name_with_a_line_break_that_passes_is_noticed() {
    let side = Side {
        calls: REFERENCE,
        fault: Some(Fault::NameWithBreak),
    };
    let screens = Screens {
        typed: b"a\nb".to_vec(),
        ..pairs(HALL, DEN, ["Hall", "Den_2"])
    };
    let all = run(&Case::Screens(Box::new(screens.clone())), &side);
    let found = broken(&screens, &all);
    are_noticed(&found, &[RENAMED_LAYOUT, RENAMED_SIGHT, LINE_BREAK]);
    assert_eq!(found.len(), 4, "{found:?}"); // the last one by both calls
}

/// This implementation with one call made wrong.
fn with(calls: Calls) -> Side {
    Side { calls, fault: None }
}

#[test]
fn work_memory_that_tells_the_length_of_a_layout_is_noticed() {
    let side = with(Calls {
        link_check: |floor, work, layout| {
            let answer = links::link_check(floor, work, layout);
            if let Some(last) = work.last_mut() {
                *last = layout.len() as u8;
            }
            answer
        },
        ..REFERENCE
    });
    assert_eq!(broken_by(&side), BTreeSet::from([SAME_LINKS]));
}

#[test]
fn a_caption_without_end_is_noticed() {
    let side = with(Calls {
        caption: |visitor, house, room| {
            let mut answer = caption::caption(visitor, house, room);
            answer.length = u32::MAX;
            answer
        },
        ..REFERENCE
    });
    assert_eq!(broken_by(&side), BTreeSet::from([CAPTION_BYTES]));
}

#[test]
fn forms_longer_than_their_outputs_are_noticed() {
    let side = with(Calls {
        layout_rewrite: |text, out| {
            let mut answer = layout::rewrite(text, out);
            answer.length = u32::MAX;
            answer
        },
        ..REFERENCE
    });
    let wanted = [LAYOUT_FORMS, RENAMED_LAYOUT, OTHER_NAME];
    assert_eq!(broken_by(&side), BTreeSet::from(wanted));
}

#[test]
fn both_sides_alike_are_noticed_by_the_comparison() {
    let found = broken_by_both(2_000, REFERENCE, Some(Fault::RowByName));
    are_noticed(&found, &[SAME_ROWS]);
}
