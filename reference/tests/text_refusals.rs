//! Every refusal of layout and sight texts, with its place; captions, rows and renames.

mod common;

use common::*;
use reference::answer::{CaptionAt, Form, Row};
use reference::text::{class_of, Class};
use reference::{caption, layout, sight};

/// A layout with this one room line at line 3.
fn with_room(line: &str) -> String {
    format!("beginlayout\nroomcount 1\n{line}\ndonelayout\n")
}

#[test]
fn each_byte_has_one_class() {
    let refused = (0..=255)
        .filter(|&byte| class_of(byte) == Class::Refused)
        .count();
    assert_eq!(refused, 256 - 52 - 10 - 3 - 2 - 2);
}

#[test]
fn refusal_31_longest_text() {
    let mut text = THREE_ROOMS.to_string();
    text.push_str(&" ".repeat(65_536 - text.len()));
    assert_eq!(layout_verdict(&text), (0, 0));
    text.push('!');
    assert_eq!(layout_verdict(&text), (31, 0));
}

#[test]
fn refusal_32_bytes() {
    assert_eq!(layout_verdict("beginlayout\nx!"), (32, 13));
    assert_eq!(layout_verdict("b\r\n\rx\0"), (32, 3));
    assert_eq!(layout_verdict("b\r\r\n"), (32, 1));
    assert_eq!(layout_verdict("b\r"), (32, 1));
    assert_eq!(layout_verdict("\x0b"), (32, 0));
    assert_eq!(sight_verdict("hall 0\n\u{80}"), (32, 7));
}

#[test]
fn refusal_33_keywords_word_counts_and_late_lines() {
    for (text, line) in [
        ("Beginlayout\n", 1),
        ("beginlayout 0\n", 1),
        ("\n \t\r\nroomcount 0\n", 3),
        ("beginlayout\nroomcount\n", 2),
        ("beginlayout\nroomcount 0 0\n", 2),
        ("beginlayout\ntrackcount 0\n", 2),
        (
            "beginlayout\nroomcount 0\nobstaclecount 0\ntrackcount 0\n",
            4,
        ),
        ("beginlayout\nroomcount 0\nroomcount 0\n", 3),
        ("beginlayout\nroomcount 0\na 1 2 3\n", 3),
        ("beginlayout\nroomcount 1\na 1 2\n", 3),
        ("beginlayout\nroomcount 1\na 1 2 3 4\n", 3),
        ("beginlayout\nroomcount 0\ndonelayout\n\nx", 5),
        ("beginlayout\nroomcount 0\ndonelayout 0", 3),
        ("beginlayout\nroomcount 0\ndoorhookcount\ndonelayout", 3),
    ] {
        assert_eq!(layout_verdict(text), (33, line), "{text:?}");
    }
    assert_eq!(sight_verdict("hall\n"), (33, 1));
    assert_eq!(sight_verdict("hall 1\n\ncave 0\n"), (33, 3));
    assert_eq!(sight_verdict("hall 0 0"), (33, 1));
}

#[test]
fn refusal_34_names() {
    for name in ["a.b", "a-b", "-", "seventeen_letters", "1.5"] {
        assert_eq!(
            layout_verdict(&with_room(&format!("{name} x 0 0"))),
            (34, 3),
            "{name}"
        );
    }
    assert_eq!(layout_verdict(&with_room("sixteen_letters_ 0 0 0")), (0, 0));
    assert_eq!(sight_verdict("ha-l 99"), (34, 1));
    assert_eq!(sight_verdict("hall 1\nha.l"), (34, 2));
}

#[test]
fn refusal_35_numbers() {
    for number in [
        "-",
        "1.",
        ".5",
        "-.5",
        "123456",
        "1.1234567",
        "1e5",
        "--1",
        "1.2.3",
        "1-",
    ] {
        for line in [format!("a {number} 0 0"), format!("a 0 0 {number}")] {
            assert_eq!(layout_verdict(&with_room(&line)), (35, 3), "{line}");
        }
    }
    assert_eq!(
        layout_verdict(&with_room("a -99999.999999 00000 -0.0")),
        (0, 0)
    );
}

#[test]
fn refusal_36_counts() {
    for count in ["65", "99", "001", "-1", "a", "1.0", "1_"] {
        let text = format!("beginlayout\nroomcount {count}\n");
        assert_eq!(layout_verdict(&text), (36, 2), "{count}");
    }
    let hooks = |count| format!("beginlayout\nroomcount 0\ndoorhookcount {count}\ndonelayout\n");
    assert_eq!(layout_verdict(&hooks("65")), (36, 3));
    assert_eq!(layout_verdict(&hooks("1")), (33, 4)); // hooks.rs has more of them
    assert_eq!(
        layout_verdict("beginlayout\nroomcount 00\ndoorhookcount 00\ndonelayout"),
        (0, 0)
    );
    assert_eq!(sight_verdict("nobody 65"), (36, 1)); // before 39
}

#[test]
fn refusal_37_names_that_stand_twice() {
    let rooms = "beginlayout\nroomcount 2\nHall 0 0 0\nhALL 1 1 1\ndonelayout";
    assert_eq!(layout_verdict(rooms), (37, 4));
    let tracks = "beginlayout\nroomcount 1\na 0 0 0\ntrackcount 2\na 0 0 0\na 0 0 0\ndonelayout";
    assert_eq!(layout_verdict(tracks), (0, 0));
    assert_eq!(sight_verdict("hall 0\nHALL 0"), (37, 2));
    assert_eq!(sight_verdict("hall 2\nhall\nHall"), (37, 3));
}

#[test]
fn refusal_38_text_ends_early() {
    assert_eq!(layout_verdict(""), (38, 0));
    assert_eq!(layout_verdict("\n\n"), (38, 2));
    assert_eq!(layout_verdict("beginlayout\nroomcount 1"), (38, 2));
    assert_eq!(
        layout_verdict("beginlayout\nroomcount 1\na 0 0 0\n \n"),
        (38, 4)
    );
    assert_eq!(sight_verdict("hall 2\ncave\n"), (38, 2));
}

#[test]
fn refusal_39_unknown_rooms() {
    assert_eq!(sight_verdict("cellar 0"), (39, 1));
    assert_eq!(sight_verdict("hall 1\ncellar"), (39, 2));
}

/// A name that another begins with, or that differs in its last byte alone, is another name.
#[test]
fn names_that_begin_alike_are_different_names() {
    let rooms = [
        "hall",
        "HALL_2",
        "Hal",
        "h",
        "sixteen_letters_",
        "sixteen_letters",
        "sixteen_letters1",
    ];
    let lines: String = rooms.iter().map(|room| format!("{room} 0 0 0\n")).collect();
    let layout = format!(
        "beginlayout\nroomcount {}\n{lines}donelayout\n",
        rooms.len()
    );
    assert_eq!(layout_verdict(&layout), (0, 0));
    let layout = layout.as_bytes();
    for (number, room) in (0..).zip(rooms) {
        let vis = format!("{} 1\n{}\n", room.to_lowercase(), room.to_uppercase());
        assert_eq!(sight::row(layout, vis.as_bytes(), number).row, 1 << number);
        let typed = layout::rename(layout, number, b"Ha", &mut [0; 900]);
        assert_eq!((typed.number, typed.place), (0, 0), "{room}");
        let taken = rooms[(number as usize + 1) % rooms.len()].as_bytes();
        let typed = layout::rename(layout, number, taken, &mut [0; 900]);
        assert_eq!((typed.number, typed.place), (37, 0), "{room}");
    }
    for name in [
        "ha",
        "hall_",
        "hall_22",
        "hall_3",
        "sixteen_letter",
        "sixteen_letters2",
        "i",
    ] {
        let refused = sight::row(layout, format!("hall 1\n{name}").as_bytes(), 0);
        assert_eq!((refused.number, refused.place), (39, 2), "{name}");
    }
}

#[test]
fn refusal_40_an_output_too_short() {
    let mut out = [0xEE; 10];
    let answer = layout::rewrite(THREE_ROOMS.as_bytes(), &mut out);
    assert_eq!(
        answer,
        Form {
            number: 40,
            place: 0,
            length: 0
        }
    );
    assert_eq!(out, [0xEE; 10]);
}

#[test]
fn refusal_40_a_form_over_65_536_bytes() {
    let mut random = reference::generate::random::Random::new(5);
    let mut lengths = std::collections::BTreeSet::new();
    for _ in 0..60 {
        let (rooms, plan) = reference::generate::texts::dense(&mut random);
        let both: usize = rooms[62..].iter().map(Vec::len).sum();
        let layout = reference::generate::texts::layout(&mut random, &rooms);
        let layout = reference::generate::texts::plain(&layout);
        let vis = reference::generate::texts::plain(&plan);
        let answer = sight::rewrite(&layout, &vis, &mut vec![0; 70_000]);
        let length = 65_523 + both as u32;
        let wanted = if length <= 65_536 {
            (0, length)
        } else {
            (40, 0)
        };
        assert_eq!((answer.number, answer.length), wanted);
        lengths.insert(length);
    }
    assert!(lengths.contains(&65_536) && lengths.contains(&65_537));
}

#[test]
fn refusal_41_no_caption() {
    let none = CaptionAt {
        number: 41,
        house: 1,
        start: 0,
        length: 0,
    };
    assert_eq!(caption::caption(b"", b"", 0), none);
    assert_eq!(caption::caption(THREE_ROOMS.as_bytes(), b"x", 3), none);
}

#[test]
fn a_caption_is_the_name_as_typed() {
    let text = THREE_ROOMS.as_bytes();
    let here = |house| CaptionAt {
        number: 0,
        house,
        start: 35,
        length: 4,
    };
    assert_eq!(&text[35..39], b"Cave");
    assert_eq!(caption::caption(text, b"", 1), here(0));
    assert_eq!(caption::caption(b"beginlayout\n", text, 1), here(1));
    let one = with_room("X 0 0 0");
    assert_eq!(caption::caption(one.as_bytes(), text, 1), here(1));
    let first = caption::caption(one.as_bytes(), text, 0);
    assert_eq!((first.house, first.start, first.length), (0, 24, 1));
}

#[test]
fn a_row_is_64_marks() {
    let layout = THREE_ROOMS.as_bytes();
    let vis = b"cave 2\n roof\n\tHALL\n\nRoof 1\nroof";
    let row = |room| sight::row(layout, vis, room);
    assert_eq!(
        row(1),
        Row {
            number: 0,
            place: 0,
            row: 0b101,
            seen: 2
        }
    );
    assert_eq!(
        row(2),
        Row {
            number: 0,
            place: 0,
            row: 0b100,
            seen: 1
        }
    );
    assert_eq!(row(0), Row::default());
    assert_eq!(row(3), Row::default());
    let refused = Row {
        number: 39,
        place: 1,
        row: 0,
        seen: 0,
    };
    assert_eq!(sight::row(layout, b"x 0", 1), refused);
    assert_eq!(sight::row(b"x", b"!", 1).number, 33); // the layout first
}

#[test]
fn the_fixed_form_of_a_sight_text() {
    let (answer, form) = sight_form(THREE_ROOMS, "ROOF 02\r\ncave\r\nHall\r\n");
    let wanted = "hall 0\ncave 0\nroof 2\n  hall\n  cave\n";
    assert_eq!(String::from_utf8(form).unwrap(), wanted);
    assert_eq!(answer.length as usize, wanted.len());
    assert_eq!(
        sight_form("beginlayout\nroomcount 0\ndonelayout", "").0,
        Form::default()
    );
}

#[test]
fn refusals_of_a_rename_and_their_order() {
    let layout = THREE_ROOMS.as_bytes();
    let rename = |room, name: &str, space: usize| {
        let answer = layout::rename(layout, room, name.as_bytes(), &mut vec![0; space]);
        let vis = sight::rename(
            layout,
            b"cave 1\nhall",
            room,
            name.as_bytes(),
            &mut vec![0; space],
        );
        assert_eq!((answer.number, answer.place), (vis.number, vis.place));
        (answer.number, answer.place)
    };
    assert_eq!(rename(3, "", 0), (21, 3));
    assert_eq!(rename(NONE, "new", 900), (21, NONE));
    assert_eq!(rename(1, "", 0), (34, 0));
    assert_eq!(rename(1, "seventeen_letters", 900), (34, 0));
    assert_eq!(rename(1, "a b", 900), (34, 0));
    assert_eq!(rename(1, "hall", 0), (37, 0));
    assert_eq!(rename(1, "new", 0), (40, 0));
    assert_eq!(rename(1, "CAVE", 900), (0, 0));
    let refused = layout::rename(b"x", 9, b"", &mut []);
    assert_eq!((refused.number, refused.place), (33, 1));
}

#[test]
fn a_renamed_sight_text_reads_with_the_renamed_layout() {
    let layout = THREE_ROOMS.as_bytes();
    let mut out = vec![0; 900];
    let length = layout::rename(layout, 1, b"Attic", &mut out).length;
    let renamed = out[..length as usize].to_vec();
    assert!(String::from_utf8_lossy(&renamed).contains("\nattic 1 2 3\n"));
    let length = sight::rename(layout, b"cave 1\nhall\nhall 1\ncave", 1, b"Attic", &mut out).length;
    let vis = out[..length as usize].to_vec();
    assert_eq!(vis, b"hall 1\n  attic\nattic 1\n  hall\nroof 0\n");
    assert_eq!(sight::row(&renamed, &vis, 1).row, 1);
}
