//! Door hooks: every refusal of a hook with its place, their order, the form, renames, hooks of every kind in the cases, and
//! each sentence about hooks noticed where it is broken, even if both sides break it alike and so do not differ.

mod common;

use common::*;
use reference::calls::REFERENCE;
use reference::compare::compare;
use reference::digits::{AS_TYPED, SAME_PARTS, SHAPES};
use reference::doors::*;
use reference::fault::Fault;
use reference::{caption, layout, sight};

/// How many cases show each broken sentence.
const CASES: u64 = 3_000;

/// A layout of the rooms Hall and Cave, lines 3 and 4, with these hooks, the first on line 6.
fn with_hooks(hooks: &[&str]) -> String {
    let lines: String = hooks.iter().map(|hook| format!("{hook}\n")).collect();
    format!(
        "beginlayout\nroomcount 2\nHall 0 0 0\nCave 1 2 3\ndoorhookcount {}\n{lines}donelayout\n",
        hooks.len()
    )
}

/// The number and place of that layout.
fn verdict_of(hooks: &[&str]) -> (u32, u32) {
    layout_verdict(&with_hooks(hooks))
}

#[test]
fn refusal_33_unless_9_or_14_words() {
    for words in 1..=16 {
        let wanted = match words {
            9 | 14 => (0, 0),
            _ => (33, 6),
        };
        let hook = ["hall door", &"0 ".repeat(14)].join(" ");
        let hook: Vec<&str> = hook.split_whitespace().take(words).collect();
        assert_eq!(verdict_of(&[&hook.join(" ")]), wanted, "{words}");
        let wrong = vec!["-"; words].join(" ");
        let number = if wanted.0 == 33 { 33 } else { 34 };
        assert_eq!(verdict_of(&[&wrong]), (number, 6), "{words}");
    }
}

/// Each line's first fault, where all later ones may be there too.
#[test]
fn refusals_of_a_hook_in_their_order() {
    for (hook, number) in [
        ("ha.l d 0 0 0 0 0 0 0", 34),
        ("ha.l d.r 0 0 0 0 0 0 x", 34),
        ("seventeen_letters d 0 0 0 0 0 0 0", 34),
        ("cellar d 0 0 0 0 0 0 0", 39),
        ("cellar d.r 0 0 0 0 0 0 x", 39),
        ("cellar first 0 0 0 0 0 0 x", 39),
        ("hal d 0 0 0 0 0 0 0", 39),
        ("halls d 0 0 0 0 0 0 0", 39),
        ("first d 0 0 0 0 0 0 0", 39),
        ("hall d.r 0 0 0 0 0 0 0", 34),
        ("hall 1.5 0 0 0 0 0 0 x", 34),
        ("hall seventeen_letters 0 0 0 0 0 0 0", 34),
        ("hall fIRST 0 0 0 0 0 0 0", 37),
        ("hall FIRST x 0 0 0 0 0 0", 37),
        ("hall FIRST 0 0 0 0 0 0 0 0 0 0 0 1.", 37),
        ("HALL first_ 0 0 0 0 0 0 0", 0),
        ("cAVE hall 0 0 0 0 0 0 0 0 0 0 0 -0", 0),
    ] {
        let first = "hall First 0 0 0 0 0 0 0";
        let wanted = if number == 0 { (0, 0) } else { (number, 7) };
        assert_eq!(verdict_of(&[first, hook]), wanted, "{hook}");
    }
}

#[test]
fn refusal_35_at_each_number() {
    for count in [7, 12] {
        for at in 0..count {
            for wrong in ["-", "1.", ".5", "123456", "1.1234567", "a", "--1"] {
                let mut numbers = vec!["-99999.999999"; count];
                assert_eq!(verdict_of(&[&hall_hook("d", &numbers)]), (0, 0));
                numbers[at] = wrong;
                assert_eq!(verdict_of(&[&hall_hook("d", &numbers)]), (35, 6));
            }
        }
    }
}

fn hall_hook(door: &str, numbers: &[&str]) -> String {
    format!("hall {door} {}", numbers.join(" "))
}

#[test]
fn the_lowest_faulty_line_is_refused() {
    let [good, unknown, wrong] = [
        "hall a 0 0 0 0 0 0 0",
        "cellar b 0 0 0 0 0 0 0",
        "cave a 0 0 0 0 0 0 x",
    ];
    assert_eq!(verdict_of(&[good, wrong, unknown]), (37, 7));
    assert_eq!(verdict_of(&[good, unknown, wrong]), (39, 7));
    assert_eq!(verdict_of(&[wrong, unknown]), (35, 6));
}

#[test]
fn refusals_of_the_count_and_of_what_stands_behind() {
    let hook = "hall a 0 0 0 0 0 0 0";
    let start = "beginlayout\nroomcount 1\nhall 0 0 0\ndoorhookcount";
    for (rest, wanted) in [
        (" 65\n".to_string(), (36, 4)),
        (" 99\n".to_string(), (36, 4)),
        (" 001\n".to_string(), (36, 4)),
        (" -1\n".to_string(), (36, 4)),
        (" x\n".to_string(), (36, 4)),
        ("\n".to_string(), (33, 4)),
        (" 1 1\n".to_string(), (33, 4)),
        (" 1".to_string(), (38, 4)),
        (format!(" 2\n{hook}\n\n"), (38, 6)),
        (format!(" 01\n{hook}\n"), (38, 5)),
        (format!(" 1\n{hook}\ndonelayout"), (0, 0)),
        (format!(" 2\n{hook}\ndonelayout"), (33, 6)),
        (format!(" 0\n{hook}\ndonelayout"), (33, 5)),
        (format!(" 1\n{hook}\n\ndonelayout\n{hook}"), (33, 8)),
        (format!(" 1\n{hook}\ntrackcount 0\ndonelayout"), (33, 6)),
    ] {
        assert_eq!(layout_verdict(&format!("{start}{rest}")), wanted, "{rest}");
    }
    let no_room =
        format!("beginlayout\nroomcount 0\ntrackcount 1\nhall 0 0 0\ndoorhookcount 1\n{hook}");
    assert_eq!(layout_verdict(&no_room), (39, 6));
}

#[test]
fn as_many_hooks_as_rooms_may_be() {
    let hooks: Vec<String> = (0..65)
        .map(|i| hall_hook(&format!("d{i}"), &["0"; 7]))
        .collect();
    let hooks: Vec<&str> = hooks.iter().map(String::as_str).collect();
    assert_eq!(verdict_of(&hooks[..64]), (0, 0));
    assert_eq!(verdict_of(&hooks), (36, 5));
}

const HOOKED: [&str; 4] = [
    "HALL Hall -0 007.10 1.0 0 0 0 0",
    "cave\tD2  -0.0 1 2 3 4 5 6 -00.50 8 9 10 011",
    "hAll  CAVE 1 2 3 4 5 6 7",
    "Hall d4 0 0 0 0 0 0 0 1 2 3 4 5",
];

/// The form of the layout with these hooks, in which the first room is named like this.
fn form_with(room: &str, hooks: &[&str]) -> String {
    let lines: String = hooks.iter().map(|hook| format!("{hook}\n")).collect();
    format!(
        "beginlayout\nroomcount 2\n{room} 0 0 0\ncave 1 2 3\ntrackcount 0\nobstaclecount 0\n\
         doorhookcount {}\n{lines}donelayout\n",
        hooks.len()
    )
}

#[test]
fn the_fixed_form_of_hooks() {
    let text = with_hooks(&HOOKED);
    let wanted = form_with(
        "hall",
        &[
            "hall hall 0 7.10 1.0 0 0 0 0",
            "cave d2 0.0 1 2 3 4 5 6 -0.50 8 9 10 11",
            "hall cave 1 2 3 4 5 6 7",
            "hall d4 0 0 0 0 0 0 0 1 2 3 4 5",
        ],
    );
    let (answer, form) = layout_form(&text);
    assert_eq!(String::from_utf8(form).unwrap(), wanted);
    assert_eq!((answer.number, answer.length as usize), (0, wanted.len()));
    assert_eq!(layout_form(&wanted).1, wanted.as_bytes());
}

/// Room 0 named anew: the answer's number, and what was written.
fn renamed(text: &str, name: &str) -> (u32, String) {
    let mut out = vec![0; 2_000];
    let answer = layout::rename(text.as_bytes(), 0, name.as_bytes(), &mut out);
    out.truncate(answer.length as usize);
    (answer.number, String::from_utf8(out).unwrap())
}

#[test]
fn a_rename_renames_the_hooks_of_its_room() {
    let text = with_hooks(&HOOKED);
    for (name, lower) in [
        ("Attic", "attic"),
        ("D2", "d2"),
        ("d4", "d4"),
        ("HALL", "hall"),
    ] {
        let hooks = [
            &format!("{lower} hall 0 7.10 1.0 0 0 0 0"),
            "cave d2 0.0 1 2 3 4 5 6 -0.50 8 9 10 11",
            &format!("{lower} cave 1 2 3 4 5 6 7"),
            &format!("{lower} d4 0 0 0 0 0 0 0 1 2 3 4 5"),
        ];
        assert_eq!(
            renamed(&text, name),
            (0, form_with(lower, &hooks)),
            "{name}"
        );
    }
    assert_eq!(renamed(&text, "cave").0, 37); // a room's name, whatever doors have it
    let refused = renamed(&with_hooks(&["hall a 0 0 0 0 0 0 x"]), "cave");
    assert_eq!(refused, (35, String::new())); // the text's refusals first
}

#[test]
fn other_calls_read_layouts_with_hooks() {
    let good = with_hooks(&["CAVE d 0 0 0 0 0 0 0"]);
    let bad = with_hooks(&["cellar d 0 0 0 0 0 0 0"]);
    let row = |layout: &str| sight::row(layout.as_bytes(), b"cave 1\nhall", 1);
    assert_eq!((row(&good).number, row(&good).row), (0, 1));
    assert_eq!((row(&bad).number, row(&bad).place), (39, 6));
    let house = |visitor: &str| caption::caption(visitor.as_bytes(), good.as_bytes(), 1).house;
    assert_eq!([house(&good), house(&bad)], [0, 1]);
}

#[test]
fn hooks_of_every_kind_occur() {
    let doors = compare(14_000, 7, [&HONEST, &HONEST], |_| (), |_, _| ()).doors;
    assert_eq!(doors.read.len(), 7, "{doors:?}");
    assert!(doors.read.values().all(|&count| count >= 40), "{doors:?}");
    assert!(doors.full >= 20 && doors.of_both >= 100, "{doors:?}");
    assert!(
        doors.words.values().all(|&count| count >= 1_000),
        "{doors:?}"
    );
    assert_eq!((doors.words.len(), doors.shapes.len()), (2, SHAPES));
    let renames = [
        doors.with_hooks,
        doors.without,
        doors.from_door,
        doors.to_door,
    ];
    assert!(renames.iter().all(|&count| count >= 10), "{doors:?}");
    for number in 33..=39 {
        let refused = doors.refused.get(&number).copied().unwrap_or(0);
        assert!(refused >= 10, "{number}: {doors:?}");
    }
}

#[test]
fn planted_faults_break_sentences() {
    for (fault, sentences) in [
        (Fault::AnyWords, &[FIRST_FAULT][..]),
        (Fault::NoHooks, &[FIRST_FAULT]),
        (Fault::HookAnywhere, &[FIRST_FAULT]),
        (Fault::HookRoomCase, &[FIRST_FAULT]),
        (Fault::DoorBeforeRoom, &[FIRST_FAULT]),
        (Fault::NumberBeforeDoor, &[FIRST_FAULT]),
        (Fault::DoorAsTyped, &[FIRST_FAULT]),
        (Fault::DoorOrRoom, &[FIRST_FAULT]),
        (Fault::FiveDropped, &[AS_TYPED, SAME_PARTS, RENAMED]),
        (Fault::HooksLeft, &[SAME_PARTS, RENAMED]),
        (Fault::OneHookRenamed, &[SAME_PARTS, RENAMED]),
        (Fault::DoorRenamed, &[SAME_PARTS, RENAMED]),
    ] {
        let found = broken_by_both(CASES, REFERENCE, Some(fault));
        are_noticed(&found, sentences);
    }
}
