//! Pairs of texts that are alike but for one room's name: they are so, and they differ in all that likeness leaves free.

use reference::digits::parts;
use reference::generate::random::Random;
use reference::generate::screens::{screens, Screens};
use reference::layout::{Entry, Layout};
use reference::{layout, links, sight};
use std::sync::OnceLock;

/// Many pairs, made once for all tests.
fn many() -> &'static [Screens] {
    static MANY: OnceLock<Vec<Screens>> = OnceLock::new();
    MANY.get_or_init(|| {
        let mut random = Random::new(5);
        (0..1_500).map(|_| screens(&mut random)).collect()
    })
}

/// Checks that at least 10 pairs are of this kind.
fn occurs(all: &[Screens], name: &str, kind: impl Fn(&Screens) -> bool) {
    let count = all.iter().filter(|screens| kind(screens)).count();
    assert!(count >= 10, "{name}: {count}");
}

/// Both layouts of a pair, which are right.
fn layouts(screens: &Screens) -> [Layout; 2] {
    let texts = screens.layouts.each_ref();
    texts.map(|text| layout::read(text).expect("a right layout"))
}

/// The layout with another name for a room, there and in its hooks.
fn with_name(mut layout: Layout, room: usize, name: &[u8]) -> Layout {
    let old = std::mem::replace(&mut layout.rooms[room].name, name.to_vec());
    let hooks = layout.hooks.iter_mut().filter(|hook| hook.room == old);
    hooks.for_each(|hook| hook.room = name.to_vec());
    layout
}

#[test]
fn layouts_have_the_same_parts_but_for_the_name() {
    for screens in many() {
        let [one, mut other] = layouts(screens);
        let room = screens.room as usize;
        if screens.has_room() {
            let names = [&one, &other].map(|layout| layout.rooms[room].name.clone());
            assert_eq!(
                names,
                screens
                    .names
                    .each_ref()
                    .map(|name| name.to_ascii_lowercase())
            );
            other = with_name(other, room, &names[0]);
        }
        assert_eq!(parts(one), parts(other));
    }
}

#[test]
fn other_rooms_are_typed_to_the_letter() {
    for screens in many() {
        let both = layouts(screens);
        for room in (0..screens.rooms).filter(|room| *room != screens.room as usize) {
            let [one, other] = [0, 1].map(|pair: usize| {
                let entry = &both[pair].rooms[room];
                &screens.layouts[pair][entry.start..entry.start + entry.length]
            });
            assert_eq!(one, other);
        }
    }
}

#[test]
fn sight_texts_have_the_same_rows() {
    for screens in many() {
        let both = layouts(screens);
        let rows = |pair: usize| sight::read(&both[pair], &screens.sights[pair]);
        assert_eq!(
            rows(0).expect("a right sight text"),
            rows(1).expect("another")
        );
    }
}

/// The words of a text's lines that are not blank.
fn words(text: &[u8]) -> Vec<Vec<&str>> {
    let text = std::str::from_utf8(text).expect("plain letters");
    let lines = text.lines().map(|line| line.split_ascii_whitespace());
    let words = lines.map(|words| words.collect::<Vec<&str>>());
    words.filter(|words| !words.is_empty()).collect()
}

/// Both layouts, or both sight texts.
type Texts = fn(&Screens) -> &[Vec<u8>; 2];
const TEXTS: [Texts; 2] = [|screens| &screens.layouts, |screens| &screens.sights];

/// Something that holds of a text or does not.
type Test = fn(&[u8]) -> bool;

#[test]
fn bytes_differ_where_they_are_free() {
    let all = many();
    let tests: [(&str, Test); 4] = [
        ("returns", |text| text.contains(&b'\r')),
        ("tabs", |text| text.contains(&b'\t')),
        ("last line feed", |text| text.ends_with(b"\n")),
        ("blank lines", |text| {
            text.split(|&byte| byte == b'\n').count() > words(text).len() + 1
        }),
    ];
    for texts in TEXTS {
        for (name, test) in tests {
            occurs(all, name, |screens| {
                let [one, other] = texts(screens);
                test(one) != test(other)
            });
        }
    }
}

#[test]
fn sections_without_entries_are_left_out_or_written() {
    let all = many();
    for keyword in ["trackcount", "obstaclecount", "doorhookcount"] {
        occurs(all, keyword, |screens| {
            let [one, other] = screens.layouts.each_ref().map(|text| {
                let is_section = |words: &Vec<&str>| words.len() == 2 && words[0] == keyword;
                words(text).iter().any(is_section)
            });
            one != other
        });
    }
}

/// Whether two such words stand in the same place of both texts, among the lines of so many words.
fn has_words(texts: &[Vec<u8>; 2], of: &[usize], at: usize, are: fn(&str, &str) -> bool) -> bool {
    let [one, other] = texts.each_ref().map(|text| {
        let is_empty = |words: &Vec<&str>| words.len() == 2 && ["0", "00"].contains(&words[1]);
        let mut lines = words(text);
        lines.retain(|words| of.contains(&words.len()) && !is_empty(words));
        lines
    });
    assert_eq!(one.len(), other.len());
    let mut both = one.iter().zip(&other);
    both.any(|(one, other)| are(one[at], other[at]))
}

fn in_other_letters(one: &str, other: &str) -> bool {
    one != other && one.eq_ignore_ascii_case(other)
}

#[test]
fn names_are_typed_in_other_letters() {
    let all = many();
    occurs(all, "a track or obstacle", |screens| {
        let [one, other] = screens.layouts.each_ref().map(|text| {
            let entries = words(text).into_iter().filter(|words| words.len() == 4);
            entries.skip(screens.rooms).collect::<Vec<_>>()
        });
        let mut both = one.iter().zip(&other);
        both.any(|(one, other)| in_other_letters(one[0], other[0]))
    });
    for (name, of, at) in [("a hook's room", &[9, 14], 0), ("a door", &[9, 14], 1)] {
        occurs(all, name, |screens| {
            has_words(&screens.layouts, of, at, in_other_letters)
        });
    }
    for (name, of) in [("an observer", 2), ("a room seen", 1)] {
        occurs(all, name, |screens| {
            has_words(&screens.sights, &[of], 0, in_other_letters)
        });
    }
}

#[test]
fn counts_and_numbers_are_typed_in_another_way() {
    let all = many();
    for texts in TEXTS {
        let are = |one: &str, other: &str| one.len() != other.len();
        occurs(all, "counts", |screens| {
            has_words(texts(screens), &[2], 1, are)
        });
    }
    for (of, at) in [(&[4][..], 3), (&[9, 14], 8), (&[14], 13)] {
        let zeros = |one: &str, other: &str| one.len() < other.len() && other.starts_with("00");
        let minus = |one: &str, other: &str| one.starts_with('0') && other.starts_with("-0");
        occurs(all, "zeros", |screens| {
            has_words(&screens.layouts, of, at, zeros)
        });
        occurs(all, "minus", |screens| {
            has_words(&screens.layouts, of, at, minus)
        });
    }
}

/// Both names in lower case.
fn lower(screens: &Screens) -> [Vec<u8>; 2] {
    screens
        .names
        .each_ref()
        .map(|name| name.to_ascii_lowercase())
}

/// Whether there is such a room, and the second name is another than the first in any letters.
fn is_new(screens: &Screens) -> bool {
    lower(screens)[0] != lower(screens)[1]
}

#[test]
fn new_names_are_those_of_tracks_obstacles_and_doors() {
    let all = many();
    let is_among = |screens: &Screens, entries: fn(&Layout) -> Vec<&[u8]>| {
        is_new(screens) && entries(&layouts(screens)[0]).contains(&&lower(screens)[1][..])
    };
    fn names(entries: &[Entry]) -> Vec<&[u8]> {
        entries.iter().map(|entry| &entry.name[..]).collect()
    }
    occurs(all, "a track", |screens| {
        is_among(screens, |layout| names(&layout.tracks))
    });
    occurs(all, "an obstacle", |screens| {
        is_among(screens, |layout| names(&layout.obstacles))
    });
    occurs(all, "a door", |screens| {
        is_among(screens, |layout| {
            layout.hooks.iter().map(|hook| &hook.door[..]).collect()
        })
    });
}

#[test]
fn new_names_are_of_every_other_kind() {
    let all = many();
    let is_beside = |screens: &Screens, are: fn(&[u8], &[u8]) -> bool| {
        let (rooms, new) = (&layouts(screens)[1].rooms, &lower(screens)[1]);
        let mut others = rooms.iter().filter(|room| room.name != *new);
        screens.has_room() && others.any(|room| are(new, &room.name))
    };
    occurs(all, "begins another", |screens| {
        is_beside(screens, |new, other| other.starts_with(new))
    });
    occurs(all, "is begun by another", |screens| {
        is_beside(screens, |new, other| new.starts_with(other))
    });
    for length in [1, 2, 8, 16] {
        occurs(all, "length", |screens| {
            is_new(screens) && screens.names[1].len() == length
        });
    }
    let [one, other] =
        [0, 1].map(|name: usize| move |screens: &Screens| screens.names[name].clone());
    occurs(all, "other letters", |screens| {
        !is_new(screens) && one(screens) != other(screens)
    });
    occurs(all, "the same", |screens| {
        screens.has_room() && one(screens) == other(screens)
    });
}

#[test]
fn rooms_are_few_and_many_and_the_room_may_be_past_the_last() {
    let all = many();
    occurs(all, "far past", |screens| {
        screens.room as usize > screens.rooms
    });
    occurs(all, "just past", |screens| {
        screens.room as usize == screens.rooms
    });
    occurs(all, "the last", |screens| {
        screens.room as usize + 1 == screens.rooms
    });
    for rooms in [1, 2, 6, 64] {
        occurs(all, "rooms", |screens| screens.rooms == rooms);
    }
    occurs(all, "some", |screens| (7..64).contains(&screens.rooms));
    for screens in all {
        assert!((1..=64).contains(&screens.rooms));
        assert!(screens.asked.contains(&screens.room));
    }
}

#[test]
fn houses_and_floors_are_right_and_wrong() {
    let all = many();
    let house = |screens: &Screens| layout::read(&screens.house).map(|house| house.rooms.len());
    occurs(all, "no house", |screens| house(screens).is_err());
    occurs(all, "more rooms", |screens| {
        house(screens).is_ok_and(|rooms| rooms > screens.rooms)
    });
    occurs(all, "fewer", |screens| {
        house(screens).is_ok_and(|rooms| rooms < screens.rooms)
    });
    let link = |screens: &Screens| {
        let mut work = screens.work.clone();
        links::link_check(&screens.floor, &mut work, &screens.layouts[0]).number
    };
    for number in [0, 20, 42] {
        occurs(all, "link check", |screens| link(screens) == number);
    }
    occurs(all, "bad floor", |screens| {
        (1..=19).contains(&link(screens))
    });
}

/// 40 is then given whatever is lent.
#[test]
fn a_name_alone_makes_a_form_longer_than_may_be() {
    let is_too_long = |screens: &Screens, pair: usize| {
        let (layout, sight) = (&screens.layouts[pair], &screens.sights[pair]);
        sight::rewrite(layout, sight, &mut vec![0; 70_000]).number == 40
    };
    let alone = |screens: &&Screens| is_too_long(screens, 0) != is_too_long(screens, 1);
    let count = many().iter().filter(alone).count();
    assert!(count >= 3, "{count}");
}
