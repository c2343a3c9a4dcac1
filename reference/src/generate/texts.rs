//! Valid layout and sight texts as lines of words, and the many ways to space them out.

use super::hooks;
use super::random::Random;
use crate::text::{LONGEST, LONGEST_NAME};
use std::collections::HashSet;

pub type Word = Vec<u8>;
/// A text before it is spaced out: lines of words.
pub type Plan = Vec<Vec<Word>>;

/// A line of words from plain strings.
pub fn line(words: &[&str]) -> Vec<Word> {
    words.iter().map(|word| word.as_bytes().to_vec()).collect()
}

/// Names that differ even if letter case is ignored. `make` is handed those before.
pub(super) fn differing(count: usize, mut make: impl FnMut(&[Word]) -> Word) -> Vec<Word> {
    let mut taken = HashSet::new();
    let mut names = Vec::new();
    while names.len() < count {
        let name = make(&names);
        if taken.insert(name.to_ascii_lowercase()) {
            names.push(name);
        }
    }
    names
}

/// Such names, of any kind.
pub fn names(random: &mut Random, count: usize) -> Vec<Word> {
    differing(count, |_| name(random))
}

/// The names of so many rooms: half of the time most of them begin like another.
pub fn room_names(random: &mut Random, count: usize) -> Vec<Word> {
    let fresh = random.pick(&[1, 4]);
    differing(count, |names| match random.once_in(fresh) {
        true => name(random),
        false => akin_to_one(random, names),
    })
}

/// A name that begins like one of these, if there are any.
pub(super) fn akin_to_one(random: &mut Random, names: &[Word]) -> Word {
    match names.get(random.under(names.len())) {
        None => name(random),
        Some(name) => akin(random, name),
    }
}

/// A name that begins like this one, in letters of any case: a part of it, the same with one byte or many behind it, or with
/// another last byte.
pub fn akin(random: &mut Random, name: &[u8]) -> Word {
    let length = name.len();
    let is_short = length < LONGEST_NAME;
    let (kept, more) = match random.under(4) {
        0 if length > 1 => (1 + random.under(length - 1), 0),
        1 if is_short => (length, 1),
        2 if is_short => (length, LONGEST_NAME - length),
        _ => (length.saturating_sub(1), 1),
    };
    let mut akin = recased(random, &name[..kept]);
    akin.extend((0..more).map(|_| random.pick(NAME_BYTES)));
    akin
}

/// Bytes of generated names: few, so that names are often nearly the same.
const NAME_BYTES: &[u8] = b"abcxyzABCXYZ0189_";

/// A name of 1 to 16 letters, digits and underscores; now and then one that is a keyword.
pub fn name(random: &mut Random) -> Word {
    if random.once_in(40) {
        return random
            .pick(&[
                "donelayout",
                "roomcount",
                "trackcount",
                "beginlayout",
                "0",
                "64",
                "_",
            ])
            .as_bytes()
            .to_vec();
    }
    let longest = random.pick(&[1, 2, 3, 5, 8, 16, 16]);
    let length = random.from_to(1, longest);
    (0..length).map(|_| random.pick(NAME_BYTES)).collect()
}

/// The same name in letters of any case.
pub fn recased(random: &mut Random, name: &[u8]) -> Word {
    name.iter()
        .map(|byte| match random.under(3) {
            0 => byte.to_ascii_uppercase(),
            1 => byte.to_ascii_lowercase(),
            _ => *byte,
        })
        .collect()
}

/// A number as it may be typed: minus, leading zeros and digits after the point all optional.
pub fn number(random: &mut Random) -> Word {
    let mut typed = Vec::new();
    if random.once_in(3) {
        typed.push(b'-');
    }
    let zeros = random.once_in(4);
    let digit =
        |random: &mut Random| random.pick(if zeros { b"0" } else { b"0123456789" as &[u8] });
    for _ in 0..random.from_to(1, 5) {
        typed.push(digit(random));
    }
    if random.once_in(2) {
        typed.push(b'.');
        for _ in 0..random.from_to(1, 6) {
            typed.push(digit(random));
        }
    }
    typed
}

/// A count as it may be typed.
pub fn count(random: &mut Random, count: usize) -> Word {
    match random.once_in(5) {
        true => format!("{count:02}").into_bytes(),
        false => count.to_string().into_bytes(),
    }
}

/// How many entries a section has: mostly few, now and then as many as the rule allows.
pub(super) fn section_size(random: &mut Random) -> usize {
    match random.under(12) {
        0 => 64,
        1 => random.under(65),
        _ => random.under(7),
    }
}

/// A layout with these rooms and, now and then, its optional sections.
pub fn layout(random: &mut Random, rooms: &[Word]) -> Plan {
    let mut plan = without_hooks(random, rooms);
    match random.under(8) {
        0 | 1 => (),
        2 => plan.push(line(&["doorhookcount", random.pick(&["0", "00"])])),
        _ => hooks::add_section(&mut plan, random, rooms),
    }
    plan.push(line(&["donelayout"]));
    plan
}

/// A layout with these rooms up to its hooks.
pub fn without_hooks(random: &mut Random, rooms: &[Word]) -> Plan {
    let mut plan = vec![line(&["beginlayout"])];
    add_section(&mut plan, random, "roomcount", rooms);
    for keyword in ["trackcount", "obstaclecount"] {
        if random.once_in(2) {
            let size = section_size(random);
            let entries: Vec<Word> = (0..size).map(|_| name(random)).collect();
            add_section(&mut plan, random, keyword, &entries);
        }
    }
    plan
}

/// A layout with some hooks, one of which is right or wrong in the way of this turn. Gives its rooms too.
pub fn hooked_in_turn(random: &mut Random, turn: usize) -> (Vec<Word>, Plan) {
    let count = random.pick(&[1, 2, 3, 4, 6, 64]);
    let rooms = room_names(random, count);
    let mut plan = without_hooks(random, &rooms);
    let count = random.pick(&[2, 3, 4, 6, 63, 64]);
    hooks::add(&mut plan, random, &rooms, count);
    hooks::damage_in_turn(random, &mut plan, turn);
    plan.push(line(&["donelayout"]));
    (rooms, plan)
}

/// Adds a section of these entries, each with any numbers.
pub(super) fn add_section(plan: &mut Plan, random: &mut Random, keyword: &str, names: &[Word]) {
    plan.push(vec![
        keyword.as_bytes().to_vec(),
        count(random, names.len()),
    ]);
    for name in names {
        let numbers = [0; 3].map(|_: i32| number(random));
        plan.push([vec![name.clone()], numbers.to_vec()].concat());
    }
}

/// The rooms of some layout.
pub fn rooms(random: &mut Random) -> Vec<Word> {
    let count = section_size(random);
    room_names(random, count)
}

/// A sight text over these rooms: any observers in any order, each with any list.
pub fn sight(random: &mut Random, rooms: &[Word]) -> Plan {
    let observers = random.pick(&[1, 1, 2]);
    let sparse = random.pick(&[1, 2, 2, 8]);
    let mut plan = Plan::new();
    for observer in some_of(random, rooms, observers) {
        let seen = some_of(random, rooms, sparse);
        let name = recased(random, &observer);
        plan.push(vec![name, count(random, seen.len())]);
        for room in seen {
            plan.push(vec![recased(random, &room)]);
        }
    }
    plan
}

/// Some of the rooms, one in `sparse`, in any order.
fn some_of(random: &mut Random, rooms: &[Word], sparse: usize) -> Vec<Word> {
    let mut some: Vec<Word> = rooms
        .iter()
        .filter(|_| random.once_in(sparse))
        .cloned()
        .collect();
    random.shuffle(&mut some);
    some
}

/// Rooms and a sight text whose form is just under, at or over 65,536 bytes: 62 rooms of 16 letters
/// see 54 or 55 of each other, and two rooms that nobody sees tune the length byte by byte.
pub fn dense(random: &mut Random) -> (Vec<Word>, Plan) {
    let both = random.from_to(11, 16) as usize;
    let first = 1 + random.under(both - 1);
    let mut rooms: Vec<Word> = (0..62).map(|i| format!("r{i:015}").into_bytes()).collect();
    rooms.push(vec![b'p'; first]);
    rooms.push(vec![b'q'; both - first]);
    let mut plan = Plan::new();
    for observer in 0..62 {
        let count = if observer < 35 { 55 } else { 54 };
        let mut seen: Vec<usize> = (0..62).collect();
        random.shuffle(&mut seen);
        plan.push(vec![
            rooms[observer].clone(),
            count.to_string().into_bytes(),
        ]);
        plan.extend(seen[..count].iter().map(|&room| vec![rooms[room].clone()]));
    }
    (rooms, plan)
}

/// A plan written with one space and LF only.
pub fn plain(plan: &Plan) -> Vec<u8> {
    let mut text = Vec::new();
    for words in plan {
        text.extend(words.join(&b' '));
        text.push(b'\n');
    }
    text
}

/// A plan written with odd spacing, blank lines, either line end, and maybe no last one.
pub fn spaced(random: &mut Random, plan: &Plan) -> Vec<u8> {
    let oddness = random.pick(&[0, 3, 8]);
    let ends: &[&str] = random.pick(&[&["\n"] as &[&str], &["\r\n"], &["\n", "\r\n"]]);
    let blanks = ["", " ", "\t", "  ", " \t ", "    "];
    let odd = |random: &mut Random| oddness > 0 && random.once_in(oddness);
    let mut text = Vec::new();
    for words in plan {
        while odd(random) {
            text.extend_from_slice(random.pick(&blanks).as_bytes());
            text.extend_from_slice(random.pick(ends).as_bytes());
        }
        let indent = if odd(random) {
            random.pick(&blanks)
        } else {
            ""
        };
        text.extend_from_slice(indent.as_bytes());
        for (i, word) in words.iter().enumerate() {
            let gap = if odd(random) {
                random.pick(&blanks[1..])
            } else {
                " "
            };
            text.extend_from_slice(if i > 0 { gap.as_bytes() } else { b"" });
            text.extend_from_slice(word);
        }
        if odd(random) {
            text.extend_from_slice(random.pick(&blanks).as_bytes());
        }
        text.extend_from_slice(random.pick(ends).as_bytes());
    }
    trim_end(random, &mut text);
    text
}

/// Takes the last line end away, now and then.
fn trim_end(random: &mut Random, text: &mut Vec<u8>) {
    if random.once_in(4) && text.pop().is_some() && text.last() == Some(&b'\r') {
        text.pop();
    }
}

/// Fills a text up to a length near the longest allowed, by blanks and line ends where lines end.
pub fn fill_up(random: &mut Random, text: &mut Vec<u8>) {
    let wanted = LONGEST + random.pick(&[0, 0, 1, 1, 2, 500]) - random.pick(&[0, 0, 0, 1, 5]);
    let ends: Vec<usize> = (0..text.len()).filter(|&at| text[at] == b'\n').collect();
    let at = if ends.is_empty() {
        text.len()
    } else {
        random.pick(&ends) + 1
    };
    if text.len() < wanted {
        let filler: Vec<u8> = match random.under(3) {
            0 => vec![b'\n'; wanted - text.len()],
            1 => vec![b' '; wanted - text.len()],
            _ => (text.len()..wanted)
                .map(|_| random.pick(b" \t\n"))
                .collect(),
        };
        text.splice(at..at, filler);
    }
}
