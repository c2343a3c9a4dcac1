//! Pairs for request M-110: two layouts that are alike but for the name of one room, there and in its hooks, and two sight
//! texts that are alike but for that name in its places. What else likeness leaves free is typed anew for each of them.

use super::alike::{self, Names};
use super::cases::{any_floor, layout_text, typed, work, Call, Lent};
use super::floors::{any_wish, floor};
use super::hooks;
use super::random::Random;
use super::texts::{self, line, recased, Plan, Word};
use crate::compare::GUARD_BYTE;
use crate::text::{LONGEST, LONGEST_NAME};
use crate::{layout, sight};

/// Both pairs, and what is asked of them.
#[derive(Clone, Debug)]
pub struct Screens {
    /// Two accepted layouts, and two sight texts, each accepted with its layout.
    pub layouts: [Vec<u8>; 2],
    pub sights: [Vec<u8>; 2],
    /// How many rooms either layout has; the room whose name may differ, which may be past the last; and its name as typed
    /// in either layout, without any letter where there is no such room.
    pub rooms: usize,
    pub room: u32,
    pub names: [Word; 2],
    /// The house text, and a floor with work memory, the same for both.
    pub house: Vec<u8>,
    pub floor: Vec<u8>,
    pub work: Vec<u8>,
    /// The rooms whose rows and captions are asked for.
    pub asked: Vec<u32>,
    /// Names typed for the room of the first pair: any, and one with a line break.
    pub typed: Word,
    pub with_break: Word,
    /// How many bytes are lent for the forms of a layout and of a sight text: the plain ones, and those with a typed name.
    pub plain: [usize; 2],
    pub renamed: [usize; 2],
}

/// A call and what is lent to it.
type Lending = (Call, Vec<Lent>);

impl Screens {
    /// Whether the layouts have the room.
    pub fn has_room(&self) -> bool {
        (self.room as usize) < self.rooms
    }

    /// How many calls are made with either pair.
    pub fn calls_of_each(&self) -> usize {
        3 + 2 * self.asked.len()
    }

    /// All calls: those with the first pair, those with the second, then the first with each of both typed names.
    pub fn calls(&self) -> Vec<Lending> {
        let mut calls = Vec::new();
        for pair in 0..2 {
            calls.extend(self.calls_of(pair));
        }
        for name in [&self.typed, &self.with_break] {
            calls.extend(self.renames(name));
        }
        calls
    }

    /// Both plain forms, the link check, and the row and caption of each room that is asked for.
    fn calls_of(&self, pair: usize) -> Vec<Lending> {
        let layout = || ("layout", self.layouts[pair].clone());
        let sight = || ("vis", self.sights[pair].clone());
        let house = || ("house", self.house.clone());
        let [layout_out, sight_out] = self.plain.map(lent_out);
        let (floor, work) = (("floor", self.floor.clone()), ("work", self.work.clone()));
        let mut calls = vec![
            (Call::LayoutRewrite, vec![layout(), layout_out]),
            (Call::SightRewrite, vec![layout(), sight(), sight_out]),
            (Call::LinkCheck, vec![floor, work, layout()]),
        ];
        for &room in &self.asked {
            calls.push((Call::SightRow { room }, vec![layout(), sight()]));
            calls.push((Call::Caption { room }, vec![layout(), house()]));
        }
        calls
    }

    /// Both forms of the first pair with this name for the room.
    fn renames(&self, name: &[u8]) -> [Lending; 2] {
        let room = self.room;
        let layout = ("layout", self.layouts[0].clone());
        let sight = ("vis", self.sights[0].clone());
        let name = ("name", name.to_vec());
        let [layout_out, sight_out] = self.renamed.map(lent_out);
        let of_layout = vec![layout.clone(), name.clone(), layout_out];
        let of_sight = vec![layout, sight, name, sight_out];
        [
            (Call::LayoutRename { room }, of_layout),
            (Call::SightRename { room }, of_sight),
        ]
    }
}

/// An output full of guard bytes, so that it shows where nothing is written.
fn lent_out(length: usize) -> Lent {
    ("out", vec![GUARD_BYTE; length])
}

/// Any pair, now and then with forms of about the greatest length.
pub fn screens(random: &mut Random) -> Screens {
    let is_dense = random.once_in(60);
    let (rooms, sight) = match is_dense {
        true => texts::dense(random),
        false => small(random),
    };
    let room = room(random, rooms.len(), is_dense);
    let layout = layout_plan(random, &rooms, room as usize);
    let mut new = rooms.clone();
    if let Some(name) = new.get_mut(room as usize) {
        *name = new_name(random, &rooms, room as usize, &layout);
    }
    let [layouts, sights] = both(random, [&layout, &sight], [&rooms, &new]);
    let typed = match random.under(4) {
        0 => typed(random, &rooms),
        1 => new.get(room as usize).cloned().unwrap_or_default(),
        _ => any_new_name(random, &rooms, room as usize, &layout),
    };
    Screens {
        rooms: rooms.len(),
        room,
        names: [&rooms, &new].map(|all| all.get(room as usize).cloned().unwrap_or_default()),
        house: house(random, &rooms),
        floor: linked_floor(random, rooms.len()),
        work: work(random),
        asked: asked(random, rooms.len(), room, is_dense),
        plain: plain(random, &layouts, &sights),
        renamed: renamed(random, [&layouts[0], &sights[0]], room, &typed),
        typed,
        with_break: with_break(random),
        layouts,
        sights,
    }
}

/// Both layouts and both sight texts: the same plans, typed twice.
fn both(random: &mut Random, plans: [&Plan; 2], names: [&[Word]; 2]) -> [[Vec<u8>; 2]; 2] {
    let old = names[0];
    let layouts = names.map(|new| {
        let plan = alike::layout(random, plans[0], Names { old, new });
        alike::spaced(random, &plan)
    });
    let sights = names.map(|new| {
        let plan = alike::sight(random, plans[1], Names { old, new });
        alike::spaced(random, &plan)
    });
    [layouts, sights]
}

/// Some rooms, mostly few, and a sight text over them.
fn small(random: &mut Random) -> (Vec<Word>, Plan) {
    let count = match random.under(24) {
        0 => 64,
        1 => random.from_to(7, 63),
        _ => random.from_to(1, 6),
    };
    let rooms = texts::room_names(random, count as usize);
    let mut sight = texts::sight(random, &rooms);
    shorten(&mut sight);
    (rooms, sight)
}

/// Takes the last observers away where the text would be too long if all names were of the greatest length.
fn shorten(sight: &mut Plan) {
    let most = LONGEST / (LONGEST_NAME + b" 64\n".len());
    if sight.len() > most {
        let is_observer = |&at: &usize| sight[at].len() == 2;
        let end = (0..=most).rfind(is_observer);
        sight.truncate(end.unwrap_or(0));
    }
}

/// The room whose name may differ. In a dense text mostly one of the last two, which tune the length.
fn room(random: &mut Random, rooms: usize, is_dense: bool) -> u32 {
    match random.under(16) {
        0 => rooms as u32 + random.pick(&[0, 0, 1, 63]),
        1 => (rooms as u32).max(random.odd_word()),
        2..=12 if is_dense => (rooms - 1 - random.under(2)) as u32,
        _ => random.under(rooms) as u32,
    }
}

/// A layout with all four sections, some of them without entries. Often all hooks are in the room.
fn layout_plan(random: &mut Random, rooms: &[Word], room: usize) -> Plan {
    let mut plan = vec![line(&["beginlayout"])];
    texts::add_section(&mut plan, random, "roomcount", rooms);
    for keyword in ["trackcount", "obstaclecount"] {
        let size = random.once_in(2).then(|| texts::section_size(random));
        let mut names = Vec::new();
        for _ in 0..size.unwrap_or(0) {
            names.push(match random.once_in(4) {
                true => hooks::recased_one(random, rooms),
                false => texts::name(random),
            });
        }
        texts::add_section(&mut plan, random, keyword, &names);
    }
    let near = match rooms.get(room..=room) {
        Some(near) if random.once_in(3) => near,
        _ => rooms,
    };
    let count = match random.once_in(4) {
        true => 0,
        false => texts::section_size(random),
    };
    hooks::add(&mut plan, random, near, count);
    plan.push(line(&["donelayout"]));
    plan
}

/// A name for the room that no other room has.
fn new_name(random: &mut Random, rooms: &[Word], room: usize, layout: &Plan) -> Word {
    loop {
        let name = any_new_name(random, rooms, room, layout);
        let has_it = |(other, its): (usize, &Word)| other != room && name.eq_ignore_ascii_case(its);
        if !rooms.iter().enumerate().any(has_it) {
            return name;
        }
    }
}

/// A new name, of the greatest or least length now and then; the room's own in other letters; that of a track, obstacle or
/// door; or one that begins like a room's.
fn any_new_name(random: &mut Random, rooms: &[Word], room: usize, layout: &Plan) -> Word {
    match random.under(8) {
        0 => match rooms.get(room) {
            Some(own) => recased(random, own),
            None => texts::name(random),
        },
        1 | 2 => {
            let of_others: Vec<&Word> = entry_names(layout, rooms.len());
            match of_others.get(random.under(of_others.len())) {
                Some(name) => recased(random, name),
                None => texts::name(random),
            }
        }
        3 | 4 => texts::akin_to_one(random, rooms),
        5 => {
            let length = random.pick(&[1, LONGEST_NAME]);
            (0..length).map(|_| random.pick(b"klmKLM5_")).collect()
        }
        _ => texts::name(random),
    }
}

/// The names of tracks and obstacles, the only lines of four words behind the rooms, and of doors.
fn entry_names(layout: &Plan, rooms: usize) -> Vec<&Word> {
    let behind = layout[2 + rooms..].iter();
    behind
        .filter_map(|words| match words.len() {
            4 => words.first(),
            9.. => words.get(1),
            _ => None,
        })
        .collect()
}

/// A house text with more rooms, as many or fewer, some of them named as the visitor's are; now and then a damaged one.
fn house(random: &mut Random, rooms: &[Word]) -> Vec<u8> {
    let count = match random.under(4) {
        0 => random.under(rooms.len() + 1),
        1 => rooms.len(),
        _ => (rooms.len() + 1 + random.under(4)).min(64),
    };
    let names = match random.once_in(3) && count <= rooms.len() {
        true => rooms[rooms.len() - count..].to_vec(),
        false => texts::room_names(random, count),
    };
    let damaged = random.once_in(4);
    layout_text(random, &names, damaged)
}

/// A floor, mostly a good one whose transitions lead to rooms about the last.
fn linked_floor(random: &mut Random, rooms: usize) -> Vec<u8> {
    if random.once_in(4) {
        return any_floor(random);
    }
    let wish = any_wish(random);
    let mut model = floor(random, wish);
    let most = random.pick(&[rooms - 1, rooms - 1, rooms, rooms + 1, 63]);
    for [_, transition] in &mut model.edges {
        let near = most.saturating_sub(random.under(3)).min(63) as u32;
        *transition = random.pick(&[u32::MAX, 0, near, near]);
    }
    model.bytes(random)
}

/// The rooms asked for: all where they are few, else those about the room and the ends and some others; of a dense text
/// still fewer, for each row takes long. Some are past the last.
fn asked(random: &mut Random, rooms: usize, room: u32, is_dense: bool) -> Vec<u32> {
    let count = rooms as u32;
    let any = [0; 2].map(|_: i32| random.under(rooms) as u32);
    let ends = [0, count - 1, count];
    let beside = [room.saturating_sub(1), room.saturating_add(1)];
    let mut asked = match count {
        _ if is_dense => any.to_vec(),
        0..=6 => (0..=count).collect(),
        _ => [&ends[..], &beside, &any].concat(),
    };
    asked.push(room);
    if !is_dense && random.once_in(4) {
        asked.push(random.odd_word());
    }
    asked.sort_unstable();
    asked.dedup();
    asked
}

/// How many bytes are lent for the plain forms of both pairs.
fn plain(random: &mut Random, layouts: &[Vec<u8>; 2], sights: &[Vec<u8>; 2]) -> [usize; 2] {
    let out = || vec![0; LONGEST];
    let of_layouts = [0, 1].map(|pair| layout::rewrite(&layouts[pair], &mut out()).length);
    let of_sights =
        [0, 1].map(|pair| sight::rewrite(&layouts[pair], &sights[pair], &mut out()).length);
    [of_layouts, of_sights].map(|lengths| room_for(random, lengths))
}

/// Room for the longer of two forms, for the shorter alone, or for neither. A form that is too long whatever is lent has
/// length 0 here.
fn room_for(random: &mut Random, lengths: [u32; 2]) -> usize {
    let [one, other] = lengths.map(|length| length as usize);
    let (shorter, longer) = (one.min(other), one.max(other));
    match random.under(16) {
        0 => longer.saturating_sub(1),
        1 => shorter,
        2 => shorter.saturating_sub(1),
        3 => random.under(shorter + 1),
        4 => longer + random.under(100),
        5 => LONGEST + 1,
        _ => longer,
    }
}

/// How many bytes are lent for the forms of the first pair with a typed name: mostly enough, and for a name that is refused
/// enough for any form.
fn renamed(random: &mut Random, pair: [&[u8]; 2], room: u32, name: &[u8]) -> [usize; 2] {
    let out = || vec![0; LONGEST];
    let lengths = [
        layout::rename(pair[0], room, name, &mut out()).length,
        sight::rename(pair[0], pair[1], room, name, &mut out()).length,
    ];
    lengths.map(|length| match (length as usize, random.under(8)) {
        (0, _) => LONGEST,
        (length, 0) => length - 1,
        (length, 1..=3) => length,
        (length, _) => length + 100,
    })
}

/// A name with a line break in it, at the start, within or at the end; what stands about it may be no name either.
fn with_break(random: &mut Random) -> Word {
    let mut part = || match random.under(4) {
        0 => Vec::new(),
        1 => b"x 0 0 0".to_vec(),
        _ => texts::name(random),
    };
    let [before, behind] = [part(), part()];
    let line_break = random.pick(&["\n", "\n", "\r", "\r\n"]);
    [&before, line_break.as_bytes(), &behind].concat()
}
