//! One case of a comparison: a call with all that is lent to it, a floor mended, a floor that gets a tree, two pairs of texts, a
//! session of calls, or a pair of edits.

use super::bare::{self, Planting};
use super::edit_pairs::{self, Pair};
use super::random::Random;
use super::screens::{self, Screens};
use super::seams::{self, Mending};
use super::sessions::{self, Edit, Play};
use super::texts::{self, Word};
use super::{damage, floors, hooks, queries, text_damage};
use crate::floor::{OLD_WORK, WORK};
use crate::journal::{LINK, PAINT};
use crate::text::LONGEST;
use crate::{form, layout, sight};

/// A call and its numbers. What an edit writes is handed over as 32 bits.
#[derive(Clone, Copy, Debug, PartialEq, Eq)]
#[rustfmt::skip]
pub enum Call {
    Read,
    Rewrite,
    Mend,
    Tree,
    Query { x: i32, y: i32 },
    Edit { f: u32, edit: Edit },
    Undo { f: u32, bench: u32 },
    PutBack { f: u32, bench: u32 },
    LayoutRewrite,
    LayoutRename { room: u32 },
    SightRewrite,
    SightRename { room: u32 },
    SightRow { room: u32 },
    LinkCheck,
    Caption { room: u32 },
}

impl Call {
    /// The call's name, without what all exported names begin with.
    pub fn name(&self) -> &'static str {
        match self {
            Call::Read => "read",
            Call::Rewrite => "rewrite",
            Call::Mend => "mend",
            Call::Tree => "tree",
            Call::Query { .. } => "query",
            Call::Edit { edit, .. } => match edit.tag {
                PAINT => "paint",
                LINK => "link",
                _ => "nudge",
            },
            Call::Undo { .. } => "undo",
            Call::PutBack { .. } => "put_back",
            Call::LayoutRewrite => "layout_rewrite",
            Call::LayoutRename { .. } => "layout_rename",
            Call::SightRewrite => "sight_rewrite",
            Call::SightRename { .. } => "sight_rename",
            Call::SightRow { .. } => "sight_row",
            Call::LinkCheck => "link_check",
            Call::Caption { .. } => "caption",
        }
    }

    /// The same journal call with this f handed in.
    pub fn with(mut self, handed_in: u32) -> Call {
        if let Call::Edit { f, .. } | Call::Undo { f, .. } | Call::PutBack { f, .. } = &mut self {
            *f = handed_in;
        }
        self
    }

    /// f as handed in and the bench, if this is a journal call.
    pub fn session(&self) -> Option<(u32, u32)> {
        match *self {
            Call::Edit { f, edit } => Some((f, edit.bench)),
            Call::Undo { f, bench } | Call::PutBack { f, bench } => Some((f, bench)),
            _ => None,
        }
    }
}

/// A lent slice and what it is called.
pub type Lent = (&'static str, Vec<u8>);

/// One call with all its slices, in the order of the exported call, a floor mended, one that gets a tree, two pairs of texts that
/// are alike but for one name, a session, or a pair of edits.
#[derive(Clone, Debug)]
pub enum Case {
    One { call: Call, lent: Vec<Lent> },
    Mending(Mending),
    Planting(Planting),
    Screens(Box<Screens>),
    Session(Play),
    Pair(Pair),
}

impl Case {
    /// The sessions that are played: none, one, or all that a pair asks for.
    pub fn plays(&self) -> Vec<Play> {
        match self {
            Case::Session(play) => vec![play.clone()],
            Case::Pair(pair) => pair.plays(),
            _ => Vec::new(),
        }
    }
}

fn one<const N: usize>(call: Call, lent: [Lent; N]) -> Case {
    Case::One {
        call,
        lent: lent.to_vec(),
    }
}

/// One case in so many lends a small floor's outputs at every length in turn where it is mended, another one where it gets a
/// tree, and another one has a hook that is wrong in every way in turn. One in twice as many has two pairs of texts that are
/// alike.
pub const TURN: u64 = 20;

/// Case number `number` of the run with this seed.
pub fn case(seed: u64, number: u64) -> Case {
    let mut random = Random::of_case(seed, number);
    let random = &mut random;
    if number % TURN == TURN - 1 {
        return Case::Mending(seams::in_turn(random, (number / TURN) as usize));
    }
    if number % TURN == TURN / 2 {
        return hooked_in_turn(random, (number / TURN) as usize);
    }
    if number % TURN == 3 * TURN / 4 {
        return Case::Planting(bare::in_turn(random, (number / TURN) as usize));
    }
    if number % (2 * TURN) == TURN / 4 {
        return Case::Screens(Box::new(screens::screens(random)));
    }
    match random.under(65) {
        0..=11 => read(random),
        12 | 13 => rewrite(random),
        14..=18 => query(random),
        19..=28 => Case::Session(sessions::play(random)),
        29..=31 => layout_rewrite(random),
        32 | 33 => layout_rename(random),
        34 | 35 => sight_rewrite(random),
        36 | 37 => sight_rename(random),
        38 | 39 => sight_row(random),
        40 | 41 => link_check(random),
        42 => caption(random),
        43..=52 => Case::Mending(seams::mending(random)),
        53..=58 => Case::Planting(bare::planting(random)),
        _ => Case::Pair(edit_pairs::pair(random)),
    }
}

/// Work memory full of other bytes, now and then too little of it.
pub(super) fn work(random: &mut Random) -> Vec<u8> {
    let length = match random.under(20) {
        0 => random.pick(&[0, 1, WORK - 1, WORK - 1, OLD_WORK, 40_000]),
        1..=4 => WORK + 1 + random.under(2_000),
        _ => WORK,
    };
    random.bytes(length)
}

/// An output of the wanted length, or one less, or more, or nothing.
fn out(random: &mut Random, wanted: usize) -> Vec<u8> {
    let length = match random.under(10) {
        0 => wanted.saturating_sub(1),
        1 => 0,
        2 => wanted + 1,
        3 => wanted + random.under(100 + wanted.min(LONGEST)),
        4 => random.under(wanted + 1),
        _ => wanted,
    };
    random.bytes(length)
}

pub(super) fn any_floor(random: &mut Random) -> Vec<u8> {
    match random.under(10) {
        0 | 1 => damage::good(random),
        2 => damage::noise(random),
        _ => damage::bad(random),
    }
}

fn mostly_good_floor(random: &mut Random) -> Vec<u8> {
    match random.once_in(8) {
        true => any_floor(random),
        false => damage::good(random),
    }
}

fn read(random: &mut Random) -> Case {
    let floor = any_floor(random);
    one(Call::Read, [("floor", floor), ("work", work(random))])
}

fn rewrite(random: &mut Random) -> Case {
    let floor = mostly_good_floor(random);
    let mut space = vec![0; floor.len() + 16];
    let wanted = form::rewrite(&floor, &mut vec![0; WORK], &mut space).length;
    let work = work(random);
    let out = out(random, wanted as usize);
    one(
        Call::Rewrite,
        [("floor", floor), ("work", work), ("out", out)],
    )
}

fn query(random: &mut Random) -> Case {
    let (mut floor, [x, y]) = queries::floor_and_point(random);
    if random.once_in(12) {
        floor = any_floor(random);
    }
    let call = Call::Query { x, y };
    one(call, [("floor", floor), ("work", work(random))])
}

/// A text from a plan: spaced out, and damaged or filled up if wanted.
fn text_of(random: &mut Random, mut plan: texts::Plan, damaged: bool) -> Vec<u8> {
    let by_bytes = random.once_in(3);
    if damaged && !by_bytes {
        text_damage::plan(random, &mut plan);
    }
    let mut text = texts::spaced(random, &plan);
    if damaged && by_bytes {
        text_damage::bytes(random, &mut text);
    }
    if random.once_in(30) {
        texts::fill_up(random, &mut text);
    }
    text
}

pub(super) fn layout_text(random: &mut Random, rooms: &[Word], damaged: bool) -> Vec<u8> {
    if damaged && random.once_in(40) {
        let length = random.under(60);
        return random.bytes(length);
    }
    let plan = texts::layout(random, rooms);
    text_of(random, plan, damaged)
}

/// A layout one of whose hooks is wrong in the way of this turn; where it is right, the layout is mostly renamed.
fn hooked_in_turn(random: &mut Random, turn: usize) -> Case {
    let (rooms, plan) = texts::hooked_in_turn(random, turn);
    let text = texts::spaced(random, &plan);
    match hooks::is_right_in_turn(turn) && !random.once_in(3) {
        true => rename_of(random, text, &rooms),
        false => rewrite_of(random, text),
    }
}

fn layout_rewrite(random: &mut Random) -> Case {
    let rooms = texts::rooms(random);
    let damaged = !random.once_in(4);
    let text = layout_text(random, &rooms, damaged);
    rewrite_of(random, text)
}

fn rewrite_of(random: &mut Random, text: Vec<u8>) -> Case {
    let wanted = layout::rewrite(&text, &mut vec![0; LONGEST]).length;
    let out = out(random, wanted as usize);
    one(Call::LayoutRewrite, [("text", text), ("out", out)])
}

/// A typed name: new, a room's own or another's, one that begins like a room's, or wrong.
pub(super) fn typed(random: &mut Random, rooms: &[Word]) -> Word {
    match random.under(6) {
        0 if !rooms.is_empty() => {
            let name = rooms[random.under(rooms.len())].clone();
            texts::recased(random, &name)
        }
        1 => random
            .pick(&[
                "",
                "a_very_long_name1",
                "a b",
                "a-b",
                "1.5",
                "h\u{e4}ll",
                "a\n",
                "\0",
            ])
            .as_bytes()
            .to_vec(),
        2 => b"exactly_16_chars"[..1 + random.under(16)].to_vec(),
        3 => texts::akin_to_one(random, rooms),
        _ => texts::name(random),
    }
}

/// A room's number, now and then just or far outside.
fn room(random: &mut Random, rooms: &[Word]) -> u32 {
    match random.under(10) {
        0 => rooms.len() as u32,
        1 => random.odd_word(),
        _ => random.under(rooms.len()) as u32,
    }
}

/// A room to be renamed, half of the time one that a hook names, and the typed name, now and then that of a door.
fn renaming(random: &mut Random, rooms: &[Word], layout: &[u8]) -> (u32, Word) {
    let (mut room, mut name) = (room(random, rooms), typed(random, rooms));
    let layout = layout::read(layout).unwrap_or_default();
    if layout.hooks.is_empty() {
        return (room, name);
    }
    let [one, other] = [0; 2].map(|_: i32| &layout.hooks[random.under(layout.hooks.len())]);
    if random.once_in(2) {
        room = layout.room_named(&one.room).map_or(room, |at| at as u32);
    }
    if random.once_in(4) {
        name = texts::recased(random, &other.door);
    }
    (room, name)
}

fn layout_rename(random: &mut Random) -> Case {
    let rooms = texts::rooms(random);
    let damaged = random.once_in(6);
    let text = layout_text(random, &rooms, damaged);
    rename_of(random, text, &rooms)
}

fn rename_of(random: &mut Random, text: Vec<u8>, rooms: &[Word]) -> Case {
    let (room, name) = renaming(random, rooms, &text);
    let wanted = layout::rename(&text, room, &name, &mut vec![0; LONGEST]).length;
    let out = out(random, wanted as usize);
    let call = Call::LayoutRename { room };
    one(call, [("text", text), ("name", name), ("out", out)])
}

/// A layout and a sight text over it.
fn both_texts(random: &mut Random, damage: usize) -> (Vec<Word>, Vec<u8>, Vec<u8>) {
    if random.once_in(15) {
        let (rooms, plan) = texts::dense(random);
        let layout = layout_text(random, &rooms, false);
        return (rooms, layout, texts::plain(&plan));
    }
    let rooms = texts::rooms(random);
    let spoilt = random.once_in(damage * 4);
    let layout = layout_text(random, &rooms, spoilt);
    let plan = texts::sight(random, &rooms);
    let damaged = random.once_in(damage);
    let vis = text_of(random, plan, damaged);
    (rooms, layout, vis)
}

fn sight_rewrite(random: &mut Random) -> Case {
    let (_, layout, vis) = both_texts(random, 2);
    let wanted = sight::rewrite(&layout, &vis, &mut vec![0; 66_000]).length;
    let out = out(random, if wanted == 0 { 66_000 } else { wanted as usize });
    one(
        Call::SightRewrite,
        [("layout", layout), ("vis", vis), ("out", out)],
    )
}

fn sight_rename(random: &mut Random) -> Case {
    let (rooms, layout, vis) = both_texts(random, 6);
    let (room, name) = match rooms.len() == 64 && random.once_in(2) {
        true => (
            random.from_to(62, 63) as u32,
            vec![b'n'; 1 + random.under(16)],
        ),
        false => renaming(random, &rooms, &layout),
    };
    let wanted = sight::rename(&layout, &vis, room, &name, &mut vec![0; 66_000]).length;
    let out = out(random, if wanted == 0 { 66_000 } else { wanted as usize });
    let call = Call::SightRename { room };
    one(
        call,
        [
            ("layout", layout),
            ("vis", vis),
            ("name", name),
            ("out", out),
        ],
    )
}

fn sight_row(random: &mut Random) -> Case {
    let (rooms, layout, vis) = both_texts(random, 2);
    let room = room(random, &rooms);
    one(Call::SightRow { room }, [("layout", layout), ("vis", vis)])
}

/// A floor and a layout with any number of rooms, often just enough for its transitions.
fn link_check(random: &mut Random) -> Case {
    let rooms = match random.once_in(2) {
        true => random.pick(&[0, 1, 2, 3, 5, 6, 62, 63, 64]),
        false => 64,
    };
    let mut floor = mostly_good_floor(random);
    if random.once_in(2) {
        let wish = floors::any_wish(random);
        floor = floors::floor(random, wish).in_order();
    }
    let rooms = texts::room_names(random, rooms);
    let damaged = random.once_in(6);
    let layout = layout_text(random, &rooms, damaged);
    let work = work(random);
    one(
        Call::LinkCheck,
        [("floor", floor), ("work", work), ("layout", layout)],
    )
}

fn caption(random: &mut Random) -> Case {
    let (visitor, house) = (texts::rooms(random), texts::rooms(random));
    let damaged = [random.once_in(2), random.once_in(3)];
    let rooms = if random.once_in(2) { &visitor } else { &house };
    let room = room(random, rooms);
    let visitor = layout_text(random, &visitor, damaged[0]);
    let house = layout_text(random, &house, damaged[1]);
    let call = Call::Caption { room };
    one(call, [("visitor", visitor), ("house", house)])
}
