//! Runs cases on two sides and compares every answer and every byte of every lent slice. Each side is also
//! held to what M-100 says of door hooks, M-104 of rewritten layouts, M-107 of the order of two edits, M-108 of runs
//! of two benches, M-109 of mended floors, M-110 of texts that are alike but for one room's name and M-113 of floors that get a
//! tree.

use crate::answer::Fields;
use crate::benches;
use crate::calls::Calls;
use crate::digits;
use crate::doors;
use crate::fault::{self, Fault};
use crate::generate::bare::{self, Planting};
use crate::generate::cases::{case, Call, Case, Lent};
use crate::generate::screens::Screens;
use crate::generate::seams::{enough, Mending};
use crate::generate::sessions::{Edit, Move, Play};
use crate::journal::{LINK, PAINT};
use crate::order;
use crate::screens;
use crate::seams;
use crate::tally::Tally;
use crate::trees;

/// One side of a comparison: its calls, and a fault planted while they run.
#[derive(Clone, Copy)]
pub struct Side {
    pub calls: Calls,
    pub fault: Option<Fault>,
}

/// What one call answered, and all memory it was lent as it stands afterwards, guards included.
#[derive(Clone, Debug, PartialEq, Eq)]
pub struct Done {
    pub call: Call,
    pub fields: Fields,
    pub memory: Vec<(&'static str, Vec<u8>)>,
}

impl Done {
    /// The number answered; 0 is accepted.
    pub fn number(&self) -> u64 {
        self.fields[0].1
    }

    /// f as a journal call answered it.
    pub fn f(&self) -> u32 {
        self.fields[2].1 as u32
    }

    /// f and the bench as a journal call was handed them.
    pub fn session(&self) -> (u32, u32) {
        self.call.session().expect("a journal call")
    }

    /// The floor as the call left it.
    pub fn floor(&self) -> &[u8] {
        self.lent(0)
    }

    /// The journal as a journal call left it.
    pub fn journal(&self) -> &[u8] {
        self.lent(1)
    }

    /// A lent slice between its guards, by its number among those of the call.
    pub fn lent(&self, number: usize) -> &[u8] {
        let buffer = &self.memory[number].1;
        &buffer[GUARD..buffer.len() - GUARD]
    }
}

/// Bytes on either side of a lent slice that no call may touch. Odd, so that slices start anywhere.
pub const GUARD: usize = 37;
/// What stands there, and in outputs of whose old bytes nothing else is wanted.
pub const GUARD_BYTE: u8 = 0xA5;

/// Runs a case on one side: one call, a layout's form once more, a mending or a planting and what is asked of its result, all
/// calls with two pairs of texts, the calls of a session, or all that is played with a pair.
pub fn run(case: &Case, side: &Side) -> Vec<Done> {
    match case {
        Case::One { call, lent } => return run_one(*call, lent, side),
        Case::Mending(mending) => return run_mending(mending, side),
        Case::Planting(planting) => return run_planting(planting, side),
        Case::Screens(screens) => return run_screens(screens, side),
        Case::Session(_) | Case::Pair(_) => (),
    }
    let plays = case.plays();
    plays
        .iter()
        .flat_map(|play| run_session(play, side))
        .collect()
}

/// Runs one call. A layout's form that it wrote is then rewritten, to see that this changes no byte.
fn run_one(call: Call, lent: &[Lent], side: &Side) -> Vec<Done> {
    let done = run_call(call, lent, side);
    let again = digits::form(&done).map(|form| {
        let out = vec![GUARD_BYTE; form.len()];
        let lent = [("text", form.to_vec()), ("out", out)];
        run_call(Call::LayoutRewrite, &lent, side)
    });
    [Some(done), again].into_iter().flatten().collect()
}

/// Runs one call over slices that sit inside larger buffers, with the side's fault planted meanwhile.
fn run_call(call: Call, lent: &[Lent], side: &Side) -> Done {
    let guard = [GUARD_BYTE; GUARD];
    let mut memory: Vec<(&'static str, Vec<u8>)> = lent
        .iter()
        .map(|(name, bytes)| (*name, [&guard, &bytes[..], &guard].concat()))
        .collect();
    let mut slices: Vec<&mut [u8]> = memory.iter_mut().map(|(_, b)| inside_mut(b)).collect();
    fault::plant(side.fault);
    let fields = make(call, &side.calls, &mut slices);
    fault::plant(None);
    Done {
        call,
        fields,
        memory,
    }
}

/// The lent slice between its guards.
fn inside_mut(buffer: &mut [u8]) -> &mut [u8] {
    let end = buffer.len() - GUARD;
    &mut buffer[GUARD..end]
}

/// Makes the call and gives the fields of its answer.
#[rustfmt::skip]
fn make(call: Call, calls: &Calls, lent: &mut [&mut [u8]]) -> Fields {
    match (call, lent) {
        (Call::Read, [b, w]) => (calls.read)(b, w).fields(),
        (Call::Rewrite, [b, w, out]) => (calls.rewrite)(b, w, out).fields(),
        (Call::Mend, [b, w, out, list]) => (calls.mend)(b, w, out, list).fields(),
        (Call::Tree, [b, w, out]) => (calls.tree)(b, w, out).fields(),
        (Call::Query { x, y }, [b, w]) => (calls.query)(b, w, x, y).fields(),
        (Call::Edit { f, edit: Edit { bench, tag, place, to } }, [floor, journal]) => {
            let edit = match tag {
                PAINT => calls.paint,
                LINK => calls.link,
                _ => calls.nudge,
            };
            edit(floor, journal, f, bench, place, to).fields()
        }
        (Call::Undo { f, bench }, [b, j]) => (calls.undo)(b, j, f, bench).fields(),
        (Call::PutBack { f, bench }, [b, j]) => (calls.put_back)(b, j, f, bench).fields(),
        (Call::LayoutRewrite, [text, out]) => (calls.layout_rewrite)(text, out).fields(),
        (Call::LayoutRename { room }, [text, name, out]) => (calls.layout_rename)(text, room, name, out).fields(),
        (Call::SightRewrite, [layout, vis, out]) => (calls.sight_rewrite)(layout, vis, out).fields(),
        (Call::SightRename { room }, [layout, vis, name, out]) =>
            (calls.sight_rename)(layout, vis, room, name, out).fields(),
        (Call::SightRow { room }, [layout, vis]) => (calls.sight_row)(layout, vis, room).fields(),
        (Call::LinkCheck, [b, w, layout]) => (calls.link_check)(b, w, layout).fields(),
        (Call::Caption { room }, [visitor, house]) => (calls.caption)(visitor, house, room).fields(),
        (call, lent) => unreachable!("{call:?} with {} slices", lent.len()),
    }
}

/// Mends a floor. What is written is read, rewritten and mended again, in the same lent memory; where an output was
/// too short, the floor is mended once more with room enough.
fn run_mending(mending: &Mending, side: &Side) -> Vec<Done> {
    let work = ("work", mending.work.clone());
    let outputs = || [("out", mending.out.clone()), ("list", mending.list.clone())];
    let mend = |floor: &[u8], [out, list]: [Lent; 2]| {
        let lent = [("floor", floor.to_vec()), work.clone(), out, list];
        run_call(Call::Mend, &lent, side)
    };
    let mut all = vec![mend(&mending.floor, outputs())];
    match all[0].number() {
        0 => {
            let Some(result) = seams::result(&all[0]).map(<[u8]>::to_vec) else {
                return all; // says that it wrote more than there is
            };
            let [out, list] = outputs();
            let lent = [("floor", result.clone()), work.clone(), out.clone()];
            all.push(run_call(Call::Read, &lent[..2], side));
            all.push(run_call(Call::Rewrite, &lent, side));
            all.push(mend(&result, [out, list]));
        }
        40 => {
            let [out, list] = enough(&mending.floor).map(|length| vec![GUARD_BYTE; length]);
            all.push(mend(&mending.floor, [("out", out), ("list", list)]));
        }
        _ => (),
    }
    all
}

/// Gives a floor its tree, and asks the reader about the floor under some tree. What is written is read, rewritten and
/// planted again, in the same lent memory; where the output was too short, the floor gets its tree with room enough.
fn run_planting(planting: &Planting, side: &Side) -> Vec<Done> {
    let call = |call: Call, floor: &[u8], out: &[u8]| {
        let lent = [
            ("floor", floor.to_vec()),
            ("work", planting.work.clone()),
            ("out", out.to_vec()),
        ];
        let slices = if call == Call::Read { 2 } else { 3 };
        run_call(call, &lent[..slices], side)
    };
    let (floor, out) = (&planting.floor, &planting.out);
    let mut all = vec![
        call(Call::Tree, floor, out),
        call(Call::Read, &bare::under_any_tree(floor), &[]),
    ];
    match all[0].number() {
        0 => {
            let Some(result) = seams::result(&all[0]).map(<[u8]>::to_vec) else {
                return all; // says that it wrote more than there is
            };
            let asked = [Call::Read, Call::Rewrite, Call::Tree];
            all.extend(asked.map(|ask| call(ask, &result, out)));
        }
        40 => {
            let room = vec![GUARD_BYTE; bare::enough(floor)];
            all.push(call(Call::Tree, floor, &room));
        }
        _ => (),
    }
    all
}

/// Makes all calls with two pairs of texts, in their order.
fn run_screens(screens: &Screens, side: &Side) -> Vec<Done> {
    let calls = screens.calls();
    calls
        .iter()
        .map(|(call, lent)| run_call(*call, lent, side))
        .collect()
}

/// Runs a session: every call goes on with the floor, the journal and f that the last one left.
fn run_session(play: &Play, side: &Side) -> Vec<Done> {
    let mut lent = vec![
        ("floor", play.floor.clone()),
        ("journal", play.journal.clone()),
    ];
    let mut kept = play.f;
    let mut handed_in = None;
    let mut all = Vec::new();
    for next in &play.moves {
        let f = handed_in.unwrap_or(kept);
        match *next {
            Move::HandIn { f } => handed_in = Some(f),
            Move::SpoilFloor { at, by } => spoil(&mut lent[0].1, at, by),
            Move::SpoilJournal { at, by } => spoil(&mut lent[1].1, at, by),
            Move::Call(call) => {
                let mut one = run_call(call.with(f), &lent, side);
                for ((_, bytes), (_, buffer)) in lent.iter_mut().zip(&mut one.memory) {
                    bytes.copy_from_slice(inside_mut(buffer));
                }
                if handed_in.is_none() || one.number() == 0 {
                    kept = one.f();
                }
                handed_in = None;
                all.push(one);
            }
        }
    }
    all
}

fn spoil(bytes: &mut [u8], at: usize, by: u8) {
    if let Some(byte) = bytes.get_mut(at) {
        *byte ^= by;
    }
}

/// The differences between what two sides did in one case, in words.
pub fn differences(one: &[Done], other: &[Done]) -> Vec<String> {
    let mut found = Vec::new();
    for (number, (one, other)) in one.iter().zip(other).enumerate() {
        for ((name, left), (_, right)) in one.fields.iter().zip(&other.fields) {
            if left != right {
                let call = one.call.name();
                found.push(format!(
                    "call {number} {call}: {name} is {left}, other {right}"
                ));
            }
        }
        for ((name, left), (_, right)) in one.memory.iter().zip(&other.memory) {
            if let Some(at) = first_difference(left, right) {
                found.push(format!(
                    "call {number} {}: {name} byte {} is {:02x}, other {:02x}",
                    one.call.name(),
                    at as i64 - GUARD as i64,
                    left[at],
                    right[at]
                ));
            }
        }
    }
    found
}

/// The first byte at which two buffers of one length differ.
pub fn first_difference(left: &[u8], right: &[u8]) -> Option<usize> {
    (0..left.len()).find(|&at| left[at] != right[at])
}

/// The sessions that were played in a case, each with what a side did with it.
pub fn played<'a>(plays: &'a [Play], mut all: &'a [Done]) -> Vec<(&'a Play, &'a [Done])> {
    let mut played = Vec::new();
    for play in plays {
        let (of_play, rest) = all.split_at(play.calls());
        played.push((play, of_play));
        all = rest;
    }
    played
}

/// The sentences about layouts, texts that are alike, pairs, runs, mended floors and trees that one side broke in a case.
fn broken(case: &Case, all: &[Done]) -> Vec<String> {
    let mut found = match case {
        Case::Pair(pair) => order::broken(pair, all),
        Case::Mending(mending) => seams::broken(mending, all),
        Case::Planting(planting) => trees::broken(planting, all),
        Case::Screens(screens) => screens::broken(screens, all),
        Case::One { .. } => [digits::broken(all), doors::broken(all)].concat(),
        Case::Session(_) => Vec::new(),
    };
    for (play, of_play) in played(&case.plays(), all) {
        found.extend(benches::broken(play, of_play));
    }
    found
}

/// All that is wrong with what both sides did in one case, in words: which sentence about layouts, texts
/// that are alike, pairs, runs, mended floors or trees either of them broke, and where they differ.
pub fn wrong(case: &Case, sides: [&Side; 2], done: [&[Done]; 2]) -> Vec<String> {
    let mut found = Vec::new();
    for (side, all) in sides.iter().zip(done) {
        for sentence in broken(case, all) {
            found.push(format!("{} breaks: {sentence}", side.calls.name));
        }
    }
    let [one, other] = done;
    if one != other {
        found.extend(differences(one, other));
    }
    found
}

/// Runs cases 0 to `cases` - 1 of a seed on both sides. Tells each before it starts, and then each
/// in which the sides differ or one of them breaks a sentence about layouts, texts, pairs, runs, mended floors or trees.
pub fn compare(
    cases: u64,
    seed: u64,
    sides: [&Side; 2],
    starts: impl Fn(u64),
    mut differs: impl FnMut(u64, Vec<String>),
) -> Tally {
    let mut tally = Tally::default();
    for number in 0..cases {
        starts(number);
        let case = case(seed, number);
        let [one, other] = sides.map(|side| run(&case, side));
        tally.add(&case, &one);
        let found = wrong(&case, sides, [&one, &other]);
        if one != other || !found.is_empty() {
            tally.different += 1;
            differs(number, found);
        }
    }
    tally
}
