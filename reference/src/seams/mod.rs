//! Mended floors: what request M-109 makes true of a mending, judged on what one side answered and wrote and
//! on what its own reader and its next mending say of that. The other side is not looked at, nor how this
//! implementation mends, so that a mistake that both sides share is noticed too.

mod seam;

use crate::compare::Done;
use crate::floor;
use crate::floor::tables::{Table, Tables};
use crate::floor::WORK;
use crate::generate::damage::LARGE;
use crate::generate::seams::Mending;
use seam::Seam;

/// What is said of every mending.
pub const NUMBERS: &str = "a mending is refused by 20, 1 to 15 or 40 alone";
pub const WORK_LEFT: &str = "the work memory is as the reader leaves it";
pub const NEITHER: &str = "a refused mending writes neither output and answers no lengths";
pub const TOO_SHORT: &str =
    "40 comes only where an output is shorter than what is written where there is room";

/// What is said of a mending that is not refused.
pub const REST: &str = "bytes past the form and past the list stay";
pub const TO_15: &str = "only a floor that 1 to 15 let through is mended";
pub const ACCEPTED: &str = "the result is accepted, with the floor's faces and its own loops";
pub const OWN_FORM: &str = "the result is its own fixed form";
pub const TWICE: &str = "mending the result writes the same bytes and an empty list";
pub const STAYS: &str =
    "header floats, root, vertices, materials, normals, distances and nodes stay";
pub const SAME_PLACE: &str = "every corner keeps its coordinates";
pub const LOWEST: &str = "no vertex lower than a corner has its coordinates";
pub const ONE_NUMBER: &str = "no two corners with equal coordinates have different numbers";
pub const CORNERS_LISTED: &str = "the list begins with the corners changed, by place";
pub const KEPT_OR_LISTED: &str =
    "a transition of 0 or more in a valid entry is kept or its half-edge listed";
pub const LOSSES_LISTED: &str = "the list ends with the half-edges that had a valid entry of 0 or \
    more and keep none, in order";
pub const ONE_ENTRY: &str =
    "an edge leads where the only valid entry of its half-edge led, else nowhere";
pub const LOOPS: &str = "a loop starts at the lowest border not yet used, goes on with the lowest \
    and stops on first return to its start";

/// All sentences.
pub const SENTENCES: [&str; 18] = [
    NUMBERS,
    WORK_LEFT,
    NEITHER,
    TOO_SHORT,
    REST,
    TO_15,
    ACCEPTED,
    OWN_FORM,
    TWICE,
    STAYS,
    SAME_PLACE,
    LOWEST,
    ONE_NUMBER,
    CORNERS_LISTED,
    KEPT_OR_LISTED,
    LOSSES_LISTED,
    ONE_ENTRY,
    LOOPS,
];

/// The refusal of an output that is too short.
const SHORT: u64 = 40;

/// The lent slices of a mending, by number.
const WORK_SLICE: usize = 1;
const OUT_SLICE: usize = 2;
const LIST_SLICE: usize = 3;

/// The bytes that a mending, a planting or a rewriting says it wrote to its output; nothing if there are not so many.
pub fn result(done: &Done) -> Option<&[u8]> {
    done.lent(OUT_SLICE).get(..done.fields[2].1 as usize)
}

/// The bytes that a mending says it wrote to its list.
fn list(done: &Done) -> Option<&[u8]> {
    done.lent(LIST_SLICE).get(..done.fields[3].1 as usize)
}

/// The sentences that one side broke with a mending.
pub fn broken(mending: &Mending, all: &[Done]) -> Vec<String> {
    let done = &all[0];
    let number = done.number();
    let mut said = vec![
        (NUMBERS, !matches!(number, 0..=15 | 20 | SHORT)),
        (WORK_LEFT, done.lent(WORK_SLICE) != work_left(&mending.work)),
    ];
    match (number, all) {
        (0, [done, read, rewritten, again]) => {
            said.push((REST, !rest_stays(mending, done)));
            said.push((TWICE, !is_same(done, again)));
            said.push((OWN_FORM, result(rewritten) != result(done)));
            said.extend(result_broken(mending, done, read));
        }
        (0, _) => said.push((REST, true)),
        (SHORT, [done, with_room]) => {
            said.push((NEITHER, !wrote_neither(mending, done)));
            said.push((TOO_SHORT, !is_too_short(mending, with_room)));
        }
        _ => said.push((NEITHER, !wrote_neither(mending, done))),
    }
    let broken = said.into_iter().filter(|(_, is_broken)| *is_broken);
    broken.map(|(sentence, _)| sentence.to_string()).collect()
}

/// The work memory as it must be left: zero so far as a reader needs it, untouched if that is too much.
pub fn work_left(lent: &[u8]) -> Vec<u8> {
    let mut work = lent.to_vec();
    if let Some(used) = work.get_mut(..WORK) {
        used.fill(0);
    }
    work
}

fn wrote_neither(mending: &Mending, done: &Done) -> bool {
    let no_lengths = done.fields[2].1 == 0 && done.fields[3].1 == 0;
    no_lengths && done.lent(OUT_SLICE) == mending.out && done.lent(LIST_SLICE) == mending.list
}

/// Whether the same floor is mended where there is room, and what is written there does not fit here.
fn is_too_short(mending: &Mending, with_room: &Done) -> bool {
    let lengths = [with_room.fields[2].1, with_room.fields[3].1].map(|length| length as usize);
    let fits = lengths[0] <= mending.out.len() && lengths[1] <= mending.list.len();
    with_room.number() == 0 && !fits
}

fn rest_stays(mending: &Mending, done: &Done) -> bool {
    let (Some(form), Some(list)) = (result(done), list(done)) else {
        return false;
    };
    done.lent(OUT_SLICE)[form.len()..] == mending.out[form.len()..]
        && done.lent(LIST_SLICE)[list.len()..] == mending.list[list.len()..]
}

/// Whether mending the result wrote it once more and nothing to the list.
fn is_same(done: &Done, again: &Done) -> bool {
    again.number() == 0 && result(again) == result(done) && list(again) == Some(&[])
}

/// What is said of the floor that a mending wrote.
fn result_broken(mending: &Mending, done: &Done, read: &Done) -> Vec<(&'static str, bool)> {
    let Ok((before, _)) = floor::check_to_15(&mending.floor) else {
        return vec![(TO_15, true)];
    };
    let accepted = result(done).and_then(|form| floor::check(form).ok());
    let (Some(after), Some(list)) = (accepted, list(done)) else {
        return vec![(ACCEPTED, true)];
    };
    let seam = Seam {
        before,
        after,
        list,
    };
    if !seam.rest_stays() {
        return vec![(STAYS, true)]; // corners may then be none of the floor's
    }
    let [corners, losses] = seam.listed();
    vec![
        (ACCEPTED, !seam.is_read_so(read)),
        (SAME_PLACE, !seam.corners_stay()),
        (LOWEST, !seam.corners_are_lowest()),
        (ONE_NUMBER, !seam.corners_have_one_number()),
        (CORNERS_LISTED, corners != seam.changed_corners()),
        (KEPT_OR_LISTED, !seam.nothing_is_lost_unsaid()),
        (LOSSES_LISTED, losses != seam.losses()),
        (ONE_ENTRY, !seam.edges_lead_as_before()),
        (LOOPS, !seam.loops_are_as_told()),
    ]
}

/// What mended floors were like.
#[derive(Clone, Copy, Debug, Default)]
pub struct Counts {
    pub mendings: usize,
    pub accepted: usize,
    /// Of those: the reader would have accepted the floor as it was; nothing changed but for the lists.
    pub read_before: usize,
    pub nothing_listed: usize,
    /// Of those: corners were changed, transitions lost or kept, and the borders make several loops.
    pub changed_corners: usize,
    pub lost_transitions: usize,
    pub kept_transitions: usize,
    pub several_loops: usize,
    /// Of those with changed corners: of at least `LARGE` faces.
    pub large: usize,
    /// Refused for the changed corners alone, by 8 and by 15.
    pub corners_by_8: usize,
    pub corners_by_15: usize,
    /// Refused by 40: the output too short, the list too short, both.
    pub short_out: usize,
    pub short_list: usize,
    pub short_both: usize,
}

impl Counts {
    /// Counts one mending by what a side did with it.
    pub fn add(&mut self, mending: &Mending, all: &[Done]) {
        self.mendings += 1;
        match (all[0].number(), all) {
            (0, _) => self.add_accepted(mending, &all[0]),
            (8 | 15, _) if floor::check_to_15(&mending.floor).is_ok() => match all[0].number() {
                8 => self.corners_by_8 += 1,
                _ => self.corners_by_15 += 1,
            },
            (SHORT, [_, with_room]) => {
                let is_short = |field: usize, lent: usize| with_room.fields[field].1 > lent as u64;
                match [
                    is_short(2, mending.out.len()),
                    is_short(3, mending.list.len()),
                ] {
                    [true, true] => self.short_both += 1,
                    [true, false] => self.short_out += 1,
                    _ => self.short_list += 1,
                }
            }
            _ => (),
        }
    }

    fn add_accepted(&mut self, mending: &Mending, done: &Done) {
        self.accepted += 1;
        self.read_before += usize::from(floor::check(&mending.floor).is_ok());
        let opened = result(done).and_then(|form| Tables::open(form).ok());
        let (Some(after), Some(list), Ok(before)) =
            (opened, list(done), Tables::open(&mending.floor))
        else {
            return;
        };
        let seam = Seam {
            before,
            after,
            list,
        };
        let [corners, losses] = seam.listed();
        self.nothing_listed += usize::from(list.is_empty());
        self.changed_corners += usize::from(!corners.is_empty());
        let is_large = seam.before.count(Table::Faces) >= LARGE;
        self.large += usize::from(is_large && !corners.is_empty());
        self.lost_transitions += usize::from(!losses.is_empty());
        self.kept_transitions += usize::from(seam.edges().iter().any(|(_, to)| *to >= 0));
        self.several_loops += usize::from(seam.loop_ends().len() > 1);
    }

    /// All counts in one line.
    pub fn line(&self) -> String {
        format!(
            "mendings {}, of which accepted {}; of these read before {}, with changed corners {} (large floors {}), with lost \
             transitions {}, with kept ones {}, with several loops {}, with an empty list {}; refused for \
             the changed corners by 8 {}, by 15 {}; by 40 for the output {}, for the list {}, for both {}",
            self.mendings,
            self.accepted,
            self.read_before,
            self.changed_corners,
            self.large,
            self.lost_transitions,
            self.kept_transitions,
            self.several_loops,
            self.nothing_listed,
            self.corners_by_8,
            self.corners_by_15,
            self.short_out,
            self.short_list,
            self.short_both
        )
    }
}
