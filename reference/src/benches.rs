//! Two benches on one floor: what request M-108 makes true of a run from an accepted floor and an empty
//! journal, judged on what one side answered and left. The other side is not looked at, so that a mistake
//! that both sides share is noticed too.

use crate::compare::Done;
use crate::floor;
use crate::generate::cases::Call;
use crate::generate::fields::{lay, word_of};
use crate::generate::sessions::{Edit, Move, Play};
use crate::grid;
use crate::journal::{fitting, held, Record, BENCH_AT, LAST_BENCH, NUDGE, RECORD};

/// What is said of every call of a run.
pub const ACCEPTED: &str = "the floor is accepted";
pub const PLAIN_LIST: &str = "the journal's records are those of a plain list";
pub const LAID_ON: &str =
    "the floor is the opening floor with the remaining records laid on in order";
pub const NEVER: &str = "1 to 6, 27 and 28 never come";
pub const BELOW_HALF: &str = "a bench below its half is never refused 25";
pub const OWN_GONE: &str = "a put-back that is not refused leaves no record of its bench";

/// What is said of two calls by the two benches, one right after the other.
pub const OPENING_FLOOR: &str =
    "put-backs by both benches, neither refused, leave the opening floor";
pub const ONE_CAN_UNDO: &str = "while a record is left, one of the two benches can take one out";

/// All sentences.
pub const SENTENCES: [&str; 8] = [
    ACCEPTED,
    PLAIN_LIST,
    LAID_ON,
    NEVER,
    BELOW_HALF,
    OWN_GONE,
    OPENING_FLOOR,
    ONE_CAN_UNDO,
];

/// The refusals of a bench that has no room, of one that the other bench hinders, and of a record that may
/// not be undone.
const NO_ROOM: u64 = 25;
const BLOCKED: u64 = 43;
const NO_UNDO: u64 = 27;

/// Whether a session is a run: from an accepted floor and an empty journal, and nothing but calls.
fn is_run(play: &Play) -> bool {
    let calls_alone = play.moves.iter().all(|next| matches!(next, Move::Call(_)));
    play.f == 0 && calls_alone && floor::check(&play.floor).is_ok()
}

/// The sentences that one side broke with a session, each with how it did. Nothing is said of calls
/// after the first that breaks one, since they come upon what that left.
pub fn broken(play: &Play, all: &[Done]) -> Vec<String> {
    if !is_run(play) {
        return Vec::new();
    }
    let mut list = Vec::new();
    for (number, done) in all.iter().enumerate() {
        let before = number.checked_sub(1).map(|before| &all[before]);
        let wrong = wrong_of(play, &mut list, before, done);
        if !wrong.is_empty() {
            let say = |sentence| format!("{sentence}: call {number} {}", done.call.name());
            return wrong.into_iter().map(say).collect();
        }
    }
    Vec::new()
}

/// The sentences that one call broke. `list` holds the records before it and then those after it.
fn wrong_of(
    play: &Play,
    list: &mut Vec<Record>,
    before: Option<&Done>,
    done: &Done,
) -> Vec<&'static str> {
    let (fit, bench) = (fitting(play.journal.len()), bench(done));
    let holds = list.iter().filter(|record| record.is_of(bench)).count();
    let is_below = holds < fit as usize / 2;
    let is_listed = go_on(play, list, done) && are_records(done, list);
    let is_same = before.map(Done::floor) == Some(done.floor());
    let own_left = held(done.journal(), done.f().min(fit), bench) > 0;
    let mut said = vec![
        (NEVER, matches!(done.number(), 1..=6 | 27 | 28)),
        (BELOW_HALF, done.number() == NO_ROOM && is_below),
        (PLAIN_LIST, !is_listed),
        (LAID_ON, laid_on(play, list) != done.floor()),
        (ACCEPTED, !is_same && floor::check(done.floor()).is_err()),
        (OWN_GONE, is_put_back(done) && own_left),
    ];
    if let Some(before) = before.filter(|before| are_by_both(before, done)) {
        let put_back = is_put_back(before) && is_put_back(done);
        said.extend([
            (OPENING_FLOOR, put_back && done.floor() != play.floor),
            (ONE_CAN_UNDO, took_none(before, done)),
        ]);
    }
    let broken = said.into_iter().filter(|(_, is_broken)| *is_broken);
    broken.map(|(sentence, _)| sentence).collect()
}

/// The bench of a journal call.
fn bench(done: &Done) -> u32 {
    done.session().1
}

/// Whether this is a put-back that was not refused.
fn is_put_back(done: &Done) -> bool {
    matches!(done.call, Call::PutBack { .. }) && done.number() == 0
}

/// Whether the two calls take records out, one for each bench.
fn are_by_both(one: &Done, other: &Done) -> bool {
    let take_out = |done: &Done| matches!(done.call, Call::Undo { .. } | Call::PutBack { .. });
    let benches = [bench(one), bench(other)];
    take_out(one) && take_out(other) && (benches == [0, LAST_BENCH] || benches == [LAST_BENCH, 0])
}

/// Whether there was a record to take out, but neither of the two calls did.
fn took_none(one: &Done, other: &Done) -> bool {
    let f = one.session().0;
    f > 0 && other.f() >= f
}

/// Whether the journal's first f records are those of the list.
fn are_records(done: &Done, list: &[Record]) -> bool {
    let bytes: Vec<u8> = list.iter().flat_map(Record::bytes).collect();
    done.f() as usize == list.len() && done.journal().starts_with(&bytes)
}

/// The opening floor with the records of the list laid on in order.
fn laid_on(play: &Play, list: &[Record]) -> Vec<u8> {
    let mut floor = play.floor.clone();
    for record in list {
        lay(&mut floor, (record.tag, record.place), record.new);
    }
    floor
}

/// Does with the list what the call did by its answer; whether that can be.
fn go_on(play: &Play, list: &mut Vec<Record>, done: &Done) -> bool {
    match (done.call, done.number()) {
        (Call::Edit { edit, .. }, 0) => match record_of(&laid_on(play, list), edit) {
            Some(record) => {
                list.push(record);
                true
            }
            None => false,
        },
        (Call::Undo { bench, .. }, 0) => take_latest(list, bench),
        (Call::PutBack { bench, .. }, 0) => {
            list.retain(|record| !record.is_of(bench));
            true
        }
        (Call::PutBack { f, bench }, BLOCKED) => (done.f()..f).all(|_| take_latest(list, bench)),
        _ => true,
    }
}

/// The record of an edit that is accepted on this floor.
fn record_of(floor: &[u8], edit: Edit) -> Option<Record> {
    let old = word_of(floor, edit.field())?;
    let new = match edit.tag {
        NUDGE => grid::bits_of(grid::scaled(old)? + i64::from(edit.to as i32)),
        _ => edit.to,
    };
    Some(Record {
        tag: edit.tag,
        bench: u8::try_from(edit.bench).ok()?,
        place: edit.place,
        old,
        new,
    })
}

/// Takes the bench's latest record out of the list, if there is one; whether there was.
fn take_latest(list: &mut Vec<Record>, bench: u32) -> bool {
    let latest = list.iter().rposition(|record| record.is_of(bench));
    latest.map(|number| list.remove(number)).is_some()
}

/// The bench byte of the last record before one was taken out. Its bytes stay where they were, whether
/// it was moved or is the one that went.
fn last_bench(journal: &[u8], f: u32) -> Option<u32> {
    let last = f.checked_sub(1)? as usize;
    journal
        .get(last * RECORD + BENCH_AT)
        .copied()
        .map(u32::from)
}

/// How often benches came upon each other, or upon the end of the journal.
#[derive(Clone, Copy, Debug, Default)]
pub struct Counts {
    /// Runs that were judged, and those of them that ended with both benches put back.
    pub runs: usize,
    pub both_put_back: usize,
    /// Undos that took out another record than the last of all, so that records moved.
    pub moved: usize,
    /// Put-backs that 43 or 27 stopped after they had taken something out.
    pub stopped_at_43: usize,
    pub stopped_at_27: usize,
    /// Edits refused 25, by the bench, at its half while the other bench was below its own and a record
    /// was left to write.
    pub at_half: [usize; 2],
    /// Edits refused 25 of benches below their half, since no record was left to write.
    pub no_record_left: usize,
}

impl Counts {
    /// Counts one session by what a side did with it.
    pub fn add(&mut self, play: &Play, all: &[Done]) {
        if is_run(play) {
            self.runs += 1;
            if let [.., one, other] = all {
                let both = are_by_both(one, other) && is_put_back(one) && is_put_back(other);
                self.both_put_back += usize::from(both);
            }
        }
        for done in all {
            match done.call {
                Call::Edit { .. } if done.number() == NO_ROOM => self.add_no_room(done),
                Call::Undo { f, bench } if done.number() == 0 => {
                    self.moved += usize::from(last_bench(done.journal(), f) != Some(bench));
                }
                Call::PutBack { f, .. } if done.f() < f => match done.number() {
                    BLOCKED => self.stopped_at_43 += 1,
                    NO_UNDO => self.stopped_at_27 += 1,
                    _ => (),
                },
                _ => (),
            }
        }
    }

    /// Looks why an edit had no room.
    fn add_no_room(&mut self, done: &Done) {
        let (f, bench) = done.session();
        let fit = fitting(done.journal().len());
        let is_below = |bench: u32| held(done.journal(), f.min(fit), bench) < fit / 2;
        self.no_record_left += usize::from(is_below(bench));
        let at_half = match bench {
            0 => &mut self.at_half[0],
            LAST_BENCH => &mut self.at_half[1],
            _ => return,
        };
        let alone = !is_below(bench) && is_below(LAST_BENCH - bench);
        *at_half += usize::from(alone && f < fit);
    }

    /// All counts in one line.
    pub fn line(&self) -> String {
        format!(
            "runs of two benches {}, of which ended with both put back {}; undos that moved records {}; \
             put-backs stopped after taking something out: at 43 {}, at 27 {}; edits refused 25 at a half \
             while the other bench had room: bench 0 {}, bench 1 {}; below a half with no record left {}",
            self.runs,
            self.both_put_back,
            self.moved,
            self.stopped_at_43,
            self.stopped_at_27,
            self.at_half[0],
            self.at_half[1],
            self.no_record_left
        )
    }
}
