//! Edits of two benches under one journal: paint, link, nudge, undo and put-back. A record is a tag
//! (1 byte), the length 13 (2 bytes), the bench (1 byte), the place, the old and the new four bytes:
//! 16 bytes in all.

use crate::answer::{refuse, refuse_if, Checked, Refusal, Session};
use crate::fault::{planted, Fault};
use crate::floor::border::transition_is_right;
use crate::floor::mesh::{walkable, LAST_MATERIAL};
use crate::floor::tables::{Table, Tables};
use crate::grid;
use crate::words::{put_word, word_at};

/// The length of one record.
pub const RECORD: usize = 16;
/// No journal keeps more records than this, however long it is.
pub const MOST_RECORDS: u32 = 4_096;
/// The length that every record states: bench, place, old and new bytes.
const STATED_LENGTH: [u8; 2] = [13, 0];
/// Where a record's bench, place, old and new bytes stand, behind its tag and its length.
pub const BENCH_AT: usize = 3;
pub const PLACE_AT: usize = 4;
const OLD_AT: usize = 8;
const NEW_AT: usize = 12;
/// The benches are 0 and 1.
pub const LAST_BENCH: u32 = 1;
/// One nudge adds at most so many sixty-fourths, either way.
pub const LARGEST_STEP: i64 = 640;

/// The tags of the three edits.
pub const PAINT: u8 = 1;
pub const LINK: u8 = 2;
pub const NUDGE: u8 = 3;

/// One change of four floor bytes by a bench.
#[derive(Clone, Copy, Debug, PartialEq, Eq)]
pub struct Record {
    pub tag: u8,
    pub bench: u8,
    pub place: u32,
    pub old: u32,
    pub new: u32,
}

impl Record {
    /// The record's 16 bytes.
    pub fn bytes(&self) -> [u8; RECORD] {
        let mut bytes = [0; RECORD];
        bytes[0] = self.tag;
        bytes[1..BENCH_AT].copy_from_slice(&STATED_LENGTH);
        bytes[BENCH_AT] = self.bench;
        put_word(&mut bytes, PLACE_AT, self.place);
        put_word(&mut bytes, OLD_AT, self.old);
        put_word(&mut bytes, NEW_AT, self.new);
        bytes
    }

    /// Record `number` of a journal that is long enough, as it stands.
    fn at(journal: &[u8], number: u32) -> Record {
        let bytes = &journal[number as usize * RECORD..][..RECORD];
        Record {
            tag: bytes[0],
            bench: bytes[BENCH_AT],
            place: word_at(bytes, PLACE_AT),
            old: word_at(bytes, OLD_AT),
            new: word_at(bytes, NEW_AT),
        }
    }

    /// Whether this is the bench's record. One with another bench byte than 0 or 1 is nobody's.
    pub fn is_of(&self, bench: u32) -> bool {
        u32::from(self.bench) == bench
    }

    /// Whether both records change the same field.
    fn is_of_field(&self, other: &Record) -> bool {
        (self.tag, self.place) == (other.tag, other.place)
    }
}

/// How many records fit into a journal of this length.
pub fn fitting(length: usize) -> u32 {
    (length / RECORD).min(MOST_RECORDS as usize) as u32
}

/// How many of the first f records are the bench's, whatever else they say.
pub fn held(journal: &[u8], f: u32, bench: u32) -> u32 {
    let own = |number: &u32| Record::at(journal, *number).is_of(bench);
    (0..f).filter(own).count() as u32
}

/// Where edits may write in a floor that broke none of the rules 1 to 6.
#[derive(Clone, Copy)]
struct Places {
    materials: usize,
    faces: u32,
    edge_entries: usize,
    edges: u32,
}

impl Places {
    /// Rules 1 to 6, with the reader's places.
    fn open(floor: &[u8]) -> Checked<Places> {
        let tables = Tables::open(floor)?;
        Ok(Places {
            materials: tables.place(Table::Materials, 0, 0),
            faces: tables.count(Table::Faces) as u32,
            edge_entries: tables.place(Table::Edges, 0, 0),
            edges: tables.count(Table::Edges) as u32,
        })
    }

    /// The byte where the four bytes of this place start; none for a wrong tag or a place outside.
    fn byte_of(&self, tag: u8, place: u32) -> Option<usize> {
        let entry = place as usize;
        match tag {
            PAINT if place < self.faces => Some(self.materials + 4 * entry),
            LINK if place < self.edges => Some(self.edge_entries + 8 * entry + 4),
            NUDGE if place < 12 => Some(12 + 4 * entry),
            _ => None,
        }
    }
}

/// Paints a face with a material.
pub fn paint(
    floor: &mut [u8],
    journal: &mut [u8],
    f: u32,
    bench: u32,
    face: u32,
    material: u32,
) -> Session {
    let repaint = |old: u32| (!breaks_22(old, material)).then_some(material).ok_or(22);
    edit(floor, journal, (f, bench), (PAINT, face), repaint)
}

/// Gives an edge entry a transition.
pub fn link(
    floor: &mut [u8],
    journal: &mut [u8],
    f: u32,
    bench: u32,
    entry: u32,
    transition: i32,
) -> Session {
    let word = transition as u32;
    let relink = |_: u32| transition_is_right(word).then_some(word).ok_or(23);
    edit(floor, journal, (f, bench), (LINK, entry), relink)
}

/// Moves one float of the use positions by `step` sixty-fourths.
pub fn nudge(
    floor: &mut [u8],
    journal: &mut [u8],
    f: u32,
    bench: u32,
    place: u32,
    step: i32,
) -> Session {
    let move_by = |old: u32| nudged(old, i64::from(step)).ok_or(24);
    edit(floor, journal, (f, bench), (NUDGE, place), move_by)
}

/// Rule 22: old or new material over 22, or walkability differs.
fn breaks_22(old: u32, new: u32) -> bool {
    old > LAST_MATERIAL || new > LAST_MATERIAL || walkable(old) != walkable(new)
}

/// The nudged float's bits, over whole sixty-fourths; nothing where rule 24 is broken.
fn nudged(old: u32, step: i64) -> Option<u32> {
    let new = grid::scaled(old)? + step;
    if step.abs() > LARGEST_STEP || new.abs() > grid::FARTHEST {
        return None;
    }
    if planted(Fault::MinusZero) && new == 0 && step == 0 {
        return Some(old);
    }
    Some(grid::bits_of(new))
}

/// An edit: 1 to 6, 28, 45, 21, the edit's own rule, 25. `change` gives the new word or its refusal.
fn edit(
    floor: &mut [u8],
    journal: &mut [u8],
    (f, bench): (u32, u32),
    field: (u8, u32),
    change: impl FnOnce(u32) -> Result<u32, u32>,
) -> Session {
    match checked_edit(floor, journal, (f, bench), field, change) {
        Ok((at, record)) => {
            lay_new(floor, at, record, f);
            journal[f as usize * RECORD..][..RECORD].copy_from_slice(&record.bytes());
            session(0, 0, f + 1)
        }
        Err(refusal) => session(refusal.number, refusal.place, f),
    }
}

/// Writes the new four bytes of record f on the floor.
fn lay_new(floor: &mut [u8], at: usize, record: Record, f: u32) {
    if planted(Fault::RecordOnly) && f > 0 {
        return;
    }
    put_word(floor, at, record.new);
    if planted(Fault::WidePaint) && record.tag == PAINT && at + 8 <= floor.len() {
        put_word(floor, at + 4, 0);
    }
}

/// The record of an edit and the byte it changes. Every refusal from 21 to 28 has the place asked for.
fn checked_edit(
    floor: &[u8],
    journal: &[u8],
    (f, bench): (u32, u32),
    (tag, place): (u8, u32),
    change: impl FnOnce(u32) -> Result<u32, u32>,
) -> Checked<(usize, Record)> {
    let places = opened(floor, journal, (f, bench), place)?;
    let refused = |number: u32| Refusal { number, place };
    let at = places.byte_of(tag, place).ok_or(refused(21))?;
    let old = word_at(floor, at);
    let new = change(old).map_err(refused)?;
    refuse_if(is_full(journal, f, bench), 25, place as usize)?;
    let record = Record {
        tag,
        bench: bench as u8,
        place,
        old,
        new,
    };
    Ok((at, record))
}

/// Rule 25: the bench holds its half or more, or no record is left to write.
fn is_full(journal: &[u8], f: u32, bench: u32) -> bool {
    let records = fitting(journal.len());
    let holds = match planted(Fault::HalfByF) {
        true => f,
        false => held(journal, f, bench),
    };
    holds >= records / 2 || f == records
}

/// What every call asks first: 1 to 6, then 28 at a place that the call decides, then 45 at f.
fn opened(
    floor: &[u8],
    journal: &[u8],
    (f, bench): (u32, u32),
    place_of_28: u32,
) -> Checked<Places> {
    let places = Places::open(floor)?;
    refuse_if(f > fitting(journal.len()), 28, place_of_28 as usize)?;
    let last = match planted(Fault::BenchTwo) {
        true => LAST_BENCH + 1,
        false => LAST_BENCH,
    };
    refuse_if(bench > last, 45, f as usize)?;
    Ok(places)
}

/// Takes out the bench's latest record: 1 to 6, 28, 45, 26, 43, 27.
pub fn undo(floor: &mut [u8], journal: &mut [u8], f: u32, bench: u32) -> Session {
    let undone = opened(floor, journal, (f, bench), f).and_then(|places| {
        let Some(own) = latest(journal, f, bench) else {
            return refuse(26, f as usize);
        };
        take_out(floor, journal, places, (f, bench), own)
    });
    match undone {
        Ok(()) => session(0, 0, f - 1),
        Err(refusal) => session(refusal.number, refusal.place, f),
    }
}

/// Takes out the bench's records from its latest on: 1 to 6, 28, 45. At 43 or 27 it stops and keeps
/// what was undone.
pub fn put_back(floor: &mut [u8], journal: &mut [u8], f: u32, bench: u32) -> Session {
    let places = match opened(floor, journal, (f, bench), f) {
        Ok(places) => places,
        Err(refusal) => return session(refusal.number, refusal.place, f),
    };
    let mut left = f;
    while let Some(own) = latest(journal, left, bench) {
        if let Err(refusal) = take_out(floor, journal, places, (left, bench), own) {
            let answered = match planted(Fault::StoppedPutBack) {
                true => f,
                false => left,
            };
            return session(refusal.number, refusal.place, answered);
        }
        left -= 1;
    }
    match planted(Fault::PutBackClearsF) {
        true => session(0, 0, 0),
        false => session(0, 0, left),
    }
}

/// The bench's latest of the first f records.
fn latest(journal: &[u8], f: u32, bench: u32) -> Option<u32> {
    let of = |bench: u32| {
        (0..f)
            .rev()
            .find(|&number| Record::at(journal, number).is_of(bench))
    };
    if planted(Fault::LatestOfAll) {
        return f.checked_sub(1);
    }
    match planted(Fault::OtherBenchTakenOut) {
        true => of(other(bench)).or(of(bench)),
        false => of(bench),
    }
}

/// The other bench.
fn other(bench: u32) -> u32 {
    u32::from(bench == 0)
}

/// Lays the old bytes of record `own` back and takes it out of the first f, or refuses by 43 or 27 at f.
fn take_out(
    floor: &mut [u8],
    journal: &mut [u8],
    places: Places,
    (f, bench): (u32, u32),
    own: u32,
) -> Checked<()> {
    let record = Record::at(journal, own);
    let blocks = |number: u32| {
        let later = Record::at(journal, number);
        later.is_of(other(bench)) && later.is_of_field(&record)
    };
    let blocked = (own + 1..f).any(blocks) && !planted(Fault::BlockedNotAsked);
    refuse_if(blocked, 43, f as usize)?;
    let undone = states_its_length(journal, own) && lay_old(floor, places, record);
    refuse_if(!undone, 27, f as usize)?;
    move_down(journal, own, f);
    Ok(())
}

/// Moves the records behind `gone` down by one. The bytes of the last one stay where they were too.
fn move_down(journal: &mut [u8], gone: u32, f: u32) {
    let [to, from, end] = [gone, gone + 1, f].map(|number| number as usize * RECORD);
    if planted(Fault::HoleLeft) {
        return;
    }
    let off = usize::from(planted(Fault::OneByteOff));
    journal.copy_within(from..end, to + off);
}

/// Whether record `number` states the length of all records.
fn states_its_length(journal: &[u8], number: u32) -> bool {
    journal[number as usize * RECORD + 1..].starts_with(&STATED_LENGTH)
}

/// Writes the record's old bytes where its new ones are, unless rule 27 forbids it; whether it did.
fn lay_old(floor: &mut [u8], places: Places, record: Record) -> bool {
    let Some(at) = places.byte_of(record.tag, record.place) else {
        return false;
    };
    let right = match record.tag {
        PAINT => !breaks_22(record.new, record.old),
        LINK => transition_is_right(record.old),
        _ => grid::scaled(record.old).is_some(),
    };
    if word_at(floor, at) != record.new || !right {
        return false;
    }
    let subtracts = planted(Fault::UndoSubtracts) && record.old == grid::MINUS_ZERO;
    put_word(floor, at, if subtracts { 0 } else { record.old });
    true
}

fn session(number: u32, place: u32, f: u32) -> Session {
    Session { number, place, f }
}
