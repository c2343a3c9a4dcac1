//! Reading, querying, mending, planting, editing and rewriting at growing sizes: the library beside this implementation.

use crate::answer::Session;
use crate::calls::{Calls, OTHER, REFERENCE};
use crate::floor::WORK;
use crate::generate::fields::word_of;
use crate::generate::hooks;
use crate::generate::model::Model;
use crate::generate::random::Random;
use crate::generate::seams::{enough, spread, stored_twice};
use crate::generate::shapes::large;
use crate::generate::texts;
use crate::journal::{Record, MOST_RECORDS, NUDGE, PAINT, RECORD};
use std::hint::black_box;
use std::time::{Duration, Instant};

/// Faces, and the columns and rows of cells that give them.
const SIZES: [(usize, usize, usize); 4] =
    [(64, 8, 4), (512, 16, 16), (2_048, 32, 32), (4_096, 64, 32)];
/// Records of a journal in which both benches have theirs.
const RECORDS: [usize; 4] = [512, 1_024, 2_048, MOST_RECORDS as usize];
/// The material that a face is painted with: stone, walkable as all faces timed are.
const STONE: u32 = 4;
/// Each figure is the best of so many runs of at least this long.
const RUNS: usize = 5;
const RUN: Duration = Duration::from_millis(20);

/// A floor to time with, and the work memory, output and journal lent to its calls.
struct Bench {
    floor: Vec<u8>,
    work: Vec<u8>,
    out: Vec<u8>,
    journal: Vec<u8>,
}

/// Prints the table.
pub fn table() {
    let sides: Vec<Calls> = match REFERENCE.name == OTHER.name {
        true => vec![REFERENCE],
        false => vec![REFERENCE, OTHER],
    };
    print!("{:<16}{:>7}", "call", "size");
    for side in &sides {
        print!("{:>14}", format!("{} us", side.name));
    }
    println!("{:>9}{:>9}", "ratio", "growth");
    for (name, time) in [
        ("read", read as fn(&Calls, &mut Bench)),
        ("rewrite", rewrite),
        ("query", query),
        ("paint", paint),
    ] {
        let mut before = None;
        for (faces, columns, rows) in SIZES {
            let mut bench = bench(faces, columns, rows);
            row(name, faces, &sides, &mut before, |side| {
                time(side, &mut bench)
            });
        }
    }
    mends_table(&sides);
    trees_table(&sides);
    journals_table(&sides);
    texts_table(&sides);
}

/// A floor of this many faces that the reader accepts.
fn bench(faces: usize, columns: usize, rows: usize) -> Bench {
    bench_of(&large(&mut Random::new(1), columns, rows), faces)
}

/// The same of a floor that is made already.
fn bench_of(model: &Model, faces: usize) -> Bench {
    let floor = model.in_order();
    let mut work = vec![0; WORK];
    let counts = (REFERENCE.read)(&floor, &mut work);
    assert_eq!((counts.number, counts.faces as usize), (0, faces));
    Bench {
        out: vec![0; floor.len()],
        floor,
        work,
        journal: vec![0; 2 * RECORD],
    }
}

fn read(side: &Calls, bench: &mut Bench) {
    black_box((side.read)(&bench.floor, &mut bench.work));
}

fn rewrite(side: &Calls, bench: &mut Bench) {
    black_box((side.rewrite)(
        &bench.floor,
        &mut bench.work,
        &mut bench.out,
    ));
}

fn query(side: &Calls, bench: &mut Bench) {
    black_box((side.query)(&bench.floor, &mut bench.work, 100, 100));
}

/// Paints face 0 in an empty journal and undoes it.
fn paint(side: &Calls, bench: &mut Bench) {
    paint_and_undo(side, &mut bench.floor, &mut bench.journal, 0);
}

/// Mending of floors without a seam, then of one whose vertices are all stored twice. Beside each stands what it is by
/// the reader's time of the same floor.
fn mends_table(sides: &[Calls]) {
    let mut before = None;
    for (faces, columns, rows) in SIZES {
        let model = spread(&mut Random::new(1), columns, rows);
        mend_row("mend", &model, faces, sides, &mut before);
    }
    let model = stored_twice(&mut Random::new(1));
    mend_row("mend_twice", &model, model.faces.len(), sides, &mut None);
}

/// One row of mending, and on the last side what that is by reading.
fn mend_row(name: &str, model: &Model, faces: usize, sides: &[Calls], before: &mut Option<f64>) {
    let mut bench = bench_of(model, faces);
    let [mut out, mut list] = enough(&bench.floor).map(|length| vec![0; length]);
    let last = &sides[sides.len() - 1];
    let reading = best(|| read(last, &mut bench));
    let mending = timed(name, faces, sides, before, |side| {
        let mended = (side.mend)(&bench.floor, &mut bench.work, &mut out, &mut list);
        assert_eq!(mended.number, 0);
    });
    println!("{:>9.2} x read", mending / reading);
}

/// Trees for the floors that are read above, their nodes taken away. The output has room for just as many nodes as they
/// had. Beside each stands what it is by the reader's time of the floor with its nodes.
fn trees_table(sides: &[Calls]) {
    let last = &sides[sides.len() - 1];
    let mut before = None;
    for (faces, columns, rows) in SIZES {
        let mut model = large(&mut Random::new(1), columns, rows);
        let mut bench = bench_of(&model, faces);
        let reading = best(|| read(last, &mut bench));
        model.nodes.clear();
        let bare = model.in_order();
        let planting = timed("tree", faces, sides, &mut before, |side| {
            let planted = (side.tree)(&bare, &mut bench.work, &mut bench.out);
            assert_eq!(planted.length as usize, bench.floor.len());
        });
        println!("{:>9.2} x read", planting / reading);
    }
}

/// Bench 0 paints face 0 and undoes it, so that the next run finds the same floor and journal.
fn paint_and_undo(side: &Calls, floor: &mut [u8], journal: &mut [u8], f: usize) {
    let painted: Session = (side.paint)(floor, journal, f as u32, 0, 0, STONE);
    assert_eq!(painted.number, 0);
    black_box((side.undo)(floor, journal, painted.f, 0));
}

/// Calls over journals of growing length. What an undo or a put-back took out is there again in the
/// next run: the journal is copied anew before each, which is counted.
fn journals_table(sides: &[Calls]) {
    let mut floor = bench(SIZES[0].0, SIZES[0].1, SIZES[0].2).floor;
    let (mut paints, mut undos, mut put_backs) = (None, None, None);
    for records in RECORDS {
        let half = records / 2;
        let mut journal = under(&floor, half - 1, records - 1);
        journal.resize(records * RECORD, 0);
        row("paint_at_end", records, sides, &mut paints, |side| {
            paint_and_undo(side, &mut floor, &mut journal, records - 1);
        });
        let lowest = under(&floor, 1, records);
        row("undo_lowest", records, sides, &mut undos, |side| {
            journal.copy_from_slice(&lowest);
            let undone = (side.undo)(&mut floor, &mut journal, records as u32, 0);
            assert_eq!((undone.number, undone.f as usize), (0, records - 1));
        });
        let halves = under(&floor, half, records);
        row("put_back_under", records, sides, &mut put_backs, |side| {
            journal.copy_from_slice(&halves);
            let left = (side.put_back)(&mut floor, &mut journal, records as u32, 0);
            assert_eq!((left.number, left.f as usize), (0, half));
        });
    }
}

/// A journal of so many records, the lowest of which are bench 0's and all others bench 1's. Each bench
/// has one field, which its records leave as it is: all of bench 1's are asked about and moved when one
/// of bench 0's is taken out, and none is in the way.
fn under(floor: &[u8], lowest: usize, records: usize) -> Vec<u8> {
    let record = |bench: u8, tag: u8| {
        let word = word_of(floor, (tag, 0)).expect("a field of the floor");
        let record = Record {
            tag,
            bench,
            place: 0,
            old: word,
            new: word,
        };
        record.bytes()
    };
    let below = record(0, PAINT).repeat(lowest);
    let above = record(1, NUDGE).repeat(records - lowest);
    [below, above].concat()
}

/// Layouts and sight texts of 8 to 64 rooms, then a layout with hooks.
fn texts_table(sides: &[Calls]) {
    let mut random = Random::new(1);
    let (mut layouts, mut sights) = (None, None);
    for rooms in [8, 16, 32, 64] {
        let names = texts::names(&mut random, rooms);
        let layout = texts::plain(&rooms_only(&mut random, &names));
        let vis = texts::plain(&all_see_all(&names));
        let mut out = vec![0; 65_536];
        assert_eq!((REFERENCE.sight_rewrite)(&layout, &vis, &mut out).number, 0);
        row("layout_rewrite", rooms, sides, &mut layouts, |side| {
            black_box((side.layout_rewrite)(&layout, &mut out));
        });
        row("sight_rewrite", rooms, sides, &mut sights, |side| {
            black_box((side.sight_rewrite)(&layout, &vis, &mut out));
        });
    }
    hooks_row(sides);
}

/// A layout of 64 rooms and 64 hooks. It has numbers of its own, so that those of the other layouts stay as they are.
fn hooks_row(sides: &[Calls]) {
    let mut random = Random::new(2);
    let names = texts::names(&mut random, 64);
    let mut plan = rooms_only(&mut random, &names);
    let last = plan.pop();
    hooks::add(&mut plan, &mut random, &names, 64);
    plan.extend(last);
    let (layout, mut out) = (texts::plain(&plan), vec![0; 65_536]);
    assert_eq!((REFERENCE.layout_rewrite)(&layout, &mut out).number, 0);
    row("layout_hooks", 64, sides, &mut None, |side| {
        black_box((side.layout_rewrite)(&layout, &mut out));
    });
}

/// A layout of these rooms and nothing else.
fn rooms_only(random: &mut Random, names: &[texts::Word]) -> texts::Plan {
    let count = names.len().to_string();
    let mut plan = vec![
        texts::line(&["beginlayout"]),
        texts::line(&["roomcount", &count]),
    ];
    for name in names {
        let numbers = [0; 3].map(|_: i32| texts::number(random));
        plan.push([vec![name.clone()], numbers.to_vec()].concat());
    }
    plan.push(texts::line(&["donelayout"]));
    plan
}

/// Every room sees every other, as far as a text has room for that.
fn all_see_all(names: &[texts::Word]) -> texts::Plan {
    let mut plan = texts::Plan::new();
    let seen = &names[..names.len().min(48)];
    for name in names {
        plan.push(vec![name.clone(), seen.len().to_string().into_bytes()]);
        plan.extend(seen.iter().map(|name| vec![name.clone()]));
    }
    plan
}

/// One row.
fn row(
    name: &str,
    size: usize,
    sides: &[Calls],
    before: &mut Option<f64>,
    call: impl FnMut(&Calls),
) {
    timed(name, size, sides, before, call);
    println!();
}

/// A row without its end: microseconds on each side, the second by the first, and the last by the row before. Gives the
/// time on the last side.
fn timed(
    name: &str,
    size: usize,
    sides: &[Calls],
    before: &mut Option<f64>,
    mut call: impl FnMut(&Calls),
) -> f64 {
    let times: Vec<f64> = sides.iter().map(|side| best(|| call(side))).collect();
    print!("{name:<16}{size:>7}");
    for time in &times {
        print!("{time:>14.2}");
    }
    let last = times[times.len() - 1];
    let growth = before.map_or("-".to_string(), |before| format!("{:.2}", last / before));
    let ratio = match times.len() {
        1 => "-".to_string(),
        _ => format!("{:.2}", last / times[0]),
    };
    print!("{ratio:>9}{growth:>9}");
    *before = Some(last);
    last
}

/// The best mean time of one call, in microseconds.
fn best(mut call: impl FnMut()) -> f64 {
    let mut best = f64::INFINITY;
    for _ in 0..RUNS {
        let start = Instant::now();
        let mut calls = 0;
        while start.elapsed() < RUN {
            call();
            calls += 1;
        }
        best = best.min(start.elapsed().as_secs_f64() * 1e6 / f64::from(calls));
    }
    best
}
