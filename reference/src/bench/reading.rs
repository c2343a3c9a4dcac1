//! The reading table: the library beside the peer, a program with a sorted list, on the same floors (M-106).

use super::floors::{self, Timed};
use crate::calls::{OTHER, REFERENCE};
use crate::floor::WORK;
use crate::sorted::Peer;
use std::hint::black_box;
use std::time::{Duration, Instant};

/// Each row is at least so many turns and takes at least so long.
const TURNS: usize = 60;
const ROW: Duration = Duration::from_millis(400);

/// What stands above the table.
const TERMS: &str = "\
Reading: times in microseconds, the least and the median of all turns of a row. Both sides read the same
bytes in one process and take turns: peer, library, peer, library, ..
Memory: all of it is allocated before the first turn, none in a timed call, on either side. The library clears
its lent 65,536 bytes of work memory in the call, and that is counted. The peer's scratch memory (a sorted
list of half-edges, its counts and marks) is kept between calls, and only what a call uses is cleared or
written in it; that is counted too.
Ratio: library by peer, by the least and by the median. Growth: the library's least at 4,096 faces by that
at 2,048. Floors called refused are refused at their last half-edge.
";

/// The least and the median of one side.
#[derive(Clone, Copy)]
struct Figures {
    least: f64,
    median: f64,
}

/// Prints the terms and the table.
pub fn table() {
    println!("{TERMS}");
    let library = match OTHER.name == REFERENCE.name {
        true => OTHER.name,
        false => "library",
    };
    println!("{:<32}{:>22}{library:>22}{:>16}", "", "peer", "ratio");
    print!("{:<26}{:>6}", "floor", "faces");
    for side in [11, 11, 8] {
        print!("{:>side$}{:>side$}", "least", "median");
    }
    println!("{:>8}", "growth");
    let mut peer = Peer::new();
    let mut before: Option<(String, f64)> = None;
    for floor in floors::all() {
        let [one, other] = row(&mut peer, &floor);
        print!("{:<26}{:>6}", floor.name, floor.faces);
        for side in [one, other] {
            print!("{:>11.2}{:>11.2}", side.least, side.median);
        }
        print!(
            "{:>8.2}{:>8.2}",
            other.least / one.least,
            other.median / one.median
        );
        match before {
            Some((name, least)) if name == floor.name && floor.faces == 4_096 => {
                println!("{:>8.2}", other.least / least);
            }
            _ => println!("{:>8}", "-"),
        }
        before = Some((floor.name, other.least));
    }
}

/// The figures of the peer and of the library, which must give the answer that the floor is made for.
fn row(peer: &mut Peer, floor: &Timed) -> [Figures; 2] {
    let mut work = vec![0; WORK];
    let answer = (REFERENCE.read)(&floor.bytes, &mut work);
    assert_eq!(
        (answer.number, answer.place),
        (floor.number, floor.place),
        "{}",
        floor.name
    );
    assert_eq!(peer.read(&floor.bytes), answer, "{}", floor.name);
    assert_eq!(
        (OTHER.read)(&floor.bytes, &mut work),
        answer,
        "{}",
        floor.name
    );
    let mut times = [Vec::new(), Vec::new()];
    let start = Instant::now();
    while times[0].len() < TURNS || start.elapsed() < ROW {
        times[0].push(time(|| peer.read(&floor.bytes)));
        times[1].push(time(|| (OTHER.read)(&floor.bytes, &mut work)));
    }
    times.map(figures)
}

/// The time of one call, in microseconds.
fn time<T>(call: impl FnOnce() -> T) -> f64 {
    let start = Instant::now();
    black_box(call());
    start.elapsed().as_secs_f64() * 1e6
}

fn figures(mut times: Vec<f64>) -> Figures {
    times.sort_unstable_by(f64::total_cmp);
    Figures {
        least: times[0],
        median: times[times.len() / 2],
    }
}
