//! Half-edges in a sorted list, partners, borders and their loops: rules 15 to 19.

use super::header::{Tables, VERTICES};
use super::{word, Refused, NONE};

/// One number for each half-edge: lower vertex, higher vertex, half-edge, and whether it runs down.
/// Sorted, the half-edges along one side are neighbours, the lowest first.
type Key = u64;
const HIGHER: u32 = 15;
const LOWER: u32 = 27;

/// The sorted list and what is found by it.
pub struct Pairs {
    keys: Vec<Key>,
    sorted: Vec<Key>,
    count: usize,
    vertices: usize,
    /// How many keys have each lower and each higher vertex, then where the next of them goes.
    lower: Vec<u32>,
    higher: Vec<u32>,
    /// For each half-edge, whether it is a border that no edge entry has named yet.
    border: Vec<bool>,
    /// From where to where each edge entry runs, 16 bits each.
    runs: Vec<u32>,
}

impl Pairs {
    /// Memory for so many half-edges.
    pub fn new(half_edges: usize) -> Pairs {
        Pairs {
            keys: vec![0; half_edges],
            sorted: vec![0; half_edges],
            count: 0,
            vertices: 0,
            lower: vec![0; VERTICES],
            higher: vec![0; VERTICES],
            border: vec![false; half_edges],
            runs: vec![0; half_edges],
        }
    }

    /// An empty list over so many vertices.
    pub fn begin(&mut self, vertices: usize) {
        self.count = 0;
        self.vertices = vertices;
        self.lower[..vertices].fill(0);
        self.higher[..vertices].fill(0);
    }

    /// Adds the half-edges of a face; faces come in their order.
    pub fn add(&mut self, face: usize, [a, b, c]: [u32; 3]) {
        let keys = &mut self.keys[3 * face..3 * face + 3];
        for (e, (from, to)) in [(a, b), (b, c), (c, a)].into_iter().enumerate() {
            let (low, high) = (from.min(to), from.max(to));
            self.lower[low as usize] += 1;
            self.higher[high as usize] += 1;
            let half_edge = 2 * (3 * face + e) as Key + Key::from(from > to);
            keys[e] = Key::from(low) << LOWER | Key::from(high) << HIGHER | half_edge;
        }
        self.count += 3;
    }

    /// Sorts by the higher vertex, then by the lower; each time the order before stays among equals.
    fn sort(&mut self) {
        let digit = |key: Key| (key >> HIGHER) as usize % VERTICES;
        let places = &mut self.higher[..self.vertices];
        scatter(&self.keys[..self.count], &mut self.sorted, places, digit);
        let digit = |key: Key| (key >> LOWER) as usize;
        let places = &mut self.lower[..self.vertices];
        scatter(&self.sorted[..self.count], &mut self.keys, places, digit);
    }

    /// Rules 15 and 16: walks the sorted list side by side. A side has one half-edge, which is a border, or
    /// two that run opposite ways, which are partners; any other breaks 15.
    pub fn are_right(&mut self, tables: &Tables) -> Result<(), Refused> {
        self.sort();
        let (mut repeated, mut wrong) = (NONE, NONE);
        let mut expect = |h: u32, partner: u32| {
            self.border[h as usize] = partner == NONE;
            if word(tables.adjacency, 4 * h as usize) != partner {
                wrong = wrong.min(h);
            }
        };
        let along = |one: &Key, other: &Key| one >> HIGHER == other >> HIGHER;
        for side in self.keys[..self.count].chunk_by(along) {
            match *side {
                [one] => expect(half_edge(one), NONE),
                [one, other] if (one ^ other) & 1 == 1 => {
                    expect(half_edge(one), half_edge(other));
                    expect(half_edge(other), half_edge(one));
                }
                _ => repeated = repeated.min(first_repeat(side)),
            }
        }
        match (repeated, wrong) {
            (NONE, NONE) => Ok(()),
            (NONE, h) => Err((16, h as usize)),
            (h, _) => Err((15, h as usize)),
        }
    }

    /// Rules 17 to 19.
    pub fn borders_are_right(&mut self, tables: &Tables) -> Result<(), Refused> {
        let half_edges = self.count as u32;
        let mut strange = None;
        for (entry, edge) in tables.edges.chunks_exact(8).enumerate() {
            let (h, transition) = (word(edge, 0), word(edge, 4));
            if h >= half_edges || !self.border[h as usize] {
                return Err((17, entry));
            }
            self.border[h as usize] = false;
            if transition.wrapping_add(1) > 64 {
                strange = strange.or(Some(entry));
            }
            self.runs[entry] = run(tables, h);
        }
        let edges = tables.edges.len() / 8;
        if self.border[..self.count].contains(&true) {
            return Err((17, edges));
        }
        match strange {
            Some(entry) => Err((18, entry)),
            None => loops_are_closed(&self.runs[..edges], tables.perimeters),
        }
    }
}

/// Puts each key where its digit says, the places counted before.
fn scatter(from: &[Key], to: &mut [Key], places: &mut [u32], digit: impl Fn(Key) -> usize) {
    let mut next = 0;
    for place in &mut *places {
        next += std::mem::replace(place, next);
    }
    for &key in from {
        let place = &mut places[digit(key)];
        to[*place as usize] = key;
        *place += 1;
    }
}

/// The half-edge of a key.
fn half_edge(key: Key) -> u32 {
    (key >> 1) as u32 & 0x3FFF
}

/// The lowest half-edge along one side that runs as a lower one.
fn first_repeat(side: &[Key]) -> u32 {
    let mut met = [false; 2];
    let again = |key: &&Key| std::mem::replace(&mut met[(**key & 1) as usize], true);
    side.iter().find(again).map_or(NONE, |&key| half_edge(key))
}

/// From where half-edge `h` runs, and to where, 16 bits each.
fn run(tables: &Tables, h: u32) -> u32 {
    let next = if h % 3 == 2 { h - 2 } else { h + 1 };
    word(tables.corners, 4 * h as usize) << 16 | word(tables.corners, 4 * next as usize)
}

/// Rule 19.
fn loops_are_closed(runs: &[u32], perimeters: &[u8]) -> Result<(), Refused> {
    let mut before = 0;
    for (entry, end) in perimeters.chunks_exact(4).enumerate() {
        let end = word(end, 0) as usize;
        if end <= before || end > runs.len() || !is_closed(&runs[before..end]) {
            return Err((19, entry));
        }
        before = end;
    }
    match before == runs.len() {
        true => Ok(()),
        false => Err((19, perimeters.len() / 4)),
    }
}

/// Each run ends where the next starts, the last where the first starts.
fn is_closed(runs: &[u32]) -> bool {
    let meet = |one: u32, other: u32| one & 0xFFFF == other >> 16;
    let (first, last) = (runs[0], runs[runs.len() - 1]);
    meet(last, first) && runs.windows(2).all(|two| meet(two[0], two[1]))
}
