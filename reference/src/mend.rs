//! Mending split seams (M-109): every corner becomes the lowest vertex with equal coordinates; adjacency,
//! edges and perimeters are worked out afresh; a list tells which corners changed and which transitions
//! were lost.

use crate::answer::{refuse_if, Checked, Mended};
use crate::fault::{planted, Fault};
use crate::floor;
use crate::floor::border::{ends, transition_is_right, NO_PARTNER};
use crate::floor::tables::{Table, Tables, FIELDS, HEADER};
use crate::form::{deliver, laid_out, ORDER};
use crate::words::{bytes_of, put_word};
use std::collections::{BTreeMap, BTreeSet, HashMap, HashSet};

/// The tags of the list's records: a corner changed, and a half-edge that lost its transition.
pub const CORNER: u8 = 1;
pub const LOST: u8 = 2;

/// The transition of an edge that leads nowhere.
const NOWHERE: u32 = 0xFFFF_FFFF;

/// Mends a floor: 20; 1 to 15 on the floor as it is and then with the changed corners; then 40 for either
/// output. Bytes past the form and past the list stay, and a refused call writes neither.
pub fn mend(bytes: &[u8], work: &mut [u8], out: &mut [u8], list: &mut [u8]) -> Mended {
    match written(bytes, work, out, list) {
        Ok((length, listed)) => Mended {
            number: 0,
            place: 0,
            length: length as u32,
            listed: listed as u32,
        },
        Err(refusal) => Mended {
            number: refusal.number,
            place: refusal.place,
            ..Mended::default()
        },
    }
}

/// Writes both outputs, or neither, and gives how many bytes of each.
fn written(
    bytes: &[u8],
    work: &mut [u8],
    out: &mut [u8],
    list: &mut [u8],
) -> Checked<(usize, usize)> {
    floor::enough_work(work)?; // 20
    let (tables, _) = floor::check_to_15(bytes)?;
    let corners = mended_corners(&tables);
    let changed = with_corners(&tables, &corners);
    let (mended, partners) = match floor::check_to_15(&changed) {
        Err(refusal) if refusal.number == 15 && planted(Fault::RunsNotAskedAgain) => {
            let half_edges = 3 * tables.count(Table::Adjacency);
            (Tables::open(&changed)?, vec![None; half_edges])
        }
        checked => checked?,
    };
    let entries = valid_entries(&tables);
    let form = mended_form(&mended, &partners, &entries);
    let mut told = changed_corners(&tables, &corners);
    told.extend(lost_transitions(&partners, &entries));
    if planted(Fault::FormBeforeList) {
        deliver(&form, out)?;
    }
    refuse_if(out.len() < form.len() || list.len() < told.len(), 40, 0)?;
    Ok((deliver(&form, out)?, deliver(&told, list)?))
}

/// The corners of all faces, walkable or not, each as the lowest vertex with equal coordinates.
fn mended_corners(tables: &Tables) -> Vec<[usize; 3]> {
    let lowest = lowest_equals(tables);
    let walkable = tables.count(Table::Adjacency);
    let mended = |face: usize| match planted(Fault::WalkableAlone) && face >= walkable {
        true => tables.corners(face),
        false => tables.corners(face).map(|corner| lowest[corner]),
    };
    (0..tables.count(Table::Faces)).map(mended).collect()
}

/// For each vertex the lowest one with equal coordinates, whether a face uses that or not.
fn lowest_equals(tables: &Tables) -> Vec<usize> {
    let vertices: Vec<usize> = (0..tables.count(Table::Vertices)).collect();
    let mut first = HashMap::new();
    for vertex in first_to_last(tables, vertices.clone()) {
        first.entry(coordinates(tables, vertex)).or_insert(vertex);
    }
    let lowest = |vertex| first[&coordinates(tables, vertex)];
    vertices.into_iter().map(lowest).collect()
}

/// The vertices from the lowest up, unless a fault is planted.
fn first_to_last(tables: &Tables, mut vertices: Vec<usize>) -> Vec<usize> {
    if planted(Fault::HighestEqual) {
        vertices.reverse();
    }
    if planted(Fault::LowestUsed) {
        let faces = 0..tables.count(Table::Faces);
        let used: HashSet<usize> = faces.flat_map(|face| tables.corners(face)).collect();
        vertices.sort_by_key(|vertex| !used.contains(vertex));
    }
    vertices
}

/// A vertex's coordinates, as bits that are the same exactly if the floats are equal. Of finite floats
/// only the two zeros are equal without having the same bits, and either plus zero is positive zero.
fn coordinates(tables: &Tables, vertex: usize) -> [u32; 3] {
    [0, 1, 2].map(|axis| {
        let float = tables.float(Table::Vertices, vertex, axis);
        match planted(Fault::EqualByBits) {
            true => float.to_bits(),
            false => (float + 0.0).to_bits(),
        }
    })
}

/// The floor's bytes with these corners in the table of faces.
fn with_corners(tables: &Tables, corners: &[[usize; 3]]) -> Vec<u8> {
    let mut bytes = tables.bytes.to_vec();
    for (face, corners) in corners.iter().enumerate() {
        for (corner, vertex) in corners.iter().enumerate() {
            let at = tables.place(Table::Faces, face, corner);
            put_word(&mut bytes, at, *vertex as u32);
        }
    }
    bytes
}

/// Transitions of valid entries, by half-edge and then in the order of the entries.
type Entries = BTreeMap<usize, Vec<u32>>;

/// The valid entries of the old edge list, which is read as it stands: those that name a walkable half-edge
/// and have a transition that rule 18 allows.
fn valid_entries(tables: &Tables) -> Entries {
    let half_edges = 3 * tables.count(Table::Adjacency);
    let mut entries = Entries::new();
    for entry in 0..tables.count(Table::Edges) {
        let h = tables.word(Table::Edges, entry, 0) as usize;
        let transition = tables.word(Table::Edges, entry, 1);
        if h < half_edges && transition_is_right(transition) {
            entries.entry(h).or_default().push(transition);
        }
    }
    entries
}

/// What an edge of this half-edge leads to: as before if it had just one valid entry, else nowhere.
fn kept_transition(entries: &Entries, h: usize) -> u32 {
    match entries.get(&h).map(Vec::as_slice) {
        Some([only]) => *only,
        Some([first, ..]) if planted(Fault::FirstEntryKept) => *first,
        _ => NOWHERE,
    }
}

/// Whether a transition leads to a room.
fn leads_somewhere(transition: u32) -> bool {
    transition as i32 >= 0
}

/// The fixed form of the mended floor: adjacency, edges and perimeters afresh, all else as it is.
fn mended_form(mended: &Tables, partners: &[Option<usize>], entries: &Entries) -> Vec<u8> {
    let partner = |partner: &Option<usize>| partner.map_or(NO_PARTNER, |h| h as u32);
    let adjacency: Vec<u32> = partners.iter().map(partner).collect();
    let loops = border_loops(mended, partners);
    let edge = |&h: &usize| [h as u32, kept_transition(entries, h)];
    let edges: Vec<u32> = loops.iter().flatten().flat_map(edge).collect();
    let perimeters: Vec<u32> = loops
        .iter()
        .scan(0, |end, one| {
            *end += one.len() as u32;
            Some(*end)
        })
        .collect();
    let mut header = mended.bytes[..HEADER].to_vec();
    for (table, count) in [
        (Table::Edges, edges.len() / 2),
        (Table::Perimeters, perimeters.len()),
    ] {
        put_word(&mut header, FIELDS[table as usize].count, count as u32);
    }
    let [adjacency, edges, perimeters] =
        [adjacency, edges, perimeters].map(|words| bytes_of(&words));
    let tables = ORDER.map(|table| match table {
        Table::Adjacency => &adjacency[..],
        Table::Edges => &edges,
        Table::Perimeters => &perimeters,
        same => mended.bytes_of(same),
    });
    laid_out(&header, tables)
}

/// The borders in loops. A loop starts at the lowest border not yet used, goes on with the lowest unused
/// border starting where the last ended, and stops on first return to its start vertex.
fn border_loops(mended: &Tables, partners: &[Option<usize>]) -> Vec<Vec<usize>> {
    let borders: Vec<usize> = (0..partners.len())
        .filter(|&h| partners[h].is_none())
        .collect();
    // each with the vertex where it starts, in front
    let mut unused: BTreeSet<(usize, usize)> =
        borders.iter().map(|&h| (ends(mended, h).0, h)).collect();
    let mut loops = Vec::new();
    for first in borders {
        let start = ends(mended, first).0;
        if !unused.contains(&(start, first)) {
            continue;
        }
        let mut one = Vec::new();
        let mut next = Some(first);
        while let Some(h) = next {
            let (from, to) = ends(mended, h);
            unused.remove(&(from, h));
            one.push(h);
            let stops = to == start && !planted(Fault::PastTheStart);
            let lowest = unused.range((to, 0)..(to + 1, 0)).next();
            next = lowest.filter(|_| !stops).map(|&(_, h)| h);
        }
        loops.push(one);
    }
    loops
}

/// A record of the list for each corner changed, by place: 3 times the face plus the corner, old, new.
fn changed_corners(tables: &Tables, corners: &[[usize; 3]]) -> Vec<u8> {
    let mut records = Vec::new();
    for (face, corners) in corners.iter().enumerate() {
        for (corner, (old, new)) in tables.corners(face).into_iter().zip(corners).enumerate() {
            if old != *new {
                records.extend(record(CORNER, &[3 * face + corner, old, *new]));
            }
        }
    }
    records
}

/// A record of the list for each half-edge that had a valid entry of 0 or more and keeps none.
fn lost_transitions(partners: &[Option<usize>], entries: &Entries) -> Vec<u8> {
    let mut records = Vec::new();
    for (&h, transitions) in entries {
        let had = transitions.iter().any(|&to| leads_somewhere(to));
        let keeps = partners[h].is_none() && leads_somewhere(kept_transition(entries, h));
        if had && !keeps && !planted(Fault::LossNotListed) {
            records.extend(record(LOST, &[h]));
        }
    }
    records
}

/// A record shaped like the journal's: tag, length in two bytes, numbers of four bytes each.
fn record(tag: u8, numbers: &[usize]) -> Vec<u8> {
    let words: Vec<u32> = numbers.iter().map(|&number| number as u32).collect();
    let length = (4 * words.len() as u16).to_le_bytes();
    [&[tag], &length[..], &bytes_of(&words)].concat()
}
