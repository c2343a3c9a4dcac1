//! Half-edges of walkable faces, their partners, the border edges and their loops: rules 15 to 19.
//! By rule 10 the walkable faces are those under A, so the half-edges in question are 0 to 3A-1.

use super::tables::{Table, Tables};
use crate::answer::{refuse, refuse_if, refuse_lowest, Checked};
use crate::fault::{planted, Fault};
use std::collections::HashMap;

/// The adjacency entry of a border.
pub const NO_PARTNER: u32 = 0xFFFF_FFFF;

/// The vertices from which and to which half-edge `h` runs.
pub fn ends(tables: &Tables, h: usize) -> (usize, usize) {
    let corners = tables.corners(h / 3);
    (corners[h % 3], corners[(h % 3 + 1) % 3])
}

/// Rule 15: no walkable half-edge runs exactly as a lower one.
/// Gives each half-edge's partner: the one that runs the opposite way between the same vertices.
pub fn partners(tables: &Tables) -> Checked<Vec<Option<usize>>> {
    let half_edges = 3 * tables.count(Table::Adjacency);
    let mut running = HashMap::with_capacity(half_edges);
    for h in 0..half_edges {
        if running.insert(ends(tables, h), h).is_some() {
            return refuse(15, h);
        }
    }
    let same_way = planted(Fault::SameWay);
    let partner = |h: usize| {
        let (from, to) = ends(tables, h);
        let way = if same_way { (from, to) } else { (to, from) };
        running.get(&way).copied().filter(|&other| other != h)
    };
    Ok((0..half_edges).map(partner).collect())
}

/// Rule 16: adjacency entry h is the partner's number, else -1.
pub fn adjacency_is_right(tables: &Tables, partners: &[Option<usize>]) -> Checked<()> {
    let any_partner = planted(Fault::AnyPartner);
    refuse_lowest(16, partners.len(), |h| {
        let entry = tables.word(Table::Adjacency, h / 3, h % 3);
        let wanted = partners[h].map_or(NO_PARTNER, |partner| partner as u32);
        entry != wanted && !(any_partner && (entry as usize) < partners.len())
    })
}

/// Rule 17: the edge entries are the borders, each once. A number of 3A or more is no border.
pub fn edges_are_the_borders(tables: &Tables, partners: &[Option<usize>]) -> Checked<()> {
    let mut missing: Vec<bool> = partners.iter().map(Option::is_none).collect();
    let edges = tables.count(Table::Edges);
    for entry in 0..edges {
        let h = tables.word(Table::Edges, entry, 0) as usize;
        match missing.get_mut(h) {
            Some(still @ true) => *still = false,
            _ => return refuse(17, entry),
        }
    }
    refuse_if(missing.contains(&true), 17, edges)
}

/// Rule 18: transitions run from -1 to 63 (house rule).
pub fn transitions_are_right(tables: &Tables) -> Checked<()> {
    refuse_lowest(18, tables.count(Table::Edges), |entry| {
        !transition_is_right(tables.word(Table::Edges, entry, 1))
    })
}

/// Whether this word is a transition from -1 to 63.
pub fn transition_is_right(word: u32) -> bool {
    (-1..=63).contains(&(word as i32))
}

/// Rule 19: perimeter entries are the 1-based ends of closed loops that use up all edges.
pub fn perimeters_are_right(tables: &Tables) -> Checked<()> {
    let edges = tables.count(Table::Edges);
    let perimeters = tables.count(Table::Perimeters);
    let mut before = 0;
    for entry in 0..perimeters {
        let end = tables.word(Table::Perimeters, entry, 0) as usize;
        let right = end > before && end <= edges && is_closed_chain(tables, before, end);
        refuse_if(!right, 19, entry)?;
        before = end;
    }
    refuse_if(before != edges, 19, perimeters)
}

/// Each edge from `first` to `end` - 1 ends where the next starts, the last where the first starts.
fn is_closed_chain(tables: &Tables, first: usize, end: usize) -> bool {
    let edge = |entry: usize| ends(tables, tables.word(Table::Edges, entry, 0) as usize);
    (first..end).all(|entry| {
        let next = if entry + 1 == end { first } else { entry + 1 };
        edge(entry).1 == edge(next).0
    })
}
