//! A floor before and after it was mended, and the list: each thing that is said of them, asked without mending
//! anything.

use crate::compare::Done;
use crate::floor::border::{ends, transition_is_right};
use crate::floor::tables::{Table, Tables, ROOT_FIELD};
use crate::mend::{CORNER, LOST};
use std::collections::{BTreeMap, BTreeSet, HashMap};

/// A floor before and after it was mended, and the list.
pub(super) struct Seam<'a> {
    pub before: Tables<'a>,
    pub after: Tables<'a>,
    pub list: &'a [u8],
}

impl Seam<'_> {
    /// The side's own reader accepts the result and gives its counts.
    pub fn is_read_so(&self, read: &Done) -> bool {
        let counts = [
            self.before.count(Table::Faces),
            self.before.count(Table::Adjacency),
            self.after.count(Table::Edges),
            self.after.count(Table::Perimeters),
        ];
        let answered = read.fields[2..].iter().map(|(_, count)| *count as usize);
        read.number() == 0 && answered.eq(counts)
    }

    /// With the same vertices and materials the floors also have the same counts but for edges and perimeters.
    pub fn rest_stays(&self) -> bool {
        let [before, after] = [&self.before, &self.after];
        let same = |table: Table| before.bytes_of(table) == after.bytes_of(table);
        let root = ROOT_FIELD..ROOT_FIELD + 4;
        before.bytes[..72] == after.bytes[..72]
            && before.bytes[root.clone()] == after.bytes[root]
            && [
                Table::Vertices,
                Table::Materials,
                Table::Normals,
                Table::Distances,
                Table::Nodes,
            ]
            .into_iter()
            .all(same)
    }

    /// The coordinates of a vertex.
    fn place(&self, vertex: usize) -> [f32; 3] {
        [0, 1, 2].map(|axis| self.before.float(Table::Vertices, vertex, axis))
    }

    /// All corners before and after, by place.
    fn corners(&self) -> impl Iterator<Item = (usize, usize)> + '_ {
        let faces = 0..self.before.count(Table::Faces);
        faces.flat_map(|face| {
            let [before, after] = [&self.before, &self.after].map(|tables| tables.corners(face));
            before.into_iter().zip(after)
        })
    }

    pub fn corners_stay(&self) -> bool {
        self.corners()
            .all(|(old, new)| self.place(old) == self.place(new))
    }

    /// The vertices in groups that are equal by float comparison, from the lowest up in each.
    fn groups(&self) -> Vec<Vec<usize>> {
        let mut vertices: Vec<usize> = (0..self.before.count(Table::Vertices)).collect();
        vertices.sort_by(|&one, &other| {
            let order = self.place(one).partial_cmp(&self.place(other));
            order.expect("all are finite") // and equal ones stay in their order
        });
        let mut groups: Vec<Vec<usize>> = Vec::new();
        for vertex in vertices {
            match groups.last_mut() {
                Some(group) if self.place(group[0]) == self.place(vertex) => group.push(vertex),
                _ => groups.push(vec![vertex]),
            }
        }
        groups
    }

    pub fn corners_are_lowest(&self) -> bool {
        let groups = self.groups();
        let lowest: BTreeSet<usize> = groups.iter().map(|group| group[0]).collect();
        self.corners().all(|(_, new)| lowest.contains(&new))
    }

    pub fn corners_have_one_number(&self) -> bool {
        let used: BTreeSet<usize> = self.corners().map(|(_, new)| new).collect();
        self.groups()
            .iter()
            .all(|group| group.iter().filter(|vertex| used.contains(vertex)).count() <= 1)
    }

    /// The numbers of the list's records, those of corners and those of half-edges, each with the rest of the list
    /// that cannot be read so.
    pub fn listed(&self) -> [Vec<u32>; 2] {
        let (corners, rest) = records(self.list, CORNER, 3);
        let (losses, rest) = records(rest, LOST, 1);
        let unread = rest.iter().map(|&byte| u32::from(byte));
        [corners, losses.into_iter().chain(unread).collect()]
    }

    pub fn changed_corners(&self) -> Vec<u32> {
        let changed = |(place, (old, new)): (usize, (usize, usize))| {
            (old != new).then_some([place, old, new].map(|number| number as u32))
        };
        let all = self.corners().enumerate();
        all.filter_map(changed).flatten().collect()
    }

    /// Half-edge and transition of each valid entry of the old list.
    fn valid_entries(&self) -> impl Iterator<Item = (usize, i32)> + '_ {
        let walkable = self.before.count(Table::Adjacency);
        let entry = |entry: usize| [0, 1].map(|word| self.before.word(Table::Edges, entry, word));
        let entries = (0..self.before.count(Table::Edges)).map(entry);
        entries
            .filter(move |&[h, to]| (h as usize) < 3 * walkable && transition_is_right(to))
            .map(|[h, to]| (h as usize, to as i32))
    }

    /// Half-edge and transition of each edge of the result.
    pub fn edges(&self) -> Vec<(usize, i32)> {
        let word = |entry: usize, word: usize| self.after.word(Table::Edges, entry, word);
        (0..self.after.count(Table::Edges))
            .map(|entry| (word(entry, 0) as usize, word(entry, 1) as i32))
            .collect()
    }

    pub fn nothing_is_lost_unsaid(&self) -> bool {
        let edges: BTreeSet<(usize, i32)> = self.edges().into_iter().collect();
        let [_, losses] = self.listed();
        let listed: BTreeSet<usize> = losses.into_iter().map(|h| h as usize).collect();
        self.valid_entries()
            .filter(|(_, to)| *to >= 0)
            .all(|(h, to)| edges.contains(&(h, to)) || listed.contains(&h))
    }

    pub fn losses(&self) -> Vec<u32> {
        let edges = self.edges().into_iter();
        let keep: BTreeSet<usize> = edges.filter(|(_, to)| *to >= 0).map(|(h, _)| h).collect();
        let had: BTreeSet<usize> = self
            .valid_entries()
            .filter(|(_, to)| *to >= 0)
            .map(|(h, _)| h)
            .collect();
        had.difference(&keep).map(|&h| h as u32).collect()
    }

    pub fn edges_lead_as_before(&self) -> bool {
        let mut entries: BTreeMap<usize, Vec<i32>> = BTreeMap::new();
        for (h, to) in self.valid_entries() {
            entries.entry(h).or_default().push(to);
        }
        self.edges().into_iter().all(|(h, to)| {
            let only = entries.get(&h).filter(|all| all.len() == 1);
            to == only.map_or(-1, |all| all[0])
        })
    }

    /// A loop starts at the lowest of the borders from there on. Of the borders that start at one vertex the lower
    /// stands first: it was taken as the lowest unused one. A loop ends at its start vertex and passes it nowhere
    /// before.
    pub fn loops_are_as_told(&self) -> bool {
        let edges: Vec<usize> = self.edges().into_iter().map(|(h, _)| h).collect();
        let run: Vec<(usize, usize)> = edges.iter().map(|&h| ends(&self.after, h)).collect();
        let mut last_from = HashMap::new();
        let in_order = edges
            .iter()
            .zip(&run)
            .all(|(&h, (from, _))| last_from.insert(*from, h) < Some(h));
        let mut lowest_from = edges.clone();
        for entry in (1..edges.len()).rev() {
            lowest_from[entry - 1] = lowest_from[entry - 1].min(lowest_from[entry]);
        }
        let mut first = 0;
        let are_loops = self.loop_ends().into_iter().all(|end| {
            let start = run[first].0;
            let is_lowest = edges[first] == lowest_from[first];
            let returns = run[first..end].iter().position(|(_, to)| *to == start);
            let stops = returns == Some(end - first - 1);
            first = end;
            is_lowest && stops
        });
        in_order && are_loops
    }

    /// The perimeter entries of the result.
    pub fn loop_ends(&self) -> Vec<usize> {
        let entry = |entry: usize| self.after.word(Table::Perimeters, entry, 0) as usize;
        let count = self.after.count(Table::Perimeters);
        (0..count).map(entry).collect()
    }
}

/// The numbers of the records of this tag, so many in each, that stand first in the list, and the rest of it.
fn records(mut list: &[u8], tag: u8, numbers: usize) -> (Vec<u32>, &[u8]) {
    let head = [tag, 4 * numbers as u8, 0];
    let mut found = Vec::new();
    while list.starts_with(&head) && list.len() >= head.len() + 4 * numbers {
        let (record, rest) = list.split_at(head.len() + 4 * numbers);
        let words = record[head.len()..].chunks_exact(4);
        found.extend(words.map(|word| u32::from_le_bytes([word[0], word[1], word[2], word[3]])));
        list = rest;
    }
    (found, list)
}
