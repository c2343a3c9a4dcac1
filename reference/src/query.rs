//! The point query: the lowest face that holds a point, seen from above, and the nodes visited.

use crate::answer::{refuse_if, refuse_lowest, Checked, Point};
use crate::fault::{planted, Fault};
use crate::floor;
use crate::floor::tables::{Table, Tables};
use crate::floor::tree::{self, Bounds, Node};
use crate::grid;

/// Queries a floor at x, y in sixty-fourths: the reader's refusals, then 29, then 30.
pub fn query(bytes: &[u8], work: &mut [u8], x: i32, y: i32) -> Point {
    match found(bytes, work, [i64::from(x), i64::from(y)]) {
        Ok((face, visited)) => Point {
            number: 0,
            place: 0,
            found: u32::from(face.is_some()),
            face: face.unwrap_or(0) as u32,
            visited: visited as u32,
        },
        Err(refusal) => Point {
            number: refusal.number,
            place: refusal.place,
            ..Point::default()
        },
    }
}

/// The lowest face that holds the point, if any, and the number of nodes visited.
fn found(bytes: &[u8], work: &mut [u8], point: [i64; 2]) -> Checked<(Option<usize>, usize)> {
    let tables = floor::accepted(bytes, work)?;
    let beyond = point.iter().any(|along| along.abs() > grid::FARTHEST);
    refuse_if(beyond, 29, 0)?;
    refuse_lowest(30, tables.count(Table::Vertices), |vertex| {
        (0..3).any(|axis| scaled(&tables, vertex, axis).is_none())
    })?;
    let faces = tables.count(Table::Faces);
    let face = (0..faces).find(|&face| holds(seen_from_above(&tables, face), point));
    Ok((face, visited(&tables, point)?))
}

/// A vertex's coordinate in sixty-fourths, if it is on the grid.
fn scaled(tables: &Tables, vertex: usize, axis: usize) -> Option<i64> {
    grid::scaled(tables.word(Table::Vertices, vertex, axis))
}

/// The corners of a face by x and y in sixty-fourths. Rule 30 has put every vertex on the grid.
fn seen_from_above(tables: &Tables, face: usize) -> [[i64; 2]; 3] {
    tables
        .corners(face)
        .map(|corner| [0, 1].map(|axis| scaled(tables, corner, axis).unwrap_or(0)))
}

/// Twice the signed area of the triangle a, b, c.
fn area(a: [i64; 2], b: [i64; 2], c: [i64; 2]) -> i64 {
    (b[0] - a[0]) * (c[1] - a[1]) - (b[1] - a[1]) * (c[0] - a[0])
}

/// Whether a triangle holds a point, border included; one with no area holds none.
pub fn holds(corners: [[i64; 2]; 3], point: [i64; 2]) -> bool {
    let [a, b, c] = corners;
    let whole = area(a, b, c);
    let sides = [area(a, b, point), area(b, c, point), area(c, a, point)];
    if planted(Fault::BorderLeftOut) && sides.contains(&0) {
        return false;
    }
    match whole.signum() {
        1 => sides.iter().all(|&side| side >= 0),
        -1 => sides.iter().all(|&side| side <= 0),
        _ => false,
    }
}

/// Counts the root and every node all of whose ancestors' boxes hold x and y.
fn visited(tables: &Tables, point: [i64; 2]) -> Checked<usize> {
    let nodes = tree::nodes(tables)?;
    if nodes.is_empty() || planted(Fault::AllVisited) {
        return Ok(nodes.len());
    }
    let mut count = 0;
    let mut to_visit = vec![tree::root(tables)];
    while let Some(node) = to_visit.pop() {
        count += 1;
        if let Node::Inner { left, right } = nodes[node] {
            if holds_x_and_y(&Bounds::of(tables, node), point) {
                to_visit.extend([left, right]);
            }
        }
    }
    Ok(count)
}

/// Whether a box holds x and y, ends included. In f64 both the box and the point are exact.
fn holds_x_and_y(bounds: &Bounds, point: [i64; 2]) -> bool {
    (0..2).all(|axis| {
        let along = point[axis] as f64 / 64.0;
        f64::from(bounds.least[axis]) <= along && along <= f64::from(bounds.greatest[axis])
    })
}
