//! Small floors and texts made by hand, short names for calls with enough work memory, and what both sides break alike.
#![allow(dead_code)] // each test program uses some of these

use reference::answer::{Floor, Form, Point, Session};
use reference::calls::{Calls, REFERENCE};
use reference::compare::{compare, Side};
use reference::fault::Fault;
use reference::floor;
use reference::generate::bare::enough;
use reference::generate::model::Model;
use reference::{form, layout, plant, query, sight};

pub const NONE: u32 = 0xFFFF_FFFF;

/// This implementation with no fault planted.
pub const HONEST: Side = Side {
    calls: REFERENCE,
    fault: None,
};

/// What is found wrong in so many cases if both sides are this one: sentences alone, for they do not differ.
pub fn broken_by_both(cases: u64, calls: Calls, fault: Option<Fault>) -> Vec<String> {
    let side = Side { calls, fault };
    let mut all = Vec::new();
    compare(
        cases,
        3,
        [&side, &side],
        |_| (),
        |_, found| all.extend(found),
    );
    for words in &all {
        assert!(words.starts_with("reference breaks: "), "{words}");
    }
    all
}

/// Checks that each of these sentences is among what was found.
pub fn are_noticed(found: &[String], sentences: &[&str]) {
    for sentence in sentences {
        let noticed = found.iter().any(|words| words.contains(sentence));
        assert!(noticed, "not noticed: {sentence}");
    }
}

pub fn bits(numbers: [f32; 3]) -> [u32; 3] {
    numbers.map(f32::to_bits)
}

pub fn node(least: [f32; 3], greatest: [f32; 3], words: [u32; 5]) -> [u32; 11] {
    let mut node = [0; 11];
    node[..3].copy_from_slice(&bits(least));
    node[3..6].copy_from_slice(&bits(greatest));
    node[6..].copy_from_slice(&words);
    node
}

/// The answer of a journal call.
pub fn session(number: u32, place: u32, f: u32) -> Session {
    Session { number, place, f }
}

/// One walkable triangle (0,0), (1,0), (0,1).
pub fn triangle() -> Model {
    Model {
        vertices: vec![
            bits([0.0, 0.0, 0.0]),
            bits([1.0, 0.0, 0.0]),
            bits([0.0, 1.0, 0.0]),
        ],
        faces: vec![[0, 1, 2]],
        materials: vec![4],
        normals: vec![bits([0.0, 0.0, 1.0])],
        distances: vec![0],
        nodes: vec![node([0.0; 3], [1.0, 1.0, 0.0], [0, 0, 0, NONE, NONE])],
        adjacency: vec![[NONE; 3]],
        edges: vec![[0, NONE], [1, NONE], [2, NONE]],
        perimeters: vec![3],
        ..Model::default()
    }
}

/// The faces (0,1,2) and (2,1,3) of W5 and W6.
pub fn square() -> Model {
    let mut model = triangle();
    model.vertices.push(bits([1.0, 1.0, 0.0]));
    model.faces.push([2, 1, 3]);
    model.materials.push(4);
    model.normals.push(bits([0.0, 0.0, 1.0]));
    model.distances.push(0);
    let whole = ([0.0; 3], [1.0, 1.0, 0.0]);
    model.nodes = vec![
        node(whole.0, whole.1, [NONE, 7, 1, 1, 2]),
        node(whole.0, whole.1, [0, 0, 0, NONE, NONE]),
        node(whole.0, whole.1, [1, 0, 0, NONE, NONE]),
    ];
    model.adjacency = vec![[NONE, 3, NONE], [1, NONE, NONE]];
    model.edges = [0, 4, 5, 2].map(|h| [h, NONE]).to_vec();
    model.perimeters = vec![4];
    model
}

/// The square of W5 over these four vertices, without nodes and with a root field that says nothing.
pub fn bare_square(vertices: [[f32; 3]; 4]) -> Model {
    Model {
        vertices: vertices.map(bits).to_vec(),
        nodes: Vec::new(),
        root: 0x8000_0000,
        ..square()
    }
}

/// The same over the vertices of W5.
pub fn plain_square() -> Model {
    bare_square([[0.0; 3], [1.0, 0.0, 0.0], [0.0, 1.0, 0.0], [1.0, 1.0, 0.0]])
}

/// Two walkable triangles that share no vertex: two loops.
pub fn two_apart() -> Model {
    let mut model = square();
    model
        .vertices
        .extend([bits([0.5, 0.0, 0.0]), bits([0.0, 0.5, 0.0])]);
    model.faces[1] = [3, 4, 5];
    model.adjacency = vec![[NONE; 3]; 2];
    model.edges = (0..6).map(|h| [h, NONE]).collect();
    model.perimeters = vec![3, 6];
    model
}

pub fn read(bytes: &[u8]) -> Floor {
    let mut work = vec![0xEE; floor::WORK];
    let answer = floor::read(bytes, &mut work);
    assert!(work.iter().all(|&byte| byte == 0));
    answer
}

/// The reader's number and place for a model laid out in order.
pub fn verdict(model: &Model) -> (u32, u32) {
    let answer = read(&model.in_order());
    if answer.number != 0 {
        assert_eq!((answer.faces, answer.walkable), (0, 0));
        assert_eq!((answer.edges, answer.perimeters), (0, 0));
    }
    (answer.number, answer.place)
}

/// The same for bytes changed at one word.
pub fn verdict_with(model: &Model, at: usize, word: u32) -> (u32, u32) {
    let mut bytes = model.in_order();
    bytes[at..at + 4].copy_from_slice(&word.to_le_bytes());
    let answer = read(&bytes);
    (answer.number, answer.place)
}

pub fn query(bytes: &[u8], x: i32, y: i32) -> Point {
    query::query(bytes, &mut vec![0; floor::WORK], x, y)
}

/// Rewrites bytes into 1,000,000 bytes of 0xEE and gives the answer and what was written.
pub fn rewritten(bytes: &[u8]) -> (Form, Vec<u8>) {
    let mut out = vec![0xEE; 1_000_000];
    let answer = form::rewrite(bytes, &mut vec![0; floor::WORK], &mut out);
    kept_past(&answer, out)
}

/// Gives bytes a tree with room enough; what is past the form must stay, and the work memory be as after reading.
pub fn planted(bytes: &[u8]) -> (Form, Vec<u8>) {
    let mut work = vec![0xEE; floor::WORK + 3];
    let mut out = vec![0xEE; enough(bytes) + 3];
    let answer = plant::tree(bytes, &mut work, &mut out);
    assert!(work[..floor::WORK].iter().all(|&byte| byte == 0));
    assert_eq!(work[floor::WORK..], [0xEE; 3]);
    kept_past(&answer, out)
}

/// The number and place with which bytes are refused; they must be.
pub fn refused(bytes: &[u8]) -> (u32, u32) {
    let answer = planted(bytes).0;
    assert_ne!(answer.number, 0);
    assert_eq!(answer.length, 0);
    (answer.number, answer.place)
}

/// The same of a model laid out in order.
pub fn refusal(model: &Model) -> (u32, u32) {
    refused(&model.in_order())
}

pub fn layout_form(text: &str) -> (Form, Vec<u8>) {
    let mut out = vec![0xEE; 70_000];
    let answer = layout::rewrite(text.as_bytes(), &mut out);
    kept_past(&answer, out)
}

pub fn sight_form(layout: &str, vis: &str) -> (Form, Vec<u8>) {
    let mut out = vec![0xEE; 70_000];
    let answer = sight::rewrite(layout.as_bytes(), vis.as_bytes(), &mut out);
    kept_past(&answer, out)
}

pub fn kept_past(answer: &Form, mut out: Vec<u8>) -> (Form, Vec<u8>) {
    let past = out.split_off(answer.length as usize);
    assert!(past.iter().all(|&byte| byte == 0xEE));
    (*answer, out)
}

/// The number and place of a layout text.
pub fn layout_verdict(text: &str) -> (u32, u32) {
    let answer = layout_form(text).0;
    (answer.number, answer.place)
}

/// The number and place of a sight text over rooms hall, cave and roof.
pub fn sight_verdict(vis: &str) -> (u32, u32) {
    let answer = sight_form(THREE_ROOMS, vis).0;
    (answer.number, answer.place)
}

pub const THREE_ROOMS: &str = "beginlayout\nroomcount 3\nHall 0 0 0\nCave 1 2 3\nroof -1 -2 -3\n\
                               donelayout\n";
