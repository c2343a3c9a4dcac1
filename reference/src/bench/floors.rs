//! The floors of the reading table: shapes at growing sizes, in order and shuffled; the largest refused
//! at its last half-edge; and half-edges that collide in the library's index.

use crate::generate::finish::shuffle_faces;
use crate::generate::model::Model;
use crate::generate::pair_damage::{forget_or_invent, repeat_last};
use crate::generate::random::Random;
use crate::generate::shapes::{shape, Shape};

/// The sizes, in faces.
const SIZES: [usize; 4] = [64, 512, 2_048, 4_096];
/// The most faces.
const MOST: usize = SIZES[3];

/// A floor to read, and what the answer is to be.
pub struct Timed {
    pub name: String,
    pub faces: usize,
    pub bytes: Vec<u8>,
    pub number: u32,
    pub place: u32,
}

/// A floor of the table before it is laid out. All are made from one seed.
fn made(kind: Shape, faces: usize) -> Model {
    shape(&mut Random::new(1), kind, faces, 0)
}

/// Lays a floor out; a refusal stands at the last half-edge.
fn timed(name: String, model: &Model, number: u32) -> Timed {
    let last = 3 * model.adjacency.len() as u32 - 1;
    Timed {
        name,
        faces: model.faces.len(),
        bytes: model.in_order(),
        number,
        place: if number == 0 { 0 } else { last },
    }
}

/// All floors of the table, in its order.
pub fn all() -> Vec<Timed> {
    let shapes = [
        ("grid", Shape::Grid),
        ("fan", Shape::Fan),
        ("strip", Shape::Strip),
    ];
    let mut floors = Vec::new();
    for (name, kind) in shapes {
        floors.extend(SIZES.map(|faces| timed(name.to_string(), &made(kind, faces), 0)));
        floors.extend(SIZES.map(|faces| shuffled(name, made(kind, faces))));
    }
    for (name, kind) in shapes {
        let mut model = made(kind, MOST);
        repeat_last(&mut model, &mut Random::new(3));
        floors.push(timed(format!("{name}, refused by 15"), &model, 15));
    }
    for (name, kind) in shapes {
        floors.push(refused_by_16(name, made(kind, MOST)));
    }
    let collide = |faces| timed("colliding".to_string(), &made(Shape::Colliding, faces), 0);
    floors.extend(SIZES[1..].iter().map(|&faces| collide(faces)));
    floors.push(refused_by_16("colliding", made(Shape::Colliding, MOST)));
    floors
}

fn shuffled(name: &str, mut model: Model) -> Timed {
    shuffle_faces(&mut model, &mut Random::new(2));
    timed(format!("{name}, shuffled"), &model, 0)
}

fn refused_by_16(name: &str, mut model: Model) -> Timed {
    let last = 3 * model.adjacency.len() - 1;
    forget_or_invent(&mut model, last);
    timed(format!("{name}, refused by 16"), &model, 16)
}
