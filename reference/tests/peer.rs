//! The peer gives the answers of this implementation: on cases of the comparison, sound and damaged, and on
//! all floors that are timed.

mod common;

use common::read;
use reference::bench::floors;
use reference::generate::damage;
use reference::generate::random::Random;
use reference::sorted::Peer;
use std::collections::BTreeMap;

#[test]
fn floors_sound_and_damaged() {
    let mut random = Random::new(21);
    let mut peer = Peer::new();
    let mut answered = BTreeMap::new();
    for _ in 0..30_000 {
        let bytes = match random.under(5) {
            0 => damage::good(&mut random),
            1 => damage::noise(&mut random),
            _ => damage::bad(&mut random),
        };
        let answer = read(&bytes);
        assert_eq!(peer.read(&bytes), answer);
        *answered.entry(answer.number).or_insert(0) += 1;
    }
    for number in 0..20 {
        assert!(answered[&number] >= 20, "{number}: {answered:?}");
    }
}

#[test]
fn floors_that_are_timed() {
    let mut peer = Peer::new();
    for floor in floors::all() {
        let answer = read(&floor.bytes);
        assert_eq!(peer.read(&floor.bytes), answer, "{}", floor.name);
        let wanted = (floor.number, floor.place);
        assert_eq!((answer.number, answer.place), wanted, "{}", floor.name);
        assert!(answer.number != 0 || answer.faces as usize == floor.faces);
    }
}
