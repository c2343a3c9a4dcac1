//! Door hooks of generated layouts, and damage to them: aimed at each refusal of a hook, at their order and at their count.
//! What one hook can have wrong together is tried in turn.

use super::random::Random;
use super::texts::{self, recased, Plan, Word};

/// Adds a section of hooks in these rooms: none, few or 64.
pub fn add_section(plan: &mut Plan, random: &mut Random, rooms: &[Word]) {
    let count = match rooms.is_empty() {
        true => 0,
        false => texts::section_size(random),
    };
    add(plan, random, rooms, count);
}

/// Adds so many hooks, of either number of words or of both.
pub fn add(plan: &mut Plan, random: &mut Random, rooms: &[Word], count: usize) {
    let count_word = texts::count(random, count);
    plan.push(vec![b"doorhookcount".to_vec(), count_word]);
    let numbers = random.pick(&[[7, 7], [12, 12], [7, 12], [7, 12]]);
    let near = random.pick(&[1, 2, rooms.len(), rooms.len()]);
    let near = &rooms[rooms.len().saturating_sub(near)..];
    for door in doors(random, rooms, count) {
        let room = recased_one(random, near);
        let count = random.pick(&numbers);
        plan.push(hook(random, room, door, count));
    }
}

/// A hook's words.
fn hook(random: &mut Random, room: Word, door: Word, numbers: usize) -> Vec<Word> {
    let numbers = (0..numbers).map(|_| texts::number(random));
    [room, door].into_iter().chain(numbers).collect()
}

/// One of these names, in letters of any case.
pub(super) fn recased_one(random: &mut Random, names: &[Word]) -> Word {
    let at = random.under(names.len());
    recased(random, &names[at])
}

/// Names of doors that differ in any letters; now and then that of a room, or one that begins like another door's.
fn doors(random: &mut Random, rooms: &[Word], count: usize) -> Vec<Word> {
    texts::differing(count, |doors| match random.under(6) {
        0 | 1 => recased_one(random, rooms),
        2 => texts::akin_to_one(random, doors),
        _ => texts::name(random),
    })
}

/// The line of the hooks' count, if there is one.
fn count_line(plan: &Plan) -> Option<usize> {
    let is_count = |words: &Vec<Word>| words.len() == 2 && words[0] == b"doorhookcount";
    plan.iter().position(is_count)
}

/// Damages the hooks of a layout that has a section of them, else leaves it as it is. True if there was one.
pub fn damage(random: &mut Random, plan: &mut Plan) -> bool {
    let Some(at) = count_line(plan) else {
        return false;
    };
    let hooks: Vec<usize> = (at + 1..plan.len().saturating_sub(1)).collect();
    match (hooks.is_empty(), random.under(14)) {
        (true, _) => first(random, plan, at),
        (_, 0 | 8) => plan.truncate(random.pick(&hooks)), // 38
        (_, 1 | 2) => counted(random, plan, at, hooks.len()),
        (_, 3) => lose_rooms(random, plan),
        (_, 4) => plan.push(plan[random.pick(&hooks)].clone()), // a late line
        (_, 5) => {
            let other = random.pick(&[at, at + 1, plan.len() - 1]);
            plan.swap(random.pick(&hooks), other);
        }
        (_, 6 | 7) => once_more(random, plan, at, &hooks),
        _ => {
            for _ in 0..random.pick(&[1, 1, 1, 2]) {
                let wrong = Wrong::in_turn(1 + random.under(WAYS + 1));
                one_hook(random, plan, &hooks, wrong);
            }
        }
    }
    true
}

/// A hook where there was none, in a room that there is or not; without rooms it is always 39.
fn first(random: &mut Random, plan: &mut Plan, at: usize) {
    let known = plan.get(2).and_then(|words| words.first());
    let room = match known.filter(|_| random.once_in(2)) {
        Some(name) => name.clone(),
        None => texts::name(random),
    };
    let (door, numbers) = (texts::name(random), random.pick(&[7, 12]));
    plan[at][1] = b"1".to_vec();
    let words = hook(random, room, door, numbers);
    plan.insert(at + 1, words);
}

/// A count that is none or too large: 36; one more or less than there are hooks: 33 or 38.
fn counted(random: &mut Random, plan: &mut Plan, at: usize, count: usize) {
    plan[at][1] = match random.under(4) {
        0 => (count + 1).to_string().into_bytes(),
        1 => (count - 1).to_string().into_bytes(),
        _ => random
            .pick(&["65", "66", "99", "064", "100", "-1", "1.0", "x", "64", "0"])
            .as_bytes()
            .to_vec(),
    };
}

/// A hook once more behind it, counted, its door in letters of any case: 37, half of the time with a number wrong besides.
fn once_more(random: &mut Random, plan: &mut Plan, at: usize, hooks: &[usize]) {
    let one = random.under(hooks.len());
    let mut again = plan[hooks[one]].clone();
    if let [_, door, .., last] = &mut again[..] {
        *door = recased(random, door);
        if random.once_in(2) {
            *last = b"1.".to_vec();
        }
    }
    plan.insert(random.pick(&hooks[one..]) + 1, again);
    plan[at][1] = (hooks.len() + 1).to_string().into_bytes();
}

/// All rooms lost, or one: 39 of the hooks there.
fn lose_rooms(random: &mut Random, plan: &mut Plan) {
    if plan[1].len() != 2 {
        return;
    }
    let rooms = plan[2..].iter().take_while(|words| words.len() == 4);
    let rooms = rooms.count();
    let lost = random.pick(&[1, 1, rooms]).min(rooms);
    let from = 2 + random.under(rooms - lost + 1);
    plan.drain(from..from + lost);
    plan[1][1] = (rooms - lost).to_string().into_bytes();
}

/// What is wrong with a hook: the room and the door, which have two faults each, a number, and how many words there are.
#[derive(Clone, Copy, Debug)]
struct Wrong {
    room: Option<u32>,
    door: Option<u32>,
    number: bool,
    words: bool,
}

/// How many turns there are: every way in which room, door and numbers are right or wrong, a wrong number of words with all
/// else wrong and with all else right, and some more that are right.
pub const TURNS: usize = WAYS + 2 + 4;
const WAYS: usize = 3 * 3 * 2;

impl Wrong {
    /// One way after the other.
    fn in_turn(turn: usize) -> Wrong {
        let way = match turn % TURNS {
            WAYS => WAYS - 1,
            turn if turn > WAYS => 0,
            turn => turn,
        };
        Wrong {
            room: [None, Some(34), Some(39)][way % 3],
            door: [None, Some(34), Some(37)][way / 3 % 3],
            number: way / 9 == 1,
            words: [WAYS, WAYS + 1].contains(&(turn % TURNS)),
        }
    }

    fn is_right(self) -> bool {
        self.room.is_none() && self.door.is_none() && !self.number && !self.words
    }
}

/// Whether the hook of this turn is right.
pub fn is_right_in_turn(turn: usize) -> bool {
    Wrong::in_turn(turn).is_right()
}

/// Damages one of the hooks that were added last, in the way of this turn. There have to be two.
pub fn damage_in_turn(random: &mut Random, plan: &mut Plan, turn: usize) {
    if let Some(at) = count_line(plan) {
        let hooks: Vec<usize> = (at + 1..plan.len()).collect();
        one_hook(random, plan, &hooks, Wrong::in_turn(turn));
    }
}

/// Makes one hook wrong in this way. The first hook has no earlier one whose door it could have.
fn one_hook(random: &mut Random, plan: &mut Plan, hooks: &[usize], wrong: Wrong) {
    let late = (1 + random.under(hooks.len() - 1)).min(hooks.len() - 1);
    let (earlier, at) = (hooks[random.under(late)], hooks[late]);
    let twin = plan[earlier].get(1).cloned();
    let [room, door, numbers @ ..] = &mut plan[at][..] else {
        return;
    };
    match wrong.room {
        Some(34) => *room = not_a_name(random),
        Some(_) => *room = unknown(random, room, door),
        None => (),
    }
    match (wrong.door, twin) {
        (Some(37), Some(twin)) => *door = recased(random, &twin),
        (Some(_), _) => *door = not_a_name(random),
        (None, _) => (),
    }
    if wrong.number && !numbers.is_empty() {
        let wrong = ["-", "1.", ".5", "123456", "1.1234567", "x", "1_0", "1.2.3"];
        for _ in 0..random.pick(&[1, 1, 2]) {
            numbers[random.under(numbers.len())] = random.pick(&wrong).as_bytes().to_vec();
        }
    }
    if wrong.words {
        let words = random.pick(&[1, 2, 4, 8, 8, 10, 10, 11, 12, 13, 13, 15, 15, 16]);
        plan[at].resize(words, b"0.5".to_vec());
    }
}

/// A name that no room has, or hardly: 39.
fn unknown(random: &mut Random, room: &[u8], door: &[u8]) -> Word {
    match random.under(4) {
        0 => door.to_vec(),
        1 | 2 => texts::akin(random, room),
        _ => b"nobody_knows".to_vec(),
    }
}

fn not_a_name(random: &mut Random) -> Word {
    let wrong = ["x.y", "-", "a-b", "a_very_long_name1", "1.5"];
    random.pick(&wrong).as_bytes().to_vec()
}
