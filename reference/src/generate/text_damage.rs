//! Damage to valid texts: to words and lines, aimed at the rules 33 to 39, and to bytes for 31 and 32.

use super::hooks;
use super::random::Random;
use super::texts::{self, line, Plan, Word};

/// Damages a plan once, or now and then twice. Where there are hooks, half of the time it is one of them.
pub fn plan(random: &mut Random, plan: &mut Plan) {
    for _ in 0..random.pick(&[1, 1, 1, 2]) {
        if plan.is_empty() {
            plan.push(vec![texts::name(random)]);
        }
        if random.once_in(2) && hooks::damage(random, plan) {
            continue;
        }
        match random.under(9) {
            0 | 1 => lines(random, plan),
            2 => words(random, plan),
            3 => keyword(random, plan),
            4 => name(random, plan),
            5 => number(random, plan),
            6 => count(random, plan),
            7 => one_line(random, plan),
            _ => twice(random, plan),
        }
    }
}

/// Lines lost, doubled, swapped, late, or missing at the end: 33 and 38.
fn lines(random: &mut Random, plan: &mut Plan) {
    let at = random.under(plan.len());
    let other = random.under(plan.len());
    match random.under(6) {
        0 => drop(plan.remove(at)),
        1 => plan.insert(at, plan[at].clone()),
        2 => plan.swap(at, other),
        3 => plan.truncate(at),
        4 => plan.truncate(plan.len() - 1),
        _ => plan.push(line(&[random.pick(&["late", "donelayout", "0"])])),
    }
}

/// A word too many or too few: 33.
fn words(random: &mut Random, plan: &mut Plan) {
    let at = random.under(plan.len());
    let words = &mut plan[at];
    match random.once_in(2) && !words.is_empty() {
        true => drop(words.remove(random.under(words.len()))),
        false => words.insert(random.under(words.len() + 1), b"0".to_vec()),
    }
}

/// A keyword in other letters or another keyword: 33.
fn keyword(random: &mut Random, plan: &mut Plan) {
    let keywords = [
        "beginlayout",
        "roomcount",
        "trackcount",
        "obstaclecount",
        "doorhookcount",
        "donelayout",
    ];
    let known = |words: &Vec<Word>| keywords.iter().any(|k| words[0] == k.as_bytes());
    let places: Vec<usize> = (0..plan.len())
        .filter(|&at| plan[at].len() < 3 && !plan[at].is_empty() && known(&plan[at]))
        .collect();
    if places.is_empty() {
        return;
    }
    let word = &mut plan[random.pick(&places)][0];
    match random.under(4) {
        0 => word[0] = word[0].to_ascii_uppercase(),
        1 => word.push(b's'),
        2 => word.truncate(word.len() - 1),
        _ => *word = random.pick(&keywords).as_bytes().to_vec(),
    }
}

/// Any word of the plan that is the first, or not the first, of its line.
fn word_of<'a>(random: &mut Random, plan: &'a mut Plan, first: bool) -> Option<&'a mut Word> {
    let at = random.under(plan.len());
    let words = &mut plan[at];
    match (first, words.len()) {
        (_, 0) | (false, 1) => None,
        (true, _) => words.first_mut(),
        (false, count) => words.get_mut(1 + random.under(count - 1)),
    }
}

/// A name that is too long, or holds a byte that names may not: 34; or an unknown one, often one that begins alike: 39.
fn name(random: &mut Random, plan: &mut Plan) {
    let longer = random.pick(&["a_very_long_name1", "a_very_long_name", "nobody_knows"]);
    let byte = random.pick(b".-");
    let choice = random.under(4);
    let at = random.under(16);
    if let Some(word) = word_of(random, plan, true) {
        match choice {
            0 => word.insert(at.min(word.len()), byte),
            1 => *word = vec![byte],
            2 => *word = texts::akin(random, word),
            _ => *word = longer.as_bytes().to_vec(),
        }
    }
}

/// A number out of form: 35. In a count's place: 36.
fn number(random: &mut Random, plan: &mut Plan) {
    let wrong = random.pick(&[
        "-",
        ".",
        "1.",
        ".5",
        "--1",
        "1-",
        "1.2.3",
        "123456",
        "-123456",
        "1.1234567",
        "1e5",
        "x",
        "1_0",
        "-.5",
        "-1.",
        "99999.999999",
        "-99999.999999",
        "00000.000000",
        "-0",
        "0x1",
        "1.-5",
    ]);
    if let Some(word) = word_of(random, plan, false) {
        *word = wrong.as_bytes().to_vec();
    }
}

/// A count out of form or too large: 36; or one that the lines below do not bear out: 33, 38.
fn count(random: &mut Random, plan: &mut Plan) {
    let places: Vec<usize> = (0..plan.len()).filter(|&at| plan[at].len() == 2).collect();
    if places.is_empty() {
        return;
    }
    let wrong = random.pick(&[
        "65", "64", "99", "000", "064", "100", "-1", "-0", "1.0", "1_", "a", "0", "00", "1", "01",
        "2", "63",
    ]);
    plan[random.pick(&places)][1] = wrong.as_bytes().to_vec();
}

/// Several words of one line wrong at once, so that the order of the rules is tried.
fn one_line(random: &mut Random, plan: &mut Plan) {
    let at = random.under(plan.len());
    for word in &mut plan[at] {
        if random.once_in(2) {
            let wrong = ["x.y", "nobody_knows", "65", "1.", "-", "a_very_long_name1"];
            *word = random.pick(&wrong).as_bytes().to_vec();
        }
    }
}

/// A name that stands somewhere already, in letters of any case: 37.
fn twice(random: &mut Random, plan: &mut Plan) {
    let near = random.under(plan.len());
    let other = match random.once_in(2) {
        true => (near + 1) % plan.len(),
        false => random.under(plan.len()),
    };
    if let Some(name) = plan[near].first().cloned() {
        let name = texts::recased(random, &name);
        if let Some(word) = plan[other].first_mut() {
            *word = name;
        }
    }
}

/// Bytes that stand beside an allowed one in the table of classes, and other likely mistakes.
const BESIDE: &[u8] = b"/:@[`{,+^\x0b\x0c\x08\x1f!\x7f\x00\x80\xff";

/// Damages the bytes of a text: 31, 32, or whatever comes of it.
pub fn bytes(random: &mut Random, text: &mut Vec<u8>) {
    for _ in 0..random.pick(&[1, 1, 2]) {
        let at = random.under(text.len() + 1);
        match random.under(7) {
            0 => text.insert(at, b'\r'),
            1 => text.insert(at, random.pick(b"\n \t.-_a0Z9")),
            2 => text.insert(at, random.pick(BESIDE)),
            3 if !text.is_empty() => text.truncate(at),
            4 if at < text.len() => text[at] = random.byte(),
            5 if at < text.len() => drop(text.remove(at)),
            _ => {
                text.extend_from_slice(random.pick(&["\r", "x", "\n", " \t", "\r\r\n"]).as_bytes())
            }
        }
    }
}
