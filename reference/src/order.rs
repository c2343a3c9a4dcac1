//! Edits and their order: what request M-107 says of two edits, by any benches, judged on what one side
//! answered and on the floors it left. Neither a journal nor the other side is looked at, so that a
//! mistake that both sides share is noticed too.

use crate::compare::{first_difference, Done, GUARD};
use crate::generate::edit_pairs::Pair;
use crate::journal::{LARGEST_STEP, LINK, NUDGE, PAINT};
use crate::words::word_at;

/// The request's sentences.
pub const EITHER_ORDER: &str =
    "two edits of different fields, each accepted on the start with room \
    for both, give the same floor in either order";
pub const LATER_ALONE: &str =
    "two paints or two links of one field, accepted one after the other, \
    leave what the later one alone would leave";
pub const BY_THE_SUM: &str =
    "two nudges of one field, accepted one after the other, leave what one \
    nudge by the sum would, if that is a permitted step";

/// What the request does not say but 01 makes true.
pub const NO_STEP: &str =
    "a nudge by a sum that is no permitted step is refused with 24 at its place";
pub const LATER_DECIDES: &str =
    "two paints or two links of one field with different values, accepted \
    in both orders, leave different floors";
pub const NUDGES_EITHER_ORDER: &str =
    "two nudges of one field, accepted in both orders, leave the \
    same floor";

/// The refusal of a step that is not permitted.
const REFUSED_STEP: u64 = 24;

/// What one side did with a pair, each run from the same start.
struct Runs<'a> {
    /// Both edits one after the other, the first one first and the second one first.
    orders: [[&'a Done; 2]; 2],
    /// The nudge by the sum, for two nudges of one field.
    by_the_sum: Option<&'a Done>,
}

impl<'a> Runs<'a> {
    /// The calls in the order in which `Pair::plays` has them.
    fn of(all: &'a [Done]) -> Runs<'a> {
        let [one, then_other, other, then_one, rest @ ..] = all else {
            unreachable!("a pair is played in both orders");
        };
        Runs {
            orders: [[one, then_other], [other, then_one]],
            by_the_sum: rest.first(),
        }
    }

    /// Whether both edits were accepted one after the other in this order.
    fn accepted(&self, order: usize) -> bool {
        self.orders[order].iter().all(|done| done.number() == 0)
    }

    /// Whether that is so in both orders.
    fn accepted_in_both(&self) -> bool {
        self.accepted(0) && self.accepted(1)
    }

    /// The later edit of this order after the earlier one.
    fn later(&self, order: usize) -> &'a Done {
        self.orders[order][1]
    }

    /// The later edit of this order alone on the start, which is where the other order begins.
    fn later_alone(&self, order: usize) -> &'a Done {
        self.orders[1 - order][0]
    }
}

/// The floor as a call left it, guards included.
fn floor(done: &Done) -> &[u8] {
    &done.memory[0].1
}

/// Why two calls are not both accepted with the same floor left; nothing if they are.
fn unlike(one: &Done, other: &Done) -> Option<String> {
    if let Some(refused) = [one, other].into_iter().find(|done| done.number() != 0) {
        let (call, number) = (refused.call.name(), refused.number());
        return Some(format!("a {call} is refused with {number}"));
    }
    let at = first_difference(floor(one), floor(other))?;
    Some(format!(
        "byte {} of the floor is {:02x} and {:02x}",
        at as i64 - GUARD as i64,
        floor(one)[at],
        floor(other)[at]
    ))
}

/// The sentences that one side broke with a pair, each with how it did.
pub fn broken(pair: &Pair, done: &[Done]) -> Vec<String> {
    let runs = Runs::of(done);
    let all = match (pair.is_of_one_field(), pair.edits[0].tag) {
        (false, _) => vec![either_order(pair, &runs)],
        (true, NUDGE) => vec![
            sum(pair, &runs, 0),
            sum(pair, &runs, 1),
            nudges_either_order(&runs),
        ],
        (true, _) => vec![
            later_alone(&runs, 0),
            later_alone(&runs, 1),
            later_decides(pair, &runs),
        ],
    };
    let mut found: Vec<String> = all.into_iter().flatten().collect();
    found.dedup(); // both orders may break a sentence alike
    found
}

/// A broken sentence and how it was broken.
fn say(sentence: &str, how: String) -> String {
    format!("{sentence}: {how}")
}

/// Different fields: if each is accepted on the start and there is room for both, so are both in
/// either order, and the floors are equal byte for byte.
fn either_order(pair: &Pair, runs: &Runs) -> Option<String> {
    let each_alone = [0, 1]
        .iter()
        .all(|&order| runs.later_alone(order).number() == 0);
    if !each_alone || !pair.has_room_for_both() {
        return None;
    }
    let how = unlike(runs.later(0), runs.later(1))?;
    Some(say(EITHER_ORDER, how))
}

/// Two paints or two links of one field: the later one alone is accepted too, with the same floor.
fn later_alone(runs: &Runs, order: usize) -> Option<String> {
    if !runs.accepted(order) {
        return None;
    }
    let how = unlike(runs.later(order), runs.later_alone(order))?;
    Some(say(LATER_ALONE, how))
}

/// Two paints or two links of one field with different values: in each order the later one decides.
fn later_decides(pair: &Pair, runs: &Runs) -> Option<String> {
    let [one, other] = pair.edits;
    let same = || first_difference(floor(runs.later(0)), floor(runs.later(1))).is_none();
    let broken = one.to != other.to && runs.accepted_in_both() && same();
    broken.then(|| say(LATER_DECIDES, "the floors are the same".to_string()))
}

/// Two nudges of one field: the nudge by the sum is accepted with the same floor, or, where the sum
/// is no permitted step, refused for that.
fn sum(pair: &Pair, runs: &Runs, order: usize) -> Option<String> {
    let (edit, done) = (pair.by_the_sum()?, runs.by_the_sum?);
    if !runs.accepted(order) {
        return None;
    }
    if is_step(edit.to) {
        let how = unlike(runs.later(order), done)?;
        return Some(say(BY_THE_SUM, how));
    }
    let (number, place) = (done.number(), done.fields[1].1);
    let refused = number == REFUSED_STEP && place == u64::from(edit.place);
    (!refused).then(|| say(NO_STEP, format!("the answer is {number} at {place}")))
}

/// Whether a nudge may add so many sixty-fourths.
fn is_step(to: u32) -> bool {
    i64::from(to as i32).abs() <= LARGEST_STEP
}

/// Two nudges of one field leave the same floor in both orders, if both orders are accepted.
fn nudges_either_order(runs: &Runs) -> Option<String> {
    if !runs.accepted_in_both() {
        return None;
    }
    let how = unlike(runs.later(0), runs.later(1))?;
    Some(say(NUDGES_EITHER_ORDER, how))
}

/// How many pairs the sentences had something to say of.
#[derive(Clone, Copy, Debug, Default)]
pub struct Counts {
    pub pairs: usize,
    /// Of different fields, accepted in both orders.
    pub different_fields: usize,
    /// Of one field, accepted one after the other in at least one order.
    pub two_paints: usize,
    pub two_links: usize,
    pub two_nudges: usize,
    /// Of those nudges: accepted in one order alone, with a sum that is no permitted step, and with
    /// a zero left.
    pub in_one_order: usize,
    pub no_step: usize,
    pub at_zero: usize,
    /// Of all those pairs: by two benches.
    pub by_two_benches: usize,
}

impl Counts {
    /// Counts one pair by what a side did with it.
    pub fn add(&mut self, pair: &Pair, all: &[Done]) {
        let runs = Runs::of(all);
        self.pairs += 1;
        let order = match pair.is_of_one_field() {
            true => (0..2).find(|&order| runs.accepted(order)),
            false => runs.accepted_in_both().then_some(0),
        };
        let Some(order) = order else {
            return;
        };
        self.by_two_benches += usize::from(!pair.is_by_one_bench());
        match (pair.is_of_one_field(), pair.edits[0].tag) {
            (false, _) => self.different_fields += 1,
            (true, PAINT) => self.two_paints += 1,
            (true, LINK) => self.two_links += 1,
            (true, _) => self.add_nudges(pair, &runs, order),
        }
    }

    /// Counts two nudges of one field that this order accepted.
    fn add_nudges(&mut self, pair: &Pair, runs: &Runs, order: usize) {
        let no_step = pair.by_the_sum().is_some_and(|edit| !is_step(edit.to));
        let at = GUARD + 12 + 4 * pair.edits[0].place as usize;
        let left = f32::from_bits(word_at(floor(runs.later(order)), at));
        self.two_nudges += 1;
        self.in_one_order += usize::from(!runs.accepted_in_both());
        self.no_step += usize::from(no_step);
        self.at_zero += usize::from(left == 0.0);
    }

    /// All counts in one line.
    pub fn line(&self) -> String {
        format!(
            "pairs of edits {}: of different fields accepted in both orders {}; of one field accepted \
             one after the other: paints {}, links {}, nudges {}, of which in one order alone {}, with \
             a sum that is no step {}, ended at a zero {}; of all these by two benches {}",
            self.pairs,
            self.different_fields,
            self.two_paints,
            self.two_links,
            self.two_nudges,
            self.in_one_order,
            self.no_step,
            self.at_zero,
            self.by_two_benches
        )
    }
}
