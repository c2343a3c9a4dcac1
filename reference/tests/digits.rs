//! Numbers as typed: what is written of each shape, the longest form, numbers of every shape in the cases, and each
//! sentence about rewritten layouts noticed where it is broken, even if both sides break it alike and so do not differ.

mod common;

use common::*;
use reference::calls::REFERENCE;
use reference::compare::compare;
use reference::digits::*;
use reference::fault::Fault;
use reference::number::{Number, MOST_AFTER, MOST_BEFORE};
use std::collections::BTreeSet;

/// How many cases show each broken sentence.
const CASES: u64 = 1_000;

/// What is written of a typed number.
fn written(typed: &str) -> String {
    Number::of(typed.as_bytes()).expect("a number").written()
}

#[test]
fn numbers_keep_their_digits() {
    for (typed, form) in [
        ("1.5", "1.5"),
        ("0", "0"),
        ("-0", "0"),
        ("-0.00", "0.00"),
        ("007.10", "7.10"),
        ("-00.010", "-0.010"),
        ("10", "10"),
        ("00000.000000", "0.000000"),
        ("-00000.000001", "-0.000001"),
        ("-99999.999999", "-99999.999999"),
        ("100.0", "100.0"),
    ] {
        assert_eq!(written(typed), form, "{typed}");
        assert_eq!(kept(typed.as_bytes()), form.as_bytes(), "{typed}");
    }
}

/// Numbers of every shape, each with several digits.
fn of_every_shape() -> Vec<String> {
    let mut typed = Vec::new();
    for before in 1..=MOST_BEFORE {
        for after in 0..=MOST_AFTER {
            for digits in ["000000", "012300", "120004", "500000", "000007", "999999"] {
                let point = if after > 0 { "." } else { "" };
                let number = format!("{}{point}{}", &digits[..before], &digits[..after]);
                let other = format!("{}{point}{}", &digits[..before], &digits[6 - after..]);
                typed.extend([format!("-{number}"), format!("-{other}"), number, other]);
            }
        }
    }
    typed
}

#[test]
fn every_shape_is_written_as_typed_and_read_back() {
    let mut shapes = BTreeSet::new();
    for typed in of_every_shape() {
        let form = written(&typed);
        assert_eq!(form.as_bytes(), kept(typed.as_bytes()), "{typed}");
        let [once, again] = [&typed, &form].map(|word| Number::of(word.as_bytes()));
        assert_eq!(once, again, "{typed}");
        shapes.insert(shape(typed.as_bytes()));
    }
    assert_eq!(shapes.len(), SHAPES);
}

#[test]
fn the_longest_form_has_24340_bytes() {
    let mut text = String::from("beginlayout\n");
    for keyword in ["roomcount", "trackcount", "obstaclecount"] {
        text.push_str(&format!("{keyword} 64\n"));
        for entry in 0..64 {
            text.push_str(&format!("a_long_name_of{entry:02}"));
            text.push_str(&" -99999.999999".repeat(3));
            text.push('\n');
        }
    }
    text.push_str("doorhookcount 64\n");
    for hook in 0..64 {
        text.push_str(&format!(
            "a_long_name_of{:02} a_long_door_of{hook:02}",
            63 - hook
        ));
        text.push_str(&" -99999.999999".repeat(12));
        text.push('\n');
    }
    text.push_str("donelayout\n");
    assert_eq!(text.len(), 24_340);
    let (answer, form) = layout_form(&text);
    assert_eq!((answer.number, answer.length), (0, 24_340));
    assert_eq!(form, text.as_bytes());
}

#[test]
fn numbers_of_every_shape_occur() {
    let tally = compare(8_000, 7, [&HONEST, &HONEST], |_| (), |_, _| ());
    assert_eq!(tally.digits.shapes.len(), SHAPES);
    let fewest = tally.digits.shapes.iter().min_by_key(|(_, count)| **count);
    assert!(fewest.is_some_and(|(_, &count)| count >= 5), "{fewest:?}");
}

#[test]
fn planted_faults_break_sentences() {
    for (fault, sentences) in [
        (Fault::SixDigits, &[AS_TYPED, SAME_PARTS][..]),
        (Fault::OneDigitMore, &[AS_TYPED, SAME_PARTS, TWICE]),
        (Fault::ZerosDropped, &[AS_TYPED, SAME_PARTS]),
        (Fault::BarePoint, &[AS_TYPED, SAME_PARTS, TWICE]),
        (Fault::MinusZeroTyped, &[AS_TYPED]),
    ] {
        let found = broken_by_both(CASES, REFERENCE, Some(fault));
        are_noticed(&found, sentences);
    }
}
