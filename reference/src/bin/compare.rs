//! compare N SEED: runs N cases on this implementation and the other side and compares all they did.
//! compare --case I SEED: runs one of them again and shows it. --fault NAME plants a fault here;
//! --trace names each case on standard error before it runs, in case a call never returns.

use reference::calls::{OTHER, REFERENCE};
use reference::compare::{compare, run, wrong, Done, Side};
use reference::fault::{self, Fault, FAULTS};
use reference::generate::cases::{case, Case};
use reference::generate::screens::Screens;
use std::process::ExitCode;

/// No more different cases than this are shown.
const SHOWN: u64 = 10;

/// What the command line asks for.
struct Asked {
    one_case: bool,
    number: u64,
    seed: u64,
    fault: Option<Fault>,
    trace: bool,
}

fn main() -> ExitCode {
    let Some(asked) = asked() else {
        let names: Vec<&str> = FAULTS.iter().map(|(name, _)| *name).collect();
        eprintln!("compare N SEED [--fault NAME] [--trace]");
        eprintln!("compare --case I SEED [--fault NAME]");
        eprintln!("faults: {}", names.join(", "));
        return ExitCode::from(2);
    };
    let here = Side {
        calls: REFERENCE,
        fault: asked.fault,
    };
    let there = Side {
        calls: OTHER,
        fault: None,
    };
    let different = match asked.one_case {
        true => show(&asked, [&here, &there]),
        false => run_all(&asked, [&here, &there]),
    };
    ExitCode::from(u8::from(different))
}

fn asked() -> Option<Asked> {
    let mut asked = Asked {
        one_case: false,
        number: 0,
        seed: 0,
        fault: None,
        trace: false,
    };
    let mut numbers = Vec::new();
    let mut words = std::env::args().skip(1);
    while let Some(word) = words.next() {
        match word.as_str() {
            "--case" => asked.one_case = true,
            "--trace" => asked.trace = true,
            "--fault" => asked.fault = Some(fault::named(&words.next()?)?),
            number => numbers.push(number.parse().ok()?),
        }
    }
    [asked.number, asked.seed] = numbers.try_into().ok()?;
    Some(asked)
}

/// Runs all cases; true if any was different.
fn run_all(asked: &Asked, sides: [&Side; 2]) -> bool {
    let names = sides.map(|side| side.calls.name);
    println!("{} against {}, seed {}\n", names[0], names[1], asked.seed);
    let mut shown = 0;
    let starts = |number| {
        if asked.trace {
            eprintln!("case {number}");
        }
    };
    let tally = compare(asked.number, asked.seed, sides, starts, |number, found| {
        shown += 1;
        if shown <= SHOWN {
            println!("case {number} of seed {}:", asked.seed);
            for difference in found.iter().take(4) {
                println!("  {difference}");
            }
        }
    });
    if shown > 0 {
        println!("{shown} cases differ\n");
    }
    tally.print();
    tally.different > 0
}

/// Runs one case and shows what was handed in and what both sides did; true if anything is wrong.
fn show(asked: &Asked, sides: [&Side; 2]) -> bool {
    let case = case(asked.seed, asked.number);
    handed_in(&case);
    let [one, other] = sides.map(|side| run(&case, side));
    for (left, right) in one.iter().zip(&other) {
        println!(
            "{:<15}{} {}",
            left.call.name(),
            sides[0].calls.name,
            fields(left)
        );
        println!("{:<15}{} {}", "", sides[1].calls.name, fields(right));
    }
    let found = wrong(&case, sides, [&one, &other]);
    println!("\n{} differences", found.len());
    for difference in &found {
        println!("  {difference}");
    }
    !found.is_empty()
}

/// Shows bytes, those that are no plain letters as \x and two digits.
fn bytes(name: &str, bytes: &[u8]) {
    println!("{name}, {} bytes: {}", bytes.len(), bytes.escape_ascii());
}

/// Shows all that a case hands in.
fn handed_in(case: &Case) {
    match case {
        Case::One { call, lent } => {
            println!("{call:?}");
            lent.iter().for_each(|(name, slice)| bytes(name, slice));
        }
        Case::Mending(mending) => {
            bytes("floor", &mending.floor);
            bytes("out", &mending.out);
            bytes("list", &mending.list);
            println!("work, {} bytes", mending.work.len());
        }
        Case::Planting(planting) => {
            bytes("floor", &planting.floor);
            bytes("out", &planting.out);
            println!("work, {} bytes", planting.work.len());
        }
        Case::Screens(screens) => handed_in_twice(screens),
        Case::Session(play) => {
            bytes("floor", &play.floor);
            bytes("journal", &play.journal);
            println!("f {}", play.f);
            play.moves.iter().for_each(|next| println!("{next:?}"));
        }
        Case::Pair(pair) => {
            bytes("floor", &pair.floor);
            bytes("journal", &pair.journal);
            println!("f {}", pair.f);
            println!("both orders of {:?}", pair.edits);
            if let Some(sum) = pair.by_the_sum() {
                println!("and by the sum {sum:?}");
            }
        }
    }
    println!();
}

/// Shows two pairs of texts and what is handed in beside either of them.
fn handed_in_twice(screens: &Screens) {
    for pair in 0..2 {
        bytes("layout", &screens.layouts[pair]);
        bytes("vis", &screens.sights[pair]);
        bytes("name", &screens.names[pair]);
    }
    bytes("house", &screens.house);
    bytes("floor", &screens.floor);
    println!("work, {} bytes", screens.work.len());
    println!("room {} of {}", screens.room, screens.rooms);
    println!("asked for {:?}", screens.asked);
    bytes("typed", &screens.typed);
    bytes("typed", &screens.with_break);
    println!("outputs {:?}, renamed {:?}", screens.plain, screens.renamed);
}

fn fields(done: &Done) -> String {
    let fields: Vec<String> = done
        .fields
        .iter()
        .map(|(name, value)| format!("{name} {value}"))
        .collect();
    fields.join(", ")
}
