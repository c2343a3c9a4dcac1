//! bench: times the library. bench read: reading, beside a program with a sorted list; bench rest: all
//! calls, beside this implementation; without a word both.

use reference::bench::{reading, rest};
use std::process::ExitCode;

fn main() -> ExitCode {
    let words: Vec<String> = std::env::args().skip(1).collect();
    let words: Vec<&str> = words.iter().map(String::as_str).collect();
    match words[..] {
        ["read"] => reading::table(),
        ["rest"] => rest::table(),
        [] => {
            reading::table();
            println!();
            rest::table();
        }
        _ => {
            eprintln!("bench [read | rest]");
            return ExitCode::from(2);
        }
    }
    ExitCode::SUCCESS
}
