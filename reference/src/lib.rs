//! Document 01 once more, written from the paper alone: floors, queries, journals, layouts and sight.
//! It favours plain data and visible rules over speed, so that it can judge another implementation.
//! Only `sorted` is written for speed: its times are what others are compared with.

pub mod answer;
pub mod beginnings;
pub mod bench;
pub mod benches;
pub mod calls;
pub mod caption;
pub mod compare;
pub mod digits;
pub mod doors;
pub mod fault;
pub mod floor;
pub mod form;
pub mod generate;
pub mod grid;
pub mod hooks;
pub mod journal;
pub mod layout;
pub mod links;
pub mod mend;
pub mod number;
pub mod order;
pub mod plant;
pub mod query;
pub mod screens;
pub mod seams;
pub mod sight;
pub mod sorted;
pub mod tally;
pub mod text;
pub mod trees;
pub mod words;
