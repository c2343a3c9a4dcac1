//! Seeded cases: valid floors and texts, damaged ones aimed at every refusal, texts alike but for one name, floors with
//! split seams, floors without nodes, sessions of two benches, pairs of edits and queries.

pub mod alike;
pub mod bare;
pub mod cases;
pub mod damage;
pub mod edit_pairs;
pub mod fields;
pub mod finish;
pub mod floors;
pub mod hooks;
pub mod journals;
pub mod model;
pub mod pair_damage;
pub mod queries;
pub mod random;
pub mod runs;
pub mod screens;
pub mod seams;
pub mod sessions;
pub mod shapes;
pub mod text_damage;
pub mod texts;
pub mod tree_damage;
pub mod two_faults;
