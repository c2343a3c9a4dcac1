//! Timings: the reading table, the library beside the peer; and the rest, the library beside this implementation.

pub mod floors;
pub mod reading;
pub mod rest;
