//! A second planner, player, record writer and reader and job program in plain Rust, to hold the proved ones against.
//!
//! It was written from the rules of the cabinet alone and shares no code with the library under `crates/`. It favours what is
//! easy to believe over what is quick: recursion with local arrays, the distance summed afresh for every position.
//!
//! From the bottom: `board` (cells, moves, distance, faults), `search` (best first within a bound), `planner` and `player` (the
//! two calls), `records` (a plan as bytes), `entries` (the same calls as C sees them, bytes and packed answers), `job` (a text
//! line to an answer line).

pub mod board;
pub mod entries;
pub mod job;
pub mod planner;
pub mod player;
pub mod records;
pub mod search;

#[cfg(test)]
mod worked;
