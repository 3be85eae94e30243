//! The rules of the planner a second time, in plain Rust, beside the proved library.
//!
//! - `reference`: the independent implementation, written from documents 01 and 02 alone.
//! - `ffi`: the fourteen calls of the proved library.
//! - `random`, `inputs`: the seeded generator, and the tables, files and run lists made with it.
//! - `brute`: the best plan of a small table by trying every keep list, and the answers of a short run list by looking at every tick.
//! - `guarded`: lists between closed pages.
//! - `sides`, `difference`, `tally`: both sides with replies of one form, what is said where they differ, and cases by seed, counted.
//! - `samples`, `cases`, `small`: what is compared: samples of the rules, cases of every call, and small inputs against brute force.
//! - `tables`, `measure`: the tables and run lists of the benchmarks, and how times are measured.
//! - `stack`: how much stack a call uses.
//!
//! `cargo test --offline --lib` puts the reference alone to brute force, and calls nothing of the library.

pub mod brute;
pub mod cases;
pub mod difference;
pub mod ffi;
pub mod guarded;
pub mod inputs;
pub mod measure;
pub mod random;
pub mod reference;
pub mod samples;
pub mod sides;
pub mod small;
pub mod stack;
pub mod tables;
pub mod tally;
