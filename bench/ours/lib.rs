//! The functions of this repository that the benchmark calls: loops over public functions, for a
//! driver in C++. This is Rattle; `bench/run.sh` proves and builds it as the crate `bench_ours`.
//!
//! A slice is passed as a pointer and a length. A function whose arguments are not a valid trie,
//! set or text returns `u64::MAX`.
#![tactic(auto)]

pub mod builds;
pub mod frozen;
pub mod mixing;
pub mod opened;
pub mod packed;
pub mod ranges;
pub mod sets;
pub mod texts;
pub mod tries;
pub mod unit_tries;
