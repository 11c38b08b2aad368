//! The original Rust text as judge, and the runner that holds a port to it. `original` has the text unchanged,
//! `stand_ins` what it leans on, and `answer` asks it. `numbers` says from docs/RULES.md what a call answers.
//! `classes` makes the cases; `case` writes and reads them, and `damage` what is damaged in one; `compare` holds a
//! `port` to the judge, by `whole`, `calls`, `narrow`, `nights`, `rescues`, `recordings`, `ppm`, `trees`, `doubled` or
//! `palettes`, with what `buffer` lends, `laid` in either layout, and `batches` splits, and counts in `tally`; `shrink`
//! looks for a smaller case that still differs; and `runner` does all of it as the arguments say. `model` is a port in
//! plain Rust. No module uses one that uses it.
#![allow(dead_code)]
extern crate alloc;

pub mod answer;
mod batches;
mod buffer;
mod calls;
pub mod case;
pub mod classes;
pub mod compare;
pub mod damage;
mod doubled;
mod laid;
pub mod model;
mod narrow;
mod nights;
pub mod numbers;
pub mod original;
mod palettes;
pub mod port;
mod ppm;
pub mod random;
mod recordings;
mod rescues;
pub mod runner;
pub mod shrink;
pub mod stand_ins;
pub mod tally;
mod trees;
mod whole;

// The original names these at the root of its crate.
pub use original::palette_counts::PaletteCounts;
pub(crate) use stand_ins::quantette::*;
