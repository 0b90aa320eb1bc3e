//! The original solver of Vitens/epanet-rs (see build.rs), and beside it what
//! document 01 adds: sheets, listings, the power and the test for refusal 7.

// The original's modules stand at the crate's root: they name each other by
// crate::.
include!(concat!(env!("OUT_DIR"), "/original/tree.rs"));

pub mod answer;
pub mod cause;
pub mod hook;
pub mod many;
pub mod network;
pub mod parts;
pub mod recipe;
pub mod sheet;
mod tables;

pub const BUILD: &str = if cfg!(feature = "recipe") {
    "recipe"
} else if cfg!(feature = "table-power") {
    "mixed-power"
} else if cfg!(feature = "no-reorder") {
    "mixed-solve"
} else {
    "plain"
};

pub const SUBSTITUTIONS: &str =
    include_str!(concat!(env!("OUT_DIR"), "/original/substitutions.txt"));
