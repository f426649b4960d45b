//! Holds two sides, the published Rust and another, to the same calls and compares all that they answer and keep.

pub mod call;
pub mod domain;
pub mod ends;
pub mod generator;
pub mod moves;
pub mod random;
pub mod reach;
pub mod rows;
pub mod run;
pub mod rust_side;
pub mod shrink;
pub mod side;

rust_side!(Judge, kcp_judge);
