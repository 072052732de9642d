//! The published Rust text, compiled unchanged with document 01's elementary functions: the oracle.
//!
//! The crate has no std, so that f64 has no exp, ln, sqrt, mul_add, round or ceil of its own and the
//! text's calls resolve to the trait `Elementary`. A refusal unwinds with its number.
#![no_std]
#![allow(dead_code, unused_imports, clippy::all)]

extern crate alloc as std;

#[cfg(published)]
mod stand_ins;
#[cfg(published)]
mod text;
#[cfg(published)]
pub use stand_ins::PLATFORM;
#[cfg(published)]
pub use text::{grid, node_count, price, root_of, spread_of, straight, tree, yield_of};

#[cfg(not(published))]
mod absent;
#[cfg(not(published))]
pub use absent::PLATFORM;
#[cfg(not(published))]
pub use absent::{grid, node_count, price, root_of, spread_of, straight, tree, yield_of};

/// Whether the published source was there when this was built.
pub const AVAILABLE: bool = cfg!(published);
