//! Document 01 and what was asked for since, read a second time, in Rust: what the proved library is compared with.
//!
//! It has no std, so that the published text can be compiled over it without f64's own functions.
#![no_std]
#![forbid(unsafe_code)]

extern crate alloc;

#[cfg(test)]
extern crate std;

pub mod bondanalytics;
pub mod bondevents;
pub mod bondpricer;
pub mod book;
pub mod daycount;
pub mod elementary;
pub mod exact;
pub mod hullwhite;
pub mod notices;
pub mod ordinary;
pub mod sheet;
pub mod sizing;
pub mod table;
pub mod terms;
pub mod treebasedbondpricer;

/// Why and where a call is refused.
#[derive(Clone, Copy, Debug, PartialEq, Eq)]
pub struct Refusal {
    pub number: u32,
    pub place: u32,
}

pub type Outcome<T> = Result<T, Refusal>;
pub type Answer = Outcome<f64>;
