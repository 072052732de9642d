//! Without the published source there is no oracle: every function answers nothing.
use reading::terms::{Calls, Leg, Pillars};
use reading::treebasedbondpricer::Terms;
use std::vec::Vec;

pub fn grid(_: u32, _: u32, _: &Leg, _: f64, _: &Calls, _: (u32, u32)) -> Option<(f64, usize, Vec<f64>, Vec<Option<f64>>)> {
    None
}

pub fn tree(_: &Terms) -> Option<f64> {
    None
}

pub fn node_count(_: &Terms) -> Option<u64> {
    None
}

pub fn straight(_: u32, _: u32, _: &Leg, _: f64, _: &Pillars) -> Option<f64> {
    None
}

pub fn price(_: u32, _: u32, _: &Leg, _: u32, _: u32, _: f64) -> Option<(f64, f64)> {
    None
}

pub fn yield_of(_: u32, _: u32, _: &Leg, _: u32, _: u32, _: f64) -> Option<f64> {
    None
}

pub fn root_of(_: &mut dyn FnMut(f64) -> f64, _: f64, _: f64, _: f64) -> Option<f64> {
    None
}

pub fn spread_of(_: &Terms, _: f64) -> Option<(f64, u32)> {
    None
}

pub static PLATFORM: core::sync::atomic::AtomicBool = core::sync::atomic::AtomicBool::new(false);
