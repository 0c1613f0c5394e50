//! Stands in for the oracle's notes: here the Rust counts nothing while it is timed.

pub fn swap() {}
pub fn decline() {}
pub fn split() {}
pub fn here(_: usize) {}
