//! What the Rust's functions call and document 000 does not bring along: numbers, views of
//! matrices, macros and the few functions and types named by path. Ours throughout; arithmetic
//! comes from arith.rs.

pub mod field;
pub mod macros;
pub mod named;
pub mod view;

pub use field::*;
pub use named::*;
pub use view::*;
