//! Evidence from outside. What documents 01 and 02 say is written here once more, in plain Rust and
//! from those pages alone, and compared with the proved library on random and on damaged input.
//! It uses no crate of a registry and compiles with rustc 1.63.

pub mod calls;
pub mod check;
pub mod damage;
pub mod evidence;
pub mod graphs;
pub mod hold;
pub mod line_benches;
pub mod matcher;
pub mod model;
pub mod offending;
pub mod plain;
pub mod plain_rows;
pub mod random;
pub mod rows;
pub mod sheet;
