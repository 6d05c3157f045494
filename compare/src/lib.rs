//! The judges: document 01 in plain Rust, random and small projects, and the comparison. See ../README.md.
pub mod damage;
pub mod edges;
pub mod exhaustive;
pub mod generate;
pub mod judge;
pub mod lent;
pub mod library;
pub mod limits;
pub mod model;
pub mod program;
pub mod random;
pub mod refusal;
pub mod replay;
pub mod shrink;
pub mod wrong;
