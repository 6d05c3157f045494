//! The functions of rolldown 1.2.16 over plain carriers. See ../../README.md.
#![allow(dead_code, unused_imports, unused_mut, private_interfaces)]

/// `src/chunk_graph.rs`, whole.
#[allow(unfulfilled_lint_expectations)]
mod chunk_graph {
  include!(concat!(env!("OUT_DIR"), "/chunk_graph.rs"));
}

pub mod carriers;
mod options;
mod original;
mod stages;

pub use options::SharedOptions;
pub use original::{Entry, Original, circles, on_a_deep_stack};
