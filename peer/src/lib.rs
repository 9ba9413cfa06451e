//! Houses that keep objects for each other, modelled with plain collections, and tools that use the
//! model to test: scripts made from a seed, a check of what is promised, and a comparison with
//! another program.

pub mod byte_strings;
pub mod call;
pub mod check;
pub mod compare;
pub mod explore;
pub mod form;
pub mod generator;
pub mod help;
pub mod house;
pub mod house_lines;
#[cfg(feature = "measures")]
pub mod measures;
pub mod message;
pub mod names;
pub mod net;
pub mod program;
pub mod promise;
pub mod random;
#[cfg(feature = "rattle")]
pub mod rattle;
pub mod refusal;
pub mod settle;
pub mod shrink;
pub mod stats;
pub mod streams;
pub mod text;
pub mod view;
pub mod workloads;
