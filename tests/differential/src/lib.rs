//! The port beside the Rust original: see README.md.

pub mod case;
pub mod cases;
pub mod compare;
pub mod gen;
pub mod listed;
pub mod original;
pub mod port;
pub mod ported;
pub mod rng;
pub mod run;
pub mod shrink;
pub mod slips;
