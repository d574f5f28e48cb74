//! The reference: plan.rs and format.rs of the Rust mixer, and what else ../README.md lists, unchanged, with stand-ins for what they import and child
//! modules that read what is private.
#![allow(clippy::all)]

pub mod dsp;
pub mod engine;
pub mod mix;

/// Whether this build has the reference's debug assertions, as the comparison wants them and a measurement does not.
pub const CHECKED: bool = cfg!(debug_assertions);
