//! A safe wrapper over Pivotfern.
//!
//! The proved crates are two archives of C functions on numbers and slices: `edge`, with the three calls of every night ([`Plan::new`],
//! [`operator`], [`combine_updates`]), and `edge_compare`, with all the others. The second is linked, and its calls are here, with the feature
//! `compare`. This package gives them Rust's types: what a caller lends is borrowed, a refusal is an enum with words, and a [`Plan`] owns its
//! lists. Nothing here is proved, so it is kept thin: it makes room, calls, and cuts lists to their used parts. Every check is on the other side.
//!
//! Every call may answer [`Error::Unknown`] where archive and wrapper do not belong together.
//!
//! | module | what for |
//! |---|---|
//! | `ffi` | the declarations of the exports |
//! | [`raw`] | the exports on slices, safe, with numbers as they come |
//! | crate root | the calls with results of their own |

#![deny(unsafe_code)]
#![warn(missing_docs, clippy::missing_errors_doc, clippy::must_use_candidate)]

#[cfg(not(target_pointer_width = "64"))]
compile_error!("counts cross the edge as 64-bit numbers");

mod calls;
mod ffi;
mod input;
mod plan;
pub mod raw;
mod refusal;

pub use calls::*;
pub use input::*;
pub use plan::Plan;
pub use refusal::{Error, Refusal};
