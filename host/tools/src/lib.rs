//! What uses the wrapper: case files, a plain model, the comparison. The programs `cases`, `compare` and `bench` stand over it.
//!
//! | module | what for |
//! |---|---|
//! | [`case`], [`answer`], [`buffer`] | case files (docs/CASES.md): reading, answering, writing; buffers between guards |
//! | [`model`], [`compare`] | document 01 written down plainly, and the comparison of it and of the original with the port |

#![forbid(unsafe_code)]
#![warn(missing_docs, clippy::missing_errors_doc, clippy::must_use_candidate)]

pub mod answer;
pub mod buffer;
pub mod case;
pub mod compare;
pub mod model;
