//! The Rust side of the marking engine.
//!
//! - [`answer`]: verdicts, models and refusals, the words that both implementations answer in.
//! - [`reasons`]: a proof sheet in lines that a person reads.
//! - [`second`]: a second implementation, written from document 01 and not from the engine's code.
//! - [`gen`]: books, files and lists of calls from a seed.
//! - [`shrink`] and [`compare`]: run a list of calls on two desks, and find a short list that
//!   shows a difference.
//! - [`accord`]: holds a desk against the answer sets of what a list of calls leaves.
//! - [`previews`]: holds its previews against the change made on a copy and the listing of that.
//! - [`sheets`]: holds its proof sheets, and what it says of sheets, against the second implementation, M and N.
//! - [`published`]: holds its verdicts against the published definition, and against books with other rules for
//!   names that aren't reached.
//! - `engine`: the proved engine behind a safe type (feature `engine`).

pub mod accord;
pub mod answer;
pub mod compare;
#[cfg(feature = "engine")]
pub mod engine;
#[cfg(feature = "engine")]
mod exports;
pub mod gen;
pub mod previews;
pub mod published;
pub mod reasons;
pub mod second;
pub mod sheets;
pub mod shrink;
