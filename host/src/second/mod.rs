//! The second implementation, from document 01 and those requests of document 02 that the engine meets.
//!
//! It is there to be compared with, so it is plain: sets are lists of flags, trees are walked as
//! they are defined, and nothing is left out by a theorem.

mod answer_sets;
mod book;
mod desk;
mod groups;
mod listing;
mod model;
mod partial_stable;
mod reader;
mod sheets;
mod trees;
mod verdicts;

pub use answer_sets::{answer_sets, every_set};
pub use book::{complement, Book, Entry, Rule};
pub use book::{
    MOST_BODY_LITERALS, MOST_BYTES, MOST_IN_A_BODY, MOST_LETTERS, MOST_NAMES, MOST_RULES,
};
pub use desk::Desk;
pub use groups::{model_by_groups, reach, working_order};
pub use listing::{listing, program_output};
pub use model::{contradictory_name, gamma, value, Halves, Program};
pub use partial_stable::{least_model, partial_stable_models, PartialStable};
pub use reader::{read, size};
pub use sheets::{check, sheet_for, Matter};
pub use trees::{search, Walk};
pub use verdicts::{verdict, word};
