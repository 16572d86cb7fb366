//! Compares implementations of the inner functions and of the calls with the
//! model on many random inputs.
//!
//! - [`subjects`]: what is compared: the proved code through its static libraries,
//!   and the baseline
//! - [`inputs`]: batches, groups and bytes, good and damaged
//! - [`batches`]: sorting and learning against the model
//! - [`passes`]: a block's spare entries against the model
//! - [`groups`]: soundness, find, insertion and compaction against the model
//! - [`calls`]: the calls on a whole state, [`beside`]: one made by the model and
//!   by an implementation, and [`answers`]: how often each answer came
//! - [`steps`]: steps of a list of calls
//! - [`histories`]: lists of calls that start with a format
//! - [`arguments`]: calls on arbitrary states, with arguments and lengths of all
//!   kinds
//! - [`marks`]: discards on marks that hold anything
//! - [`why`]: telling why, of arbitrary groups and beside lookups
//! - [`agreement`]: agreement of states that differ in one thing
//! - [`plain`]: the same for the plain engine's calls
//! - [`engines`]: both engines side by side
//! - [`scripts`]: random scripts for the listing program
//!
//! The environment variable `HEDJOSUR_ROUNDS` multiplies the rounds of every check.

#![forbid(unsafe_code)]
#![warn(missing_docs)]

pub mod agreement;
pub mod answers;
pub mod arguments;
pub mod batches;
pub mod beside;
pub mod calls;
pub mod engines;
pub mod groups;
pub mod histories;
pub mod inputs;
pub mod marks;
mod orders;
pub mod passes;
pub mod plain;
pub mod scripts;
pub mod steps;
pub mod subjects;
pub mod why;
