//! Pictures of a group, why a lookup of a logical page ends where it does, and how a flush
//! can be cut into runs.
//!
//! - [`listing`]: reads what the listing program prints for a group
//! - [`replay`]: makes a script's calls on the model
//! - [`mod@why`]: tells why, in words; [`cuttings`]: tells the cuttings, in words;
//!   [`command`]: the programs that print them
//! - [`svg`]: the drawings
//! - [`words`]: words that these share

#![forbid(unsafe_code)]
#![warn(missing_docs)]

pub mod command;
pub mod cuttings;
pub mod listing;
pub mod replay;
pub mod svg;
pub mod why;
pub mod words;
