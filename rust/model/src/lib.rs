//! A model of Hedjosur, the gateway's learned page table.
//!
//! The model says what document 01 says, and requests a to d, f and g of document 02,
//! in vectors and sets instead of bytes, plainly and slowly. Its modules follow
//! document 01's sections:
//!
//! - [`device`]: the limits, groups and offsets, and [`state`]: what a state holds
//! - [`spare`]: the spare area, a layer of its own
//! - [`record`]: the kinds of records, their members and predictions
//! - [`learn`]: learning a batch
//! - [`levels`]: the levels of a group, and [`sound`]: when a group is sound
//! - [`ops`]: the operations, each with its refusals in order
//! - [`plain`]: the plain engine of request d, with operations of its own
//! - [`book`]: what each page carries, told from calls and answers alone
//! - [`script`]: the listing program, and [`cases`]: the document's cases
//!
//! [`testing`] holds the seeded generators that the tests share.

#![forbid(unsafe_code)]
#![warn(missing_docs)]

pub mod book;
pub mod cases;
pub mod device;
pub mod learn;
pub mod levels;
pub mod ops;
pub mod plain;
pub mod record;
pub mod script;
pub mod sound;
pub mod spare;
pub mod state;
pub mod testing;
