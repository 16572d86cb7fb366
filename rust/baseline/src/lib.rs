//! The learned page table as one would write it in Rust for speed: on the bytes
//! of docs/LAYOUT.md, without allocation, without proofs and without `unsafe`; and
//! beside it the plain engine. Benchmarks measure the proved code against them.
//!
//! - [`sort`]: a batch's last arrivals, sorted
//! - [`learn`]: the runs of a sorted batch and their records
//! - [`record`]: the record by value, and [`offsets`]: a set of offsets, in words
//! - [`group`]: one group's bytes: soundness, find, why, all predictions, insert, compact
//! - [`device`]: the calls on a whole state
//! - [`plain`]: those of the plain engine, on a table of pages
//!
//! Much of it is shaped so that the compiler uses vectors (several slopes, counts or
//! owners at once, without a branch for each) and that the processor guesses few
//! branches wrong: the kinds of records follow each other in no order.
//!
//! Answers and refusals are the model's types, and lengths and places are the
//! constants of `hedjosur_layout`; the rest is written here once more, for speed.

#![forbid(unsafe_code)]
#![warn(missing_docs)]

mod blocks;
pub mod device;
pub mod group;
pub mod learn;
mod neighbours;
mod numbers;
pub mod offsets;
pub mod plain;
pub mod record;
pub mod sort;
mod words;
