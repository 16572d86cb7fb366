//! What the table costs under a load: the load is replayed through the library on
//! a flash chip in memory, and everything that a designer asks is counted.
//!
//! - [`load`]: the loads, made by a rule or read from a trace
//! - [`nand`]: the chip, which keeps the rules of flash
//! - [`driver`]: a buffer before the chip; flushes, collections and lookups
//! - [`counts`] and [`memory`]: what is counted, what the table takes; [`budget`]: the
//!   records that a flush or collection learns
//! - [`run()`]: one load on one device; [`options`]: which ones
//! - [`report`] and [`plot`]: tables, comma-separated values, a drawing ([`chart`]);
//!   [`page`]: a page that shows them
//! - [`second_reads`]: how often lookups read twice, by two builds of the library
//!
//! Every page that is read is compared with what was written last. Everything but
//! times depends on the options alone.

#![forbid(unsafe_code)]
#![warn(missing_docs)]

pub mod budget;
pub mod chart;
pub mod counts;
pub mod driver;
pub mod load;
pub mod memory;
pub mod nand;
pub mod options;
pub mod page;
pub mod plot;
pub mod report;
pub mod run;
pub mod second_reads;

pub use run::{run, Case, Outcome};
