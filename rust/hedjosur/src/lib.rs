//! Hedjosur, a learned page table for raw flash and a plain one beside it, for Rust: a
//! flash translation layer whose every function is proved, behind a safe interface
//! without allocation.
//!
//! A driver owns the flash. It lends this table two buffers, the state and the
//! spare area, and is told where pages go and where they are:
//!
//! - [`Device::flush`] takes a batch of logical pages and answers on which pages
//!   to write them, in which order;
//! - [`Device::lookup`] answers on which page a logical page is, after at most two
//!   flash reads;
//! - [`Device::discard`] drops a logical page, until a flush writes it again;
//! - [`Device::collect`] frees blocks and answers which pages to copy first;
//! - [`Device::compact`] and [`Device::list`] tidy and show one group's records;
//! - [`Device::agree`] says whether two tables look every page up alike;
//! - [`Device::why`] tells support staff, level by level, why a lookup ends where it
//!   does.
//!
//! A call that can't be done is refused with a [`Refusal`] and changes nothing.
//! Whatever bytes are lent, no call panics or reads outside them.
//!
//! ```
//! use hedjosur::{Device, Flushed, Lookup, Numbers};
//!
//! let numbers = Numbers { blocks: 9, block_pages: 64, logical_pages: 256, error_bound: 1 };
//! let mut state = vec![0; numbers.state_len().expect("numbers inside their limits")];
//! let mut spare = vec![0; numbers.spare_len().expect("numbers inside their limits")];
//! let mut device = Device { state: &mut state, spare: &mut spare };
//! device.format(numbers)?;
//!
//! // Four pages arrive. They are written in the order of the plan's arrival indexes.
//! let mut plan = [0; 64];
//! let flushed = device.flush(&[6, 0, 2, 1], &mut plan)?;
//! assert_eq!(flushed, Flushed { first_page: 0, count: 4 });
//! assert_eq!(plan[..4], [1, 3, 2, 0]);
//!
//! // One record predicts all four; one prediction is off by one page.
//! let found = device.lookup(6)?;
//! assert_eq!(found, Lookup::Found { page: 3, predicted: 3, levels: 1 });
//! assert_eq!(found.reads(), 1);
//! let found = device.lookup(2)?;
//! assert_eq!(found, Lookup::Found { page: 2, predicted: 1, levels: 1 });
//! assert_eq!(found.reads(), 2);
//! assert_eq!(device.lookup(5)?, Lookup::NotWritten { levels: 1 });
//! # Ok::<(), hedjosur::Refusal>(())
//! ```
//!
//! `examples/gateway.rs` is a driver in full: a chip, a flush by the plan, a
//! collection, a read; `examples/recorder.rs` is one with the plain engine.
//!
//! # Which engine
//!
//! [`Plain`] is a table of one page number for each logical page. From a format, the
//! same calls give the same pages, plans, erased lists and refusals as a [`Device`]'s.
//! Take it where 4 bytes for each logical page are to spare: it is lent less than the
//! learned one, needs no out-of-band bytes and answers a lookup at once, but all of its
//! bytes are in use, and a flush or a collection goes over all of them, with 145 KB of
//! stack. Take [`Device`] where the stack is small, or where the bytes in use have to be
//! few, because the table is stored or sent: logical pages that are neighbours and are
//! written together share a record.
//!
//! # What a driver has to know
//!
//! - **The spare area** is what the chip's out-of-band bytes hold, as the driver
//!   mirrors it in memory: 2g + 1 numbers for each page. A format, a flush and a
//!   collection change it; the driver programs a page's numbers together with its
//!   data, in a byte order of its own choice. The plain engine is lent none.
//! - **After a format** all blocks have to be erased. After that a flush always opens
//!   a block that is erased already: those that a collection lists are erased by the
//!   driver once the pages are copied.
//! - **A flush refused [`NoFreeBlock`](Refusal::NoFreeBlock)** succeeds after one
//!   [`Device::collect`], always.
//! - **A discard** changes the state alone. What the page holds stays on the chip until
//!   a collection has its block erased, and a write that the driver keeps waiting is
//!   not dropped: its flush writes the page again.
//! - **What it doesn't do:** nothing is kept across a power loss but what the driver
//!   stores of the two buffers; bad blocks are not known; wear is not levelled, the
//!   lowest free block is always taken.
//!
//! docs/COSTS.md of the repository has what the table costs, in memory, reads, stack
//! and time.
//!
//! The functions are those of the static library that `rt lib` builds in
//! `crates/export`; `include/hedjosur.h` says the same for C. The archive is code for
//! x86-64 Linux and needs `memcpy`, `memmove` and `memset`.

#![no_std]
#![deny(unsafe_code)]
#![warn(missing_docs)]

#[cfg(not(all(target_arch = "x86_64", target_os = "linux")))]
compile_error!(
    "hedjosur runs on x86-64 Linux alone: libexport.a, the proved code, is compiled for it, \
     and no other archive is built today"
);

mod answers;
#[allow(unsafe_code)]
mod boundary;
mod device;
mod listing;
mod numbers;
mod plain;
mod refusal;
mod why;

pub use answers::{Collected, Flushed, Lookup};
pub use device::Device;
pub use listing::{Kind, Listing, Record, LISTING_LEN};
pub use numbers::Numbers;
pub use plain::Plain;
pub use refusal::Refusal;
pub use why::{Reason, Why, WHY_LEN};

/// The version of this crate, of the header and of the archive's interface.
pub const VERSION: &str = env!("CARGO_PKG_VERSION");

/// The example of README.md is a test, too.
#[cfg(doctest)]
#[doc = include_str!("../README.md")]
struct Readme;
