//! The order of refusals, and that a refused call changes nothing, on arbitrary
//! states and spare areas, sound or not, of any length.
//!
//! What to expect is worked out here from the documents a second time: each
//! condition alone, then the first in the documents' order. One module a call.

mod agreement;
mod collection;
mod compaction;
mod discard;
mod expected;
mod facts;
mod flush;
mod format;
mod groups;
mod lookup;
mod plain;
mod why;
mod worlds;
