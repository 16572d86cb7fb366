//! The calls on a whole state, on the bytes of docs/LAYOUT.md. Each refuses in
//! document 01's order, and a refused call changes nothing. [`program_block`] is no
//! call, but what a flush or collection does with the spare area.

mod agree;
mod collect;
mod discard;
mod flush;
mod format;
mod lookup;
mod marks;
mod spare;
mod state;
mod upkeep;
mod why;

pub use agree::agree;
pub use collect::collect;
pub use discard::discard;
pub use flush::flush;
pub use format::format;
pub use lookup::lookup;
pub use spare::program_block;
pub use upkeep::{compact, list};
pub use why::why;
