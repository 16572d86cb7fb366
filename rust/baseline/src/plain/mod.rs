//! The plain engine: a page number for each logical page. Each call refuses in
//! document 01's order, and a refused call changes nothing.

mod collect;
mod discard;
mod flush;
mod format;
mod lookup;
mod named;
mod table;

pub use collect::collect;
pub use discard::discard;
pub use flush::flush;
pub use format::format;
pub use lookup::lookup;
