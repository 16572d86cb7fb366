//! One group in its bytes. The functions that change a group expect a sound one
//! and leave a sound one.

mod compact;
mod find;
mod insert;
mod owners;
mod part;
mod predictions;
mod sound;
mod why;

pub use compact::compact;
pub use find::{find, Found};
pub use insert::{insert, take};
pub use part::records;
pub use predictions::{Lines, Predictions};
pub use sound::sound;
pub use why::{why, Entry};
