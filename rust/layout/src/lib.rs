//! The state's bytes as docs/LAYOUT.md fixes them, told in the model's terms:
//! groups and states are written to bytes and read from them, for tests.
//!
//! - the constants, [`state_bytes`], [`marks_at`], [`groups_at`] and [`owner_at`]:
//!   lengths and places; [`u16_at`] and [`put_u16`]: a number there
//! - [`encode_group`], [`encode_state`]: what is written
//! - [`decode_group`]: the group that bytes encode, if they encode one;
//!   [`read_group`], [`read_state`]: what any bytes are read as
//! - [`encode_plain_state`], [`decode_plain_state`], [`read_plain_state`]: the same for
//!   the plain engine's state

#![forbid(unsafe_code)]
#![warn(missing_docs)]

mod group;
mod marks;
mod places;
mod plain;
mod record;
mod state;

pub use group::{decode_group, encode_group, read_group};
pub use places::{
    groups_at, marks_at, owner_at, put_u16, state_bytes, u16_at, Part, COUNT_BYTES, GROUP_BYTES,
    HEAD_BYTES, LEVEL_AT, OWNED_AT, OWNERS_AT, OWNER_BYTES, RECORD_BYTES, SLOTS_AT, SLOT_BYTES,
    USED_AT, WORD_AT,
};
pub use plain::{
    decode_plain_state, encode_plain_state, entries_at, read_plain_state, ENTRY_BYTES,
};
pub use state::{encode_state, read_state};
