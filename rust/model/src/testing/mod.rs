//! What the tests share, repeatable and without dependencies: seeded generators,
//! ways to break soundness, a second look at what telling why lists, and the running
//! of a program.

mod devices;
mod program;
mod random;
mod rounds;
mod spoilers;
mod states;
mod told;
mod world;

pub use devices::{
    any_list, any_logical_page, batch, full_device, lists, perhaps_wrong, small_device,
    sorted_batch,
};
pub use program::{proved_listing, run_program};
pub use random::Random;
pub use rounds::{multiplier, rounds, CallLog};
pub use spoilers::{Spoiler, SPOILERS};
pub use states::{any_area, any_record, last_offset, sound_group, sound_plain_state, sound_state};
pub use told::Told;
pub use world::World;
