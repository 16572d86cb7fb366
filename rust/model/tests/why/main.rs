//! Telling why: worked examples, refusals, laws, and statements that one is tempted to
//! believe, each with its counterexample.

mod examples;
mod laws;
mod refusals;
mod statements;

use hedjosur_model::ops::{self, WhyEntry};
use hedjosur_model::testing::World;

/// The entries of a logical page.
fn entries(world: &World, logical_page: u32) -> Vec<WhyEntry<'_>> {
    ops::reasons(&world.lent, logical_page).expect("an accepted telling")
}
