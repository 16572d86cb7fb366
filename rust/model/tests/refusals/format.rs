//! Format.

use hedjosur_model::ops;
use hedjosur_model::state::Lent;
use hedjosur_model::testing::{rounds, small_device, World};

use crate::expected::{assert_met, expect, first_of, Tally};
use crate::facts::{outside_limits, Facts};
use crate::worlds::any_world;

#[test]
fn refuses_in_order() {
    let mut tally = Tally::new();
    rounds(2000, &mut tally, |random, log, tally| {
        let world = any_world(random);
        let device = small_device(random);
        let mut numbers = match (&world.lent, random.once_in(2)) {
            (Lent::Held(state), true) => state.numbers,
            _ => device.numbers(),
        };
        if random.once_in(4) {
            numbers[random.below(4) as usize] = random.pick(&[0, 1, 2, 16, 5000, u32::MAX]);
        }
        log.note(("format", &world, numbers));
        let [blocks, block_pages, logical_pages, bound] = numbers.map(u64::from);
        let facts = Facts {
            blocks,
            block_pages,
            logical_pages,
            bound,
            ..Facts::of(&world)
        };
        let limits = outside_limits([blocks, block_pages, logical_pages, bound]);
        let expected = first_of(&[
            (1, limits),
            (2, facts.state.is_none()),
            (2, facts.state_length_wrong()),
            (2, facts.area_length_wrong()),
        ]);
        let mut lent = world.clone();
        let answer = expect(tally, expected, &mut lent, |world| {
            ops::format(&mut world.lent, &mut world.area, numbers)
        });
        if answer.is_some() {
            assert_eq!(lent, World::formatted(&lent.device()));
        }
    });
    assert_met(&tally, &[1, 2]);
}
