//! Compaction.

use hedjosur_model::ops;
use hedjosur_model::testing::rounds;

use crate::expected::{assert_met, expect, first_of, Tally};
use crate::facts::Facts;
use crate::worlds::{any_world, marks};

#[test]
fn refuses_in_order() {
    let mut tally = Tally::new();
    rounds(2500, &mut tally, |random, log, tally| {
        let mut world = any_world(random);
        let copy = world.clone();
        let facts = Facts::of(&copy);
        let group = random.pick(&[0, 0, 0, 1, 2, u32::MAX]);
        log.note(("compaction", &copy, group));
        // It is lent no spare area, so that one's length doesn't matter.
        let expected = first_of(&[
            (1, facts.outside_limits()),
            (2, facts.state_length_wrong()),
            (4, u64::from(group) >= facts.group_count()),
            (3, facts.group_unsound(group as usize)),
        ]);
        let left = expect(tally, expected, &mut world, |world| {
            ops::compaction(&mut world.lent, group)
        });
        if let Some(left) = left {
            let (_, state) = world.lent.open().expect("a state");
            assert_eq!(left, state.groups[group as usize].size());
            assert_eq!(marks(&world), marks(&copy));
        }
        assert_eq!(world.area, copy.area);
    });
    assert_met(&tally, &[1, 2, 3, 4]);
}
