//! Discard.

use hedjosur_model::testing::{any_logical_page, rounds};

use crate::expected::{assert_met, expect, first_of, Tally};
use crate::facts::Facts;
use crate::worlds::any_world;

#[test]
fn refuses_in_order() {
    let mut tally = Tally::new();
    rounds(2500, &mut tally, |random, log, tally| {
        let mut world = any_world(random);
        for _ in 0..4 {
            let mut marked = world.clone();
            let facts = Facts::of(&world);
            let logical_page = any_logical_page(random, facts.logical_pages);
            log.note(("discard", &world, logical_page));
            let expected = first_of(&facts.refused_for(logical_page, facts.area_length_wrong()));
            let answer = expect(tally, expected, &mut world, |world| {
                world.discard(logical_page)
            });
            // One mark is set, and nothing else is changed.
            if answer.is_some() {
                marked.state_mut().marks[logical_page as usize] = true;
                assert_eq!(world, marked);
            }
        }
    });
    assert_met(&tally, &[1, 2, 3, 4]);
}
