//! Lookup.

use hedjosur_model::ops::Lookup;
use hedjosur_model::testing::{any_logical_page, rounds};

use crate::expected::{assert_met, expect, first_of, Tally};
use crate::facts::{Facts, LookedUp};
use crate::worlds::any_world;

#[test]
fn refuses_in_order() {
    let mut counts = (Tally::new(), 0);
    rounds(2500, &mut counts, |random, log, (tally, spared)| {
        let mut world = any_world(random);
        let copy = world.clone();
        let facts = Facts::of(&copy);
        for _ in 0..4 {
            let logical_page = any_logical_page(random, facts.logical_pages);
            log.note(("lookup", &copy, logical_page));
            let refused = facts.refused_for(logical_page, facts.area_length_wrong());
            let looked_up = match first_of(&refused) {
                0 => facts.looked_up(logical_page.into()),
                _ => Ok((None, 0)),
            };
            let expected = first_of(&[&refused[..], &[(7, looked_up.is_err())]].concat());
            let answer = expect(tally, expected, &mut world, |world| {
                world.lookup(logical_page)
            });
            if let Some(answer) = answer {
                assert_eq!(Ok(numbers(answer)), looked_up);
                if facts.discarded(logical_page.into()) {
                    assert_eq!(answer, Lookup::NotWritten { levels: 0 });
                    *spared += u32::from(facts.recorded(logical_page.into()).is_err());
                }
            }
        }
    });
    let (tally, spared) = counts;
    assert_met(&tally, &[1, 2, 3, 4, 7]);
    assert!(spared > 0, "no discarded page was spared refusal 7");
}

/// The numbers that lookup answers.
fn numbers(answer: Lookup) -> LookedUp {
    match answer {
        Lookup::Found {
            page,
            predicted,
            levels,
        } => (Some([page, predicted].map(u64::from)), levels),
        Lookup::NotWritten { levels } => (None, levels),
    }
}
