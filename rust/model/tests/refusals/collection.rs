//! Collection.

use hedjosur_model::ops;
use hedjosur_model::testing::{any_list, rounds};

use crate::expected::{assert_met, expect, first_of, Condition, Tally};
use crate::facts::Facts;
use crate::worlds::{any_world, marks};

#[test]
fn refuses_in_order() {
    let (mut tally, mut empty) = (Tally::new(), 0);
    rounds(
        2500,
        &mut (&mut tally, &mut empty),
        |random, log, counts| {
            let (tally, empty) = counts;
            let world = any_world(random);
            let facts = Facts::of(&world);
            let plan = any_list(random, facts.block_pages);
            let erased = any_list(random, facts.blocks);
            log.note(("collection", &world, plan.len(), erased.len()));
            let refused = [
                (1, facts.outside_limits()),
                (2, facts.state_length_wrong()),
                (2, facts.area_length_wrong()),
                (2, plan.len() as u64 != facts.block_pages),
                (2, erased.len() as u64 != facts.blocks),
                (3, facts.unsound()),
            ];
            let (taken, total) = match first_of(&refused) {
                0 => takings(facts.valid_pages(), facts.block_pages),
                _ => (0, 0),
            };
            let expected = first_of(&[&refused[..], &gain(taken, total, facts.free())].concat());
            let mut lent = (world.clone(), plan.clone(), erased.clone());
            let answer = expect(tally, expected, &mut lent, |(world, plan, erased)| {
                ops::collection(&mut world.lent, &mut world.area, plan, erased)
            });
            if let Some(answer) = answer {
                assert_eq!((answer.count as usize, answer.erased), (total, taken));
                if total == 0 {
                    assert_eq!(answer.first, 0);
                    **empty += 1;
                }
                // 'Unused entries stay.'
                assert_eq!(lent.1[total..], plan[total..]);
                assert_eq!(lent.2[taken as usize..], erased[taken as usize..]);
                assert_eq!(marks(&lent.0), marks(&world));
            }
        },
    );
    assert_met(&tally, &[1, 2, 3, 6, 8]);
    assert!(empty > 0, "no collection had a total of 0");
}

/// How many blocks are taken, and their valid pages together.
pub fn takings(mut valid: Vec<usize>, block_pages: u64) -> (u32, usize) {
    valid.sort_unstable();
    let (mut taken, mut total) = (0, 0);
    for pages in valid {
        if (total + pages) as u64 > block_pages {
            break;
        }
        (taken, total) = (taken + 1, total + pages);
    }
    (taken, total)
}

/// The refusals after 3.
pub fn gain(taken: u32, total: usize, free: usize) -> [Condition; 2] {
    [
        (8, taken == 0 || (taken == 1 && total > 0)),
        (6, total > 0 && free == 0),
    ]
}
