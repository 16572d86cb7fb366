//! Flush.

use hedjosur_model::ops;
use hedjosur_model::testing::{any_list, batch, full_device, perhaps_wrong, rounds, Random};

use crate::expected::{assert_met, expect, first_of, Tally};
use crate::facts::Facts;
use crate::worlds::{any_world, marks};

#[test]
fn refuses_in_order() {
    let mut tally = Tally::new();
    rounds(2500, &mut tally, |random, log, tally| {
        let world = any_world(random);
        let facts = Facts::of(&world);
        let pages = any_batch(random, &facts);
        let plan = any_list(random, facts.block_pages);
        log.note(("flush", &world, &pages, plan.len()));
        let length = pages.len() as u64;
        let expected = first_of(&[
            (1, facts.outside_limits()),
            (2, facts.state_length_wrong()),
            (2, facts.area_length_wrong()),
            (2, plan.len() as u64 != facts.block_pages),
            (3, facts.unsound()),
            (5, length == 0 || length > facts.block_pages),
            (
                4,
                pages.iter().any(|&l| u64::from(l) >= facts.logical_pages),
            ),
            (6, facts.free() < 2),
        ]);
        let mut lent = (world.clone(), plan.clone());
        let answer = expect(tally, expected, &mut lent, |(world, plan)| {
            ops::flush(&mut world.lent, &mut world.area, &pages, plan)
        });
        if let Some(answer) = answer {
            // 'Later entries stay.'
            let count = answer.count as usize;
            assert_eq!(lent.1[count..], plan[count..]);
            // The marks of what is written are cleared, and no other bit.
            let mut kept = marks(&world).to_vec();
            pages.iter().for_each(|&page| kept[page as usize] = false);
            assert_eq!(marks(&lent.0), kept);
        }
    });
    assert_met(&tally, &[1, 2, 3, 4, 5, 6]);
}

/// A batch that may be empty, too long, or have a logical page that is N or more.
fn any_batch(random: &mut Random, facts: &Facts) -> Vec<u32> {
    let logical_pages = facts.logical_pages.clamp(1, 1 << 31) as u32;
    let mut pages = match facts.readable() {
        true => batch(random, &full_device(6, facts.block_pages as u32, 0)),
        false => vec![random.below(logical_pages)],
    };
    pages.iter_mut().for_each(|page| *page %= logical_pages);
    let block_pages = facts.block_pages.clamp(1, 300) as u32;
    perhaps_wrong(random, pages, block_pages, logical_pages)
}
