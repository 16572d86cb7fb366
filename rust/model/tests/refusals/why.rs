//! Telling why.

use hedjosur_model::ops::{self, WHY_BYTES};
use hedjosur_model::testing::{any_logical_page, rounds, Random, Told};

use crate::expected::{assert_met, expect, first_of, Tally};
use crate::facts::Facts;
use crate::groups::members;
use crate::worlds::any_world;

/// How often each reason was told, and what else was met.
#[derive(Debug, Default)]
struct Met {
    reasons: [usize; 4],
    owners: usize,
    discarded: usize,
    no_level: usize,
    refused_2_by_lookup: usize,
    refused_7_by_lookup: usize,
}

#[test]
fn refuses_in_order() {
    let mut counts = (Tally::new(), Tally::new(), Met::default());
    rounds(2500, &mut counts, |random, log, (bytes, values, met)| {
        let world = any_world(random);
        let facts = Facts::of(&world);
        for _ in 0..4 {
            let logical_page = any_logical_page(random, facts.logical_pages);
            let out = any_bytes(random);
            log.note(("why", &world, logical_page, out.len()));
            // It is lent no spare area, so that one's length doesn't matter.
            let refused = |length_wrong| first_of(&facts.refused_for(logical_page, length_wrong));
            let expected = refused(out.len() != 6144);
            let mut lent = (world.clone(), out.clone());
            let listed = expect(bytes, expected, &mut lent, |(world, out)| {
                ops::why(&world.lent, logical_page, out)
            });
            assert_eq!(lent.0, world);
            let entries = expect(values, refused(false), &mut lent, |_| {
                ops::reasons(&world.lent, logical_page)
            });
            if let (Some(listed), Some(entries)) = (listed, entries) {
                // 'Leaves later entries.'
                assert_eq!(lent.1[12 * listed..], out[12 * listed..]);
                let (listing, _) = lent.1[..12 * listed].as_chunks();
                let told = Vec::from_iter(listing.iter().map(|&entry| Told::read(entry)));
                check(met, &facts, logical_page, &told);
                assert_eq!(entries.len(), listed);
                for ((level, entry), one) in entries.iter().enumerate().zip(&told) {
                    assert_eq!(entry.level, level);
                    assert_eq!(entry.record.is_none(), one.reason == 0);
                    assert!(entry.record.is_none_or(|record| one.is(record)));
                    let reason = (entry.reason.number(), entry.reason.owner());
                    assert_eq!(reason, (one.reason, one.owner));
                }
            }
        }
    });
    let (bytes, values, met) = counts;
    for tally in [bytes, values] {
        assert_met(&tally, &[1, 2, 3, 4]);
    }
    let others = [
        met.owners,
        met.discarded,
        met.no_level,
        met.refused_2_by_lookup,
        met.refused_7_by_lookup,
    ];
    let all = [&met.reasons[..], &others].concat();
    assert!(all.iter().all(|&times| times > 0), "{met:?}");
}

/// What is told, against the state and against lookup.
fn check(met: &mut Met, facts: &Facts, logical_page: u32, told: &[Told]) {
    let state = facts.state.expect("a readable state");
    let group = &state.groups[(logical_page / 256) as usize];
    let offset = (logical_page % 256) as u8;
    for (level, one) in told.iter().enumerate() {
        assert!(one.holds(group, level, offset), "{told:?}");
        // First and last offset covered are members, so that what isn't lies between.
        let last = u32::from(one.start) + u32::from(one.span);
        let between = one.start < offset && u32::from(offset) < last;
        assert!(between || [0, 3].contains(&one.reason), "{told:?}");
        met.reasons[usize::from(one.reason)] += 1;
        met.owners += usize::from(one.owner.is_some());
    }
    let member = told.last().is_some_and(|last| last.reason == 3);
    // An owner has the offset as a member, so that one is found.
    assert!(member || told.iter().all(|one| one.owner.is_none()));
    let discarded = facts.discarded(logical_page.into());
    let no_level = group.levels.is_empty();
    assert_eq!(told.is_empty(), discarded || no_level);
    met.discarded += usize::from(discarded);
    met.no_level += usize::from(no_level && !discarded);
    if !discarded {
        // Down to the level of the member, or all levels.
        let mut levels = group.levels.iter();
        let holding =
            levels.position(|level| level.iter().any(|one| members(one).contains(&offset)));
        let down_to = holding.map_or(group.levels.len(), |level| level + 1);
        assert_eq!((told.len(), member), (down_to, holding.is_some()));
    }
    if facts.area_length_wrong() {
        met.refused_2_by_lookup += 1;
        return;
    }
    match facts.looked_up(logical_page.into()) {
        Ok((found, levels)) => assert_eq!((told.len(), member), (levels, found.is_some())),
        Err(()) => {
            assert!(member);
            met.refused_7_by_lookup += 1;
        }
    }
}

/// Bytes of any contents, mostly as many as wanted.
fn any_bytes(random: &mut Random) -> Vec<u8> {
    let length = match random.below(8) {
        0 => random.pick(&[0, 12, 6132, 6143, 6145, 6156]),
        _ => WHY_BYTES,
    };
    (0..length).map(|_| random.bits() as u8).collect()
}
