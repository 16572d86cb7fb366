//! Worked examples of agreement, and its laws on devices with histories of their own.

use hedjosur_model::device::Device;
use hedjosur_model::ops::{self, Lookup, Refusal};
use hedjosur_model::spare::NOBODY;
use hedjosur_model::testing::{batch, rounds, small_device, Random, World};

/// The same device with a logical page discarded.
fn discarded(world: &World, logical_page: u32) -> World {
    let mut world = world.clone();
    world.discard(logical_page).expect("an accepted discard");
    world
}

/// What lookup answers for every logical page.
fn lookups(world: &World) -> Vec<Lookup> {
    (0..world.device().logical_pages)
        .map(|logical_page| world.lookup(logical_page).expect("an accepted lookup"))
        .collect()
}

/// The page of every logical page, None for 'not written': document 01's agreement
/// wanted these alone.
fn pages(world: &World) -> Vec<Option<u32>> {
    lookups(world).iter().map(Lookup::page).collect()
}

/// The predicted page of every logical page that is found.
fn predicted(world: &World) -> Vec<Option<u32>> {
    let of = |answer: &Lookup| match *answer {
        Lookup::Found { predicted, .. } => Some(predicted),
        Lookup::NotWritten { .. } => None,
    };
    lookups(world).iter().map(of).collect()
}

/// How many levels were looked at for every logical page.
fn levels(world: &World) -> Vec<usize> {
    let of = |answer: &Lookup| match *answer {
        Lookup::Found { levels, .. } | Lookup::NotWritten { levels } => levels,
    };
    lookups(world).iter().map(of).collect()
}

/// How many levels group 0 has.
fn depth(world: &World) -> usize {
    let group = ops::list(&world.lent, 0).expect("a sound group");
    group.levels.len()
}

fn agree(one: &World, other: &World) -> bool {
    one.agreement(other).expect("an accepted agreement")
}

/// Never written: all levels are looked at; discarded: none. So the two disagree,
/// though both are 'not written'.
#[test]
fn never_written_and_discarded_disagree() {
    let one = World::flushed([3, 4, 4, 0], &[&[0, 1]]);
    let other = discarded(&one, 3);
    assert_eq!(one.lookup(3), Ok(Lookup::NotWritten { levels: 1 }));
    assert_eq!(other.lookup(3), Ok(Lookup::NotWritten { levels: 0 }));
    assert_eq!(pages(&one), pages(&other));
    assert!(!agree(&one, &other));
    assert!(agree(&discarded(&one, 3), &other));
    // What was written and is discarded in one alone disagrees as before.
    assert!(!agree(&one, &discarded(&one, 1)));
}

/// While the group has no level, 'all levels' are none, and a discard can't be told
/// from nothing at all.
#[test]
fn never_written_and_discarded_agree_where_nothing_is() {
    let one = World::flushed([3, 4, 4, 0], &[]);
    let other = discarded(&one, 3);
    assert_ne!(one, other);
    for world in [&one, &other] {
        assert_eq!(world.lookup(3), Ok(Lookup::NotWritten { levels: 0 }));
    }
    assert!(agree(&one, &other));
}

/// A pair 0, 2 below the singles 0 and 1: compaction takes 0 out of the pair, and
/// what is left of it comes up. Every page and every predicted page stays.
#[test]
fn one_of_two_is_compacted() {
    let one = World::flushed([6, 4, 3, 0], &[&[0, 2], &[1], &[0]]);
    let other = one.compacted();
    assert_eq!(pages(&one), pages(&other));
    assert_eq!(predicted(&one), predicted(&other));
    assert_eq!((levels(&one), levels(&other)), (vec![1, 1, 2], vec![1; 3]));
    assert!(!agree(&one, &other));
    assert!(agree(&one.compacted(), &other));
}

/// With 2 written again the pair is hidden, and nobody goes down to it: the two
/// agree, though one has a level more. With N 4 lookup of 3, never written, counts it.
#[test]
fn a_level_that_no_lookup_reaches_does_not_matter() {
    let batches: [&[u32]; 4] = [&[0, 2], &[1], &[0], &[2]];
    let one = World::flushed([6, 4, 3, 0], &batches);
    let other = one.compacted();
    assert_eq!([&one, &other].map(depth), [2, 1]);
    assert!(agree(&one, &other));
    let one = World::flushed([6, 4, 4, 0], &batches);
    let other = one.compacted();
    assert_eq!(one.lookup(3), Ok(Lookup::NotWritten { levels: 2 }));
    assert_eq!(other.lookup(3), Ok(Lookup::NotWritten { levels: 1 }));
    assert_eq!(pages(&one), pages(&other));
    assert!(!agree(&one, &other));
}

/// What no lookup shows may come to light by a later call. Below 0, 3 and the single 4
/// the pair 1, 4 is compacted to 1 and stays at its level: the two agree. After a flush
/// of 0, 4 what is left of 0, 3 meets the whole pair and gets a level of its own, but
/// joins the 1 alone.
#[test]
fn the_same_flush_may_part_two_that_agree() {
    let mut one = World::flushed([4, 4, 5, 0], &[&[1, 4], &[0, 3, 4]]);
    let mut other = one.compacted();
    assert!(agree(&one, &other));
    for world in [&mut one, &mut other] {
        world.flush(&[0, 4]).expect("an accepted flush");
    }
    assert_eq!(pages(&one), pages(&other));
    assert_eq!(levels(&one), [1, 3, 3, 2, 1]);
    assert_eq!(levels(&other), [1, 2, 2, 2, 1]);
    assert!(!agree(&one, &other));
}

/// With bound 1 one record has 1, 2 and 6 and predicts 1 a page too high; with bound
/// 0 two records are right. Pages and levels are the same, but not the reads.
#[test]
fn predictions_alone_differ() {
    let [one, other] = [1, 0].map(|bound| World::flushed([5, 4, 8, bound], &[&[1, 2, 6]]));
    assert_eq!(pages(&one), pages(&other));
    assert_eq!(levels(&one), levels(&other));
    let found = |world: &World| -> Vec<u32> { predicted(world).into_iter().flatten().collect() };
    assert_eq!((found(&one), found(&other)), (vec![1, 1, 2], vec![0, 1, 2]));
    let reads = |world: &World| world.lookup(1).map(|answer| answer.reads());
    assert_eq!((reads(&one), reads(&other)), (Ok(2), Ok(1)));
    assert!(!agree(&one, &other));
}

/// So may predictions on devices of the same numbers: 6 is written again, but in one of
/// them it was learned with 1 and 2 before. Compaction doesn't bring them together.
#[test]
fn a_page_written_again_leaves_its_slope_behind() {
    let batches: [[&[u32]; 2]; 2] = [[&[1, 2, 6], &[6]], [&[1, 2], &[6]]];
    let [one, other] = batches.map(|batches| World::flushed([5, 4, 7, 1], &batches));
    assert_eq!(pages(&one), pages(&other));
    assert_eq!(levels(&one), levels(&other));
    let answer = |predicted| {
        let (page, levels) = (0, 1);
        Ok(Lookup::Found {
            page,
            predicted,
            levels,
        })
    };
    assert_eq!((one.lookup(1), other.lookup(1)), (answer(1), answer(0)));
    assert!(!agree(&one, &other));
    assert!(!agree(&one.compacted(), &other.compacted()));
}

/// Only N has to be equal, of the device numbers; and it has, whatever is written.
#[test]
fn devices_of_other_numbers() {
    let one = World::flushed([3, 4, 4, 0], &[&[0, 1]]);
    for numbers in [[3, 8, 4, 0], [9, 4, 4, 0], [3, 4, 4, 15]] {
        assert!(agree(&one, &World::flushed(numbers, &[&[0, 1]])));
    }
    assert!(!agree(&one, &World::flushed([3, 4, 3, 0], &[&[0, 1]])));
    assert!(!agree(
        &World::flushed([3, 4, 4, 0], &[]),
        &World::flushed([3, 4, 3, 0], &[])
    ));
}

/// Refusal 7 comes before 'no', whatever the two differ in: in N, or in a logical page
/// before or behind the one whose lookup refuses.
#[test]
fn refusal_7_comes_before_no() {
    let whole = World::flushed([3, 4, 4, 0], &[&[0, 1, 3]]);
    let others = [
        World::flushed([3, 4, 3, 0], &[&[0, 1]]),
        World::flushed([3, 4, 3, 0], &[]),
        discarded(&whole, 0),
        discarded(&whole, 2),
        whole.clone(),
    ];
    // Page 1 carries logical page 1; page 2 carries 3, which N 3 hasn't.
    for (page, logical_page) in [(1, 1), (2, 3)] {
        let mut one = whole.clone();
        one.area[page] = NOBODY;
        assert_eq!(one.lookup(logical_page), Err(Refusal::NotNamed));
        for other in &others {
            assert_eq!(one.agreement(other), Err(Refusal::NotNamed));
            assert_eq!(other.agreement(&one), Err(Refusal::NotNamed));
        }
        assert!(!agree(&discarded(&one, logical_page), &whole));
    }
}

/// The first state's 3 comes before the second's 1, which comes before 7.
#[test]
fn the_first_state_refuses_first() {
    let whole = World::flushed([3, 4, 4, 0], &[&[0, 1]]);
    let (mut unnamed, mut unsound, mut unlimited) = (whole.clone(), whole.clone(), whole);
    unnamed.area[0] = NOBODY;
    unsound.state_mut().counts[0] = 5;
    unlimited.state_mut().numbers[3] = 16;
    assert_eq!(unsound.agreement(&unlimited), Err(Refusal::NotSound));
    assert_eq!(unlimited.agreement(&unsound), Err(Refusal::BadNumbers));
    assert_eq!(unnamed.agreement(&unsound), Err(Refusal::NotSound));
    assert_eq!(unnamed.agreement(&unlimited), Err(Refusal::BadNumbers));
}

/// Devices with much in common: the same batches, now and then on a device with
/// another bound or with a block more; some compacted, some with a discard.
fn relatives(random: &mut Random) -> Vec<World> {
    let device = Device {
        bound: random.below(3),
        ..small_device(random)
    };
    let batches: Vec<Vec<u32>> = (0..random.between(0, device.blocks - 1))
        .map(|_| batch(random, &device))
        .collect();
    let discarded = random.below(device.logical_pages);
    (0..7)
        .map(|_| {
            let mut world = World::formatted(&Device {
                blocks: device.blocks + random.below(2),
                bound: random.pick(&[device.bound, device.bound, 0]),
                ..device
            });
            for batch in &batches {
                world.flush(batch).expect("an accepted flush");
            }
            if random.once_in(2) {
                world = world.compacted();
            }
            if random.once_in(3) {
                world.discard(discarded).expect("an accepted discard");
            }
            world
        })
        .collect()
}

/// How often the laws had something to say.
#[derive(Debug, Default)]
struct Met {
    alike: usize,
    chains: usize,
    levels_alone: usize,
    predictions_alone: usize,
}

/// Agreement is reflexive, symmetric and transitive, also of states that are not the
/// same; it is document 01's with the predicted pages and the levels.
#[test]
fn agreement_is_an_equivalence() {
    let mut met = Met::default();
    rounds(400, &mut met, |random, log, met| {
        let worlds = relatives(random);
        log.note(&worlds);
        for one in &worlds {
            assert!(agree(one, one));
            for other in &worlds {
                let agreed = agree(one, other);
                assert_eq!(agreed, agree(other, one));
                let same = [
                    pages(one) == pages(other),
                    predicted(one) == predicted(other),
                    levels(one) == levels(other),
                ];
                assert_eq!(agreed, same == [true; 3]);
                met.alike += usize::from(agreed && one != other);
                met.levels_alone += usize::from(same == [true, true, false]);
                met.predictions_alone += usize::from(same == [true, false, true]);
                for third in worlds.iter().filter(|third| agreed && agree(other, third)) {
                    assert!(agree(one, third));
                    let apart = one != other && other != third && one != third;
                    met.chains += usize::from(apart);
                }
            }
        }
    });
    let Met {
        alike,
        chains,
        levels_alone,
        predictions_alone,
    } = met;
    let all = [alike, chains, levels_alone, predictions_alone];
    assert!(all.iter().all(|&times| times > 0), "{met:?}");
}

/// Reflexive after any calls from a format, discards and collections among them. A
/// compaction keeps pages and predicted pages and never has more levels looked at, so
/// that the two agree exactly where it has no fewer for any.
#[test]
fn compaction_changes_levels_alone() {
    let mut tally = [0, 0];
    rounds(600, &mut tally, |random, log, tally| {
        let device = small_device(random);
        let one = World::lived_in(random, &device);
        log.note(&one);
        assert!(agree(&one, &one));
        let other = one.compacted();
        assert_eq!(pages(&one), pages(&other));
        assert_eq!(predicted(&one), predicted(&other));
        let (before, after) = (levels(&one), levels(&other));
        assert!(before
            .iter()
            .zip(&after)
            .all(|(before, after)| before >= after));
        let agreed = agree(&one, &other);
        assert_eq!(agreed, before == after);
        tally[usize::from(agreed)] += usize::from(one != other);
    });
    assert!(tally.iter().all(|&met| met > 0), "{tally:?}");
}
