//! Worked examples of discard.

use hedjosur_model::device::Device;
use hedjosur_model::ops::{self, Collected, Lookup, Refusal};
use hedjosur_model::state::{Lent, State};
use hedjosur_model::testing::{lists, rounds, small_device, World};

/// What lookup says of a discarded page.
const DISCARDED: Lookup = Lookup::NotWritten { levels: 0 };

/// A call that answers its refusal, if it is refused.
type Call = fn(&mut World) -> Option<Refusal>;

/// A refusal, the logical page of the call, and what is done to the world before.
type Spoiled = (Refusal, u32, fn(&mut World));

/// M 4, B 4, N 6, g 0, with logical pages 0 to 3 on block 0, 0 again on block 1
/// and 4, 5 on block 2; the last two bits of the marks belong to no logical page.
fn three_blocks() -> World {
    World::flushed([4, 4, 6, 0], &[&[0, 1, 2, 3], &[0], &[4, 5]])
}

/// The same, with these logical pages discarded.
fn discarded(logical_pages: &[u32]) -> World {
    let mut world = three_blocks();
    for &logical_page in logical_pages {
        assert_eq!(world.discard(logical_page), Ok(()));
    }
    world
}

fn state(world: &World) -> &State {
    world.lent.open().expect("a state").1
}

/// The page that a lookup finds.
fn page_of(world: &World, logical_page: u32) -> Option<u32> {
    let answer = world.lookup(logical_page).expect("an accepted lookup");
    answer.page()
}

/// A collection's answer with its plan and its erased list.
fn collected(world: &mut World) -> (Collected, [Vec<u32>; 2]) {
    let [mut plan, mut erased] = lists(&world.device());
    let World { lent, area } = world;
    let answer = ops::collection(lent, area, &mut plan, &mut erased).expect("a collection");
    plan.truncate(answer.count as usize);
    erased.truncate(answer.erased as usize);
    (answer, [plan, erased])
}

#[test]
fn a_discard_sets_a_mark_and_changes_nothing_else() {
    let world = discarded(&[2]);
    let mut marked = three_blocks();
    marked.state_mut().marks[2] = true;
    assert_eq!(world, marked);
    assert_eq!(world.lookup(2), Ok(DISCARDED));
    for other in [0, 1, 3, 4, 5] {
        assert_eq!(world.lookup(other), three_blocks().lookup(other));
    }
}

#[test]
fn a_page_never_written_is_discarded() {
    let mut world = World::formatted(&three_blocks().device());
    world.flush(&[0, 2]).expect("an accepted flush");
    world.flush(&[1]).expect("an accepted flush");
    assert_eq!(world.lookup(5), Ok(Lookup::NotWritten { levels: 2 }));
    assert_eq!(world.discard(5), Ok(()));
    assert_eq!(world.lookup(5), Ok(DISCARDED));
}

#[test]
fn a_page_is_discarded_twice() {
    assert_eq!(discarded(&[2, 2]), discarded(&[2]));
}

#[test]
fn a_flush_writes_a_discarded_page_again() {
    let mut world = discarded(&[0, 2, 3]);
    world.collection().expect("an accepted collection");
    let flushed = world.flush(&[3, 0, 3]).expect("an accepted flush");
    assert_eq!(page_of(&world, 0), Some(flushed.first));
    assert_eq!(page_of(&world, 3), Some(flushed.first + 1));
    assert_eq!(world.lookup(2), Ok(DISCARDED));
}

#[test]
fn a_collection_leaves_a_discarded_page_behind() {
    // Of block 0 the pages of 1, 2 and 3 are valid, which are too many.
    let answer = Collected {
        first: 12,
        count: 3,
        erased: 2,
    };
    let lists = [vec![4, 8, 9], vec![1, 2]];
    assert_eq!(collected(&mut three_blocks()), (answer, lists));
    // With 2 discarded they are two, and block 0 comes before block 2.
    let mut world = discarded(&[2]);
    let lists = [vec![4, 1, 3], vec![1, 0]];
    assert_eq!(collected(&mut world), (answer, lists));
    assert_eq!(world.lookup(2), Ok(DISCARDED));
    let pages = [0, 1, 3, 4, 5].map(|logical_page| page_of(&world, logical_page));
    assert_eq!(pages, [12, 13, 14, 8, 9].map(Some));
}

#[test]
fn a_collection_copies_nothing_where_all_is_discarded() {
    let mut world = discarded(&[0, 1, 2, 3, 4, 5]);
    let answer = Collected {
        first: 0,
        count: 0,
        erased: 3,
    };
    assert_eq!(collected(&mut world), (answer, [vec![], vec![0, 1, 2]]));
    assert_eq!(state(&world).counts, [0; 4]);
    assert_eq!(world.collection(), Err(Refusal::NothingToGain));
    // One block alone is erased where nothing of it is valid.
    world.flush(&[1, 2]).expect("an accepted flush");
    assert_eq!(world.collection(), Err(Refusal::NothingToGain));
    for logical_page in [1, 2] {
        assert_eq!(world.discard(logical_page), Ok(()));
    }
    let answer = Collected {
        erased: 1,
        ..answer
    };
    assert_eq!(collected(&mut world), (answer, [vec![], vec![0]]));
}

/// The record of a discarded page stays, also when its block is erased and used
/// again; nobody looks at it until the next write goes on top.
#[test]
fn a_record_stays_and_leads_astray() {
    let mut world = discarded(&[2]);
    world.collection().expect("an accepted collection");
    world.flush(&[4]).expect("an accepted flush");
    let mut unmarked = world.clone();
    unmarked.state_mut().marks[2] = false;
    assert_eq!(unmarked.lookup(2), Err(Refusal::NotNamed));
    assert_eq!(unmarked.agreement(&world), Err(Refusal::NotNamed));
    assert_eq!(world.lookup(2), Ok(DISCARDED));
    assert_eq!(world.agreement(&world), Ok(true));
    // Where lookup refuses 7, discard doesn't.
    assert_eq!(unmarked.discard(2), Ok(()));
    assert_eq!(unmarked, world);
    world.collection().expect("an accepted collection");
    let flushed = world.flush(&[2]).expect("an accepted flush");
    assert_eq!(page_of(&world, 2), Some(flushed.first));
}

/// The example of docs/GUIDE.md: no collection takes the block of a discarded page
/// while its other pages stay valid and others have fewer.
#[test]
fn a_discarded_page_may_stay_on_the_chip() {
    let mut world = World::formatted(&three_blocks().device());
    world.flush(&[0, 1, 2, 3]).expect("an accepted flush");
    assert_eq!(world.discard(3), Ok(()));
    for _ in 0..100 {
        world.flush_by_any_means(&[4, 5]);
        assert_eq!(world.area[..4], [0, 1, 2, 3]);
    }
}

/// What docs/GUIDE.md tells those whose readings have to be gone: the other logical
/// pages of the blocks that hold them are written again, and one collection has these
/// blocks erased.
#[test]
fn what_has_to_be_gone_is_erased() {
    let mut held = 0;
    rounds(300, &mut held, |random, log, held| {
        let device = small_device(random);
        let mut world = World::lived_in(random, &device);
        let gone = random.below(device.logical_pages);
        log.note((&world, gone));
        assert_eq!(world.discard(gone), Ok(()));
        let blocks = blocks_of(&world, gone);
        *held += blocks.len();
        for other in 0..device.logical_pages {
            let page = page_of(&world, other);
            if page.is_some_and(|page| blocks.contains(&(page / device.block_pages))) {
                world.flush_by_any_means(&[other]);
            }
        }
        if !blocks_of(&world, gone).is_empty() {
            world.collection().expect("an accepted collection");
        }
        assert_eq!(blocks_of(&world, gone), []);
    });
    assert!(held > 0, "no block held the readings");
}

/// The blocks with a page whose middle entry names a logical page: it was written
/// there, last or before, and the block wasn't erased since.
fn blocks_of(world: &World, logical_page: u32) -> Vec<u32> {
    let device = world.device();
    let pages = world.area.chunks(2 * device.bound as usize + 1);
    let named = pages.map(|names| names[device.bound as usize] == logical_page);
    let blocks = named.zip(0..).filter(|&(named, _)| named);
    let mut blocks = Vec::from_iter(blocks.map(|(_, page)| page / device.block_pages));
    blocks.dedup();
    blocks
}

/// Each of these calls, accepted or refused, keeps the marks and the bits behind
/// the last one.
#[test]
fn other_calls_keep_the_marks() {
    let calls: [(Option<Refusal>, Call); 10] = [
        (None, |world| world.lookup(2).err()),
        (None, |world| world.why(2).err()),
        (None, |world| world.agreement(world).err()),
        (None, |world| ops::list(&world.lent, 0).err()),
        (None, |world| ops::compaction(&mut world.lent, 0).err()),
        (None, |world| world.collection().err()),
        (Some(Refusal::OutOfRange), |world| world.lookup(6).err()),
        (Some(Refusal::OutOfRange), |world| world.discard(6).err()),
        (Some(Refusal::NoFreeBlock), |world| world.flush(&[2]).err()),
        (Some(Refusal::BadNumbers), |world| {
            let World { lent, area } = world;
            ops::format(lent, area, [4, 4, 7, 0]).err()
        }),
    ];
    let mut world = discarded(&[2, 5]);
    world.state_mut().marks[7] = true;
    for (refusal, call) in calls {
        let mut after = world.clone();
        assert_eq!(call(&mut after), refusal);
        assert_eq!(state(&after).marks, state(&world).marks);
    }
    // A flush and a discard keep the bits behind the last one.
    world.collection().expect("an accepted collection");
    world.flush(&[2, 5]).expect("an accepted flush");
    world.discard(0).expect("an accepted discard");
    let bits = [true, false, false, false, false, false, false, true];
    assert_eq!(state(&world).marks, bits);
}

/// 'A format clears all marks', and the bits behind the last one.
#[test]
fn a_format_clears_all_marks() {
    let mut world = three_blocks();
    world.state_mut().marks.fill(true);
    let World { lent, area } = &mut world;
    assert_eq!(ops::format(lent, area, [4, 4, 5, 0]), Ok(()));
    assert_eq!(state(&world).marks, [false; 8]);
    world.flush(&[0]).expect("an accepted flush");
    assert_eq!(world.lookup(2), Ok(Lookup::NotWritten { levels: 1 }));
}

/// Of a page never written all levels are looked at, of a discarded one none; two
/// states agree again where both have the mark.
#[test]
fn discarded_and_never_written_disagree() {
    let mut one = World::formatted(&three_blocks().device());
    one.flush(&[0, 1]).expect("an accepted flush");
    let mut other = one.clone();
    assert_eq!(other.discard(3), Ok(()));
    assert_eq!([&one, &other].map(|world| page_of(world, 3)), [None; 2]);
    assert_eq!(one.agreement(&other), Ok(false));
    assert_eq!(one.discard(3), Ok(()));
    assert_eq!(one.agreement(&other), Ok(true));
    assert_eq!(other.discard(1), Ok(()));
    assert_eq!(one.agreement(&other), Ok(false));
}

/// The refusals alone, then two at a time; lookup refuses alike.
#[test]
fn refusals() {
    let spoiled: [Spoiled; 13] = [
        (Refusal::BadNumbers, 0, |world| world.lent = Lent::Short),
        (Refusal::BadNumbers, 0, |world| {
            world.state_mut().numbers[0] = 2;
        }),
        (Refusal::BadLength, 0, |world| {
            world.state_mut().counts.push(0);
        }),
        (Refusal::BadLength, 0, |world| {
            world.state_mut().marks.truncate(496);
        }),
        (Refusal::BadLength, 0, |world| {
            world.state_mut().marks.extend([true; 8]);
        }),
        (Refusal::BadLength, 0, |world| {
            world.state_mut().groups.truncate(1);
        }),
        (Refusal::BadLength, 0, |world| world.area.clear()),
        (Refusal::BadLength, 0, |world| world.area.push(0)),
        (Refusal::OutOfRange, 500, |_| {}),
        (Refusal::NotSound, 255, |world| world.make_unsound(0)),
        // 1 before 2, 2 before 4, 4 before 3.
        (Refusal::BadNumbers, 0, |world| {
            world.state_mut().numbers[3] = 16;
            world.area.clear();
        }),
        (Refusal::BadLength, 500, |world| world.area.clear()),
        (Refusal::OutOfRange, 500, |world| world.make_unsound(1)),
    ];
    for (refusal, logical_page, spoil) in spoiled {
        let mut world = two_groups();
        spoil(&mut world);
        let before = world.clone();
        assert_eq!(world.lookup(logical_page), Err(refusal));
        assert_eq!(world.discard(logical_page), Err(refusal));
        assert_eq!(world, before);
    }
}

/// Only the logical page's own group has to be sound, not the other one and not
/// the counts.
#[test]
fn another_group_may_be_unsound() {
    let mut world = two_groups();
    world.make_unsound(0);
    world.state_mut().counts[0] = 65;
    assert_eq!(world.discard(256), Ok(()));
    assert_eq!(world.lookup(256), Ok(DISCARDED));
    assert_eq!(world.discard(255), Err(Refusal::NotSound));
}

/// M 17, B 64, N 500, g 1.
fn two_groups() -> World {
    World::formatted(&Device::new([17, 64, 500, 1]).expect("a device"))
}
