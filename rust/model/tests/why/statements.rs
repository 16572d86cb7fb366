//! Statements that one is tempted to believe, each with its counterexample on a small
//! device.

use hedjosur_model::ops::{self, Lookup, Reason, Refusal};
use hedjosur_model::record::Record;
use hedjosur_model::spare::NOBODY;
use hedjosur_model::testing::World;

use crate::entries;

/// What is told of every logical page.
fn whys(world: &World) -> Vec<Vec<[u8; 12]>> {
    let told = |logical_page| world.why(logical_page).expect("an accepted telling");
    (0..world.device().logical_pages).map(told).collect()
}

/// The records of group 0.
fn records(world: &World) -> Vec<&Record> {
    let group = ops::list(&world.lent, 0).expect("a sound group");
    group.records().collect()
}

/// The single 1 lies over what is left of 0, 1, 3, which still owns 1.
fn hidden_owner() -> World {
    World::flushed([5, 4, 4, 1], &[&[0, 1, 3], &[2], &[1], &[0, 2, 3]])
}

/// 'The owner given is the record that lookup uses.' An exact record above it may be.
#[test]
fn the_owner_given_need_not_be_the_member() {
    let world = hidden_owner();
    let told = [
        [0, 3, 173, 0, 12, 0, 0, 0, 2, 1, 1, 0],
        [1, 0, 0, 0, 8, 0, 0, 0, 3, 0, 0, 0],
    ];
    assert_eq!(world.why(1), Ok(told.to_vec()));
    let [_, member, owner] = records(&world)[..] else {
        panic!("three records");
    };
    assert_eq!([member, owner].map(|record| record.start), [1, 1]);
    assert_eq!((member.word, owner.word), (0, 173));
}

/// 'Devices that agree tell the same.' A compaction takes the hidden owner away and
/// changes nothing else that is told; lookups are what they were, in all that agreement
/// wants.
#[test]
fn devices_that_agree_may_give_another_owner() {
    let one = hidden_owner();
    let other = one.compacted();
    assert_eq!(one.agreement(&other), Ok(true));
    let [before, after] = [&one, &other].map(|world| entries(world, 1));
    assert_eq!(before[0].reason, Reason::NotOwned { owner: Some(1) });
    assert_eq!(after[0].reason, Reason::NotOwned { owner: None });
    assert_eq!((before[0].record, before[1]), (after[0].record, after[1]));
}

/// Nor do they tell the same member: with bound 0 the pair 1, 3 is cut to 1 by a
/// compaction, because 3 was written again.
#[test]
fn devices_that_agree_may_tell_another_member() {
    let one = World::flushed([3, 4, 4, 0], &[&[1, 3], &[0, 2, 3]]);
    let other = one.compacted();
    assert_eq!(one.agreement(&other), Ok(true));
    let above = [0, 2, 4, 0, 4, 0, 0, 0, 1, 0, 0, 0];
    let [before, after] = [2, 0].map(|span| [1, span, 4, 0, 255, 255, 255, 255, 3, 0, 0, 0]);
    assert_eq!(one.why(1), Ok(vec![above, before]));
    assert_eq!(other.why(1), Ok(vec![above, after]));
}

/// 'Devices that tell the same of every logical page agree.' Not even those whose states
/// are equal: the page is told by the spare area, which is not lent. The slope learned
/// from 1, 2, 6 is that of 0, 1, 6, and what differs is written again.
#[test]
fn devices_that_tell_the_same_need_not_agree() {
    let batches: [[&[u32]; 2]; 2] = [[&[1, 2, 6], &[0, 2]], [&[0, 1, 6], &[0, 2]]];
    let [one, other] = batches.map(|batches| World::flushed([5, 4, 7, 1], &batches));
    assert_eq!(one.lent, other.lent);
    assert_eq!(whys(&one), whys(&other));
    let answer = |page| {
        let (predicted, levels) = (1, 2);
        Ok(Lookup::Found {
            page,
            predicted,
            levels,
        })
    };
    assert_eq!((one.lookup(1), other.lookup(1)), (answer(0), answer(1)));
    assert_eq!(one.agreement(&other), Ok(false));
}

/// 'The listings of all logical pages show the whole group.' The older single 1 lies
/// under the newer one and is shown by none.
#[test]
fn the_listings_need_not_show_every_record() {
    let one = World::flushed([4, 4, 3, 0], &[&[1], &[0, 2], &[1]]);
    let other = one.compacted();
    assert_eq!([&one, &other].map(|world| records(world).len()), [3, 2]);
    assert_eq!(whys(&one), whys(&other));
    let hidden = records(&one)[2];
    let mut told = (0..3).flat_map(|logical_page| entries(&one, logical_page));
    assert!(told.all(|entry| entry.record != Some(hidden)));
}

/// 'Eight zeros are no record.' The single of logical page 0 on page 0 is eight zeros,
/// and only the reason tells it from none.
#[test]
fn a_record_may_be_eight_zeros() {
    let world = World::flushed([3, 4, 2, 0], &[&[0]]);
    assert_eq!(world.why(0), Ok(vec![[0, 0, 0, 0, 0, 0, 0, 0, 3, 0, 0, 0]]));
    assert_eq!(world.why(1), Ok(vec![[0; 12]]));
}

/// 'An owner's start of 0 is no owner.' It is one where the byte before is 1.
#[test]
fn an_owner_may_start_at_0() {
    let world = World::flushed([4, 4, 5, 1], &[&[0, 1, 3], &[1, 2, 4]]);
    let told = [
        [1, 3, 3, 1, 3, 0, 0, 0, 2, 1, 0, 0],
        [0, 3, 173, 0, 0, 0, 0, 0, 3, 0, 0, 0],
    ];
    assert_eq!(world.why(3), Ok(told.to_vec()));
}

/// 'The owner's start names one record of the group.' It names one approximate record;
/// an exact one may start there too. The single 0 does, beside the owner of 3.
#[test]
fn an_exact_record_may_start_where_the_owner_does() {
    let world = World::flushed([4, 4, 5, 1], &[&[0, 1, 3], &[1, 2, 4], &[0]]);
    let reasons = entries(&world, 3);
    assert_eq!(reasons[0].reason, Reason::NotOwned { owner: Some(0) });
    let all = records(&world);
    let starts_there = all.iter().filter(|record| record.start == 0);
    let approximate: Vec<bool> = starts_there.map(|record| record.is_approximate()).collect();
    assert_eq!(approximate, [false, true]);
}

/// 'The owner is at the next level.' The single 2 lies between.
#[test]
fn the_owner_need_not_be_at_the_next_level() {
    let world = World::flushed([4, 4, 6, 1], &[&[0, 1, 3], &[2], &[0, 4, 5]]);
    let reasons = entries(&world, 1);
    let reasons = Vec::from_iter(reasons.iter().map(|entry| entry.reason));
    let above = [Reason::NotOwned { owner: Some(1) }, Reason::NoneCovers];
    assert_eq!(reasons, [&above[..], &[Reason::Member]].concat());
}

/// 'Not owned and no owner: never written.' What no approximate record owns an exact one
/// may have.
#[test]
fn a_page_without_an_owner_may_be_written() {
    let world = World::flushed([3, 4, 4, 1], &[&[1], &[0, 2, 3]]);
    let told = [
        [0, 3, 173, 0, 4, 0, 0, 0, 2, 0, 0, 0],
        [1, 0, 0, 0, 0, 0, 0, 0, 3, 0, 0, 0],
    ];
    assert_eq!(world.why(1), Ok(told.to_vec()));
}

/// 'An offset that is owned is told with its owner.' Above the owner there may be no
/// approximate record that covers it.
#[test]
fn an_owner_may_be_left_untold() {
    let world = World::flushed([3, 4, 4, 1], &[&[0, 1, 3], &[0, 2]]);
    let told = [
        [0, 2, 4, 0, 4, 0, 0, 0, 1, 0, 0, 0],
        [1, 2, 173, 0, 0, 0, 0, 0, 3, 0, 0, 0],
    ];
    assert_eq!(world.why(1), Ok(told.to_vec()));
}

/// 'With bound 0 nothing is not owned.' So it is from a format; but a state that is
/// lent may be sound and hold an approximate record all the same.
#[test]
fn a_sound_state_of_bound_0_may_hold_an_approximate_record() {
    let mut world = World::flushed([3, 4, 3, 0], &[]);
    let record = Record::approximate(128, 0, [0, 2].into());
    world.state_mut().groups[0].insert(record);
    let told = [0, 2, 1, 1, 0, 0, 0, 0, 2, 0, 0, 0];
    assert_eq!(world.why(1), Ok(vec![told]));
}

/// 'A record is told at one level.' Its block was erased and used again, and the record
/// of 0 and 3 that was learned before is still there.
#[test]
fn two_levels_may_tell_the_same_bytes() {
    let mut world = World::flushed([3, 4, 4, 0], &[&[0, 3], &[1]]);
    world.collection().expect("an accepted collection");
    world.flush(&[0, 3]).expect("an accepted flush");
    let pair = [0, 3, 6, 0, 0, 0, 0, 0, 1, 0, 0, 0];
    assert_eq!(world.why(2), Ok(vec![pair, [0; 12], pair]));
}

/// 'The member told is the same until the page is written again.' It shrinks when others
/// are, and an accurate record of one member is no single.
#[test]
fn the_member_changes_though_its_page_is_not_written() {
    let mut world = World::flushed([3, 4, 2, 0], &[&[0, 1]]);
    assert_eq!(world.why(1), Ok(vec![[0, 1, 2, 0, 0, 0, 0, 0, 3, 0, 0, 0]]));
    world.flush(&[0]).expect("an accepted flush");
    assert_eq!(world.why(1), Ok(vec![[1, 0, 2, 0, 0, 0, 0, 0, 3, 0, 0, 0]]));
}

/// 'No entry: discarded.' A group without records has no level either, whatever other
/// groups hold, and the two can't be told apart.
#[test]
fn no_entry_may_be_a_group_without_records() {
    let mut world = World::flushed([130, 4, 257, 0], &[&[256]]);
    assert_eq!(world.why(0), Ok(vec![]));
    world.discard(0).expect("an accepted discard");
    assert_eq!(world.why(0), Ok(vec![]));
    world.flush(&[1]).expect("an accepted flush");
    // Now they can.
    assert_eq!(world.why(0), Ok(vec![]));
    assert_eq!(world.why(2), Ok(vec![[0; 12]]));
}

/// 'No listing is so long.' Batches around each other get a level each and never lose a
/// member below, until the group has 512 records: the buffer is filled to its end, and no
/// further, for a page beside all of them and for one inside.
#[test]
fn a_listing_may_fill_the_buffer() {
    assert_eq!(longest([3, 4, 4, 0], [&[0, 2], &[1]], 3, 0), 512);
    assert_eq!(longest([8, 4, 14, 0], [&[0, 13], &[1, 12]], 5, 1), 512);
}

/// The longest listing of a logical page, never written, while two batches are flushed in
/// turn; all its entries have this reason.
fn longest(numbers: [u32; 4], batches: [&[u32]; 2], logical_page: u32, reason: u8) -> usize {
    let mut world = World::flushed(numbers, &[]);
    let mut most = 0;
    for batch in batches.iter().cycle().take(1100) {
        world.flush_by_any_means(batch);
        let told = world.why(logical_page).expect("an accepted telling");
        assert!(told.iter().all(|entry| entry[8] == reason));
        let levels = told.len();
        assert_eq!(
            world.lookup(logical_page),
            Ok(Lookup::NotWritten { levels })
        );
        most = most.max(levels);
    }
    most
}

/// 'Why refuses where lookup does.' It is lent no spare area: one of a wrong length is
/// refused by lookup alone, and before 4.
#[test]
fn the_spare_area_may_have_any_length() {
    let mut world = World::flushed([3, 4, 2, 0], &[&[0]]);
    for length in [0, 11, 13] {
        world.area.resize(length, NOBODY);
        assert_eq!(world.lookup(0), Err(Refusal::BadLength));
        assert_eq!(world.why(0).map(|told| told.len()), Ok(1));
        assert_eq!(world.lookup(2), Err(Refusal::BadLength));
        assert_eq!(world.why(2), Err(Refusal::OutOfRange));
    }
}

/// 'As many entries as lookup looks at levels.' Where lookup refuses 7 it answers no
/// number of levels; there are still entries, down to the level that has the page.
#[test]
fn there_are_entries_where_lookup_refuses_7() {
    let mut world = World::flushed([4, 4, 3, 0], &[&[1], &[0, 2]]);
    assert_eq!(world.lookup(1).map(|answer| answer.page()), Ok(Some(0)));
    world.area.fill(NOBODY);
    assert_eq!(world.lookup(1), Err(Refusal::NotNamed));
    let told = [
        [0, 2, 4, 0, 4, 0, 0, 0, 1, 0, 0, 0],
        [1, 0, 0, 0, 0, 0, 0, 0, 3, 0, 0, 0],
    ];
    assert_eq!(world.why(1), Ok(told.to_vec()));
}
