//! Worked examples of insertion and compaction, the paper's traps among them.

use hedjosur_model::levels::Group;
use hedjosur_model::record::{Kind, Record};

/// A single record.
fn single(offset: u8) -> Record {
    Record::exact(offset, 0, Kind::Single, 0)
}

/// An accurate record with these first and last members.
fn accurate(start: u8, last: u8, stride: u8) -> Record {
    Record::exact(start, last - start, Kind::Accurate { stride }, 0)
}

/// An approximate record that owns these offsets. The intercept tells it from
/// others.
fn approximate(intercept: i32, owns: &[u8]) -> Record {
    Record::approximate(100, intercept, owns.iter().copied().collect())
}

fn group(levels: &[&[Record]]) -> Group {
    Group {
        levels: levels.iter().map(|level| level.to_vec()).collect(),
        ..Group::default()
    }
}

fn inserted(levels: &[&[Record]], new: &Record) -> Group {
    let mut group = group(levels);
    group.insert(new.clone());
    group
}

fn compacted(levels: &[&[Record]]) -> Group {
    let mut group = group(levels);
    group.compact();
    group
}

#[test]
fn the_first_record_makes_level_0() {
    assert_eq!(inserted(&[], &single(5)), group(&[&[single(5)]]));
}

#[test]
fn records_of_a_level_ascend() {
    let level = [single(1), single(9)];
    let expected = [single(1), single(5), single(9)];
    assert_eq!(inserted(&[&level], &single(5)), group(&[&expected]));
}

#[test]
fn a_victim_without_members_goes() {
    let new = accurate(4, 6, 1);
    assert_eq!(inserted(&[&[single(5)]], &new), group(&[&[new]]));
}

#[test]
fn a_victim_that_no_longer_meets_stays_in_level_0() {
    let new = accurate(5, 9, 1);
    let shrunk = accurate(0, 4, 1);
    let after = inserted(&[&[accurate(0, 9, 1)]], &new);
    assert_eq!(after, group(&[&[shrunk, new]]));
    // It keeps its stride, down to one member.
    let after = inserted(&[&[accurate(0, 5, 5)]], &single(5));
    assert_eq!(after, group(&[&[accurate(0, 0, 5), single(5)]]));
}

#[test]
fn an_accurate_victim_keeps_members_inside_its_range() {
    let (old, new) = (accurate(0, 10, 5), accurate(5, 15, 10));
    let after = inserted(&[std::slice::from_ref(&old)], &new);
    assert_eq!(after, group(&[&[new], &[old]]));
}

#[test]
fn a_victim_around_the_new_record_moves_down_whole() {
    let (old, new) = (accurate(0, 9, 1), accurate(3, 5, 1));
    let after = inserted(&[std::slice::from_ref(&old)], &new);
    assert_eq!(after, group(&[&[new], &[old]]));
}

#[test]
fn a_victim_joins_level_1_where_it_meets_nothing() {
    let (old, new) = (accurate(0, 10, 10), single(5));
    let after = inserted(&[std::slice::from_ref(&old), &[single(20)]], &new);
    assert_eq!(after, group(&[&[new], &[old, single(20)]]));
}

#[test]
fn a_victim_that_meets_something_in_level_1_gets_a_level_between() {
    let (old, new) = (accurate(0, 10, 10), single(5));
    let after = inserted(&[std::slice::from_ref(&old), &[single(7)]], &new);
    assert_eq!(after, group(&[&[new], &[old], &[single(7)]]));
}

/// 'The second must look at the level that the first may have made.'
#[test]
fn a_second_victim_looks_at_the_level_that_the_first_made() {
    let level = [accurate(0, 10, 10), accurate(20, 30, 10)];
    let new = accurate(8, 22, 14);
    let after = inserted(&[&level, &[single(5)]], &new);
    assert_eq!(after, group(&[&[new], &level, &[single(5)]]));
}

#[test]
fn a_second_victim_may_make_a_level_above_the_first() {
    let level = [accurate(0, 10, 10), accurate(20, 30, 10)];
    let new = accurate(8, 22, 14);
    let after = inserted(&[&level, &[single(25)]], &new);
    let [first, second] = level;
    assert_eq!(after, group(&[&[new], &[second], &[first, single(25)]]));
}

#[test]
fn an_approximate_victim_gives_up_members_inside_too() {
    let after = inserted(&[&[approximate(1, &[1, 3, 5])]], &single(3));
    assert_eq!(after, group(&[&[single(3)], &[approximate(1, &[1, 5])]]));
}

#[test]
fn approximate_records_give_up_offsets_at_every_level() {
    let levels: [&[Record]; 3] = [
        &[single(50)],
        &[accurate(0, 8, 2), approximate(1, &[10, 12, 14])],
        &[approximate(2, &[11, 13, 15])],
    ];
    let new = approximate(3, &[13, 14, 15]);
    let after = inserted(&levels, &new);
    let expected: [&[Record]; 3] = [
        &[new, single(50)],
        &[accurate(0, 8, 2), approximate(1, &[10, 12])],
        &[approximate(2, &[11])],
    ];
    assert_eq!(after, group(&expected));
}

/// 'An approximate record deep down may lose all its offsets; it has to go', and
/// its level with it, before the first victim is looked at.
#[test]
fn an_emptied_level_vanishes_before_the_first_victim() {
    let levels: [&[Record]; 3] = [&[single(3)], &[approximate(1, &[2, 4])], &[single(9)]];
    let new = approximate(2, &[2, 4]);
    let after = inserted(&levels, &new);
    assert_eq!(after, group(&[&[new], &[single(3), single(9)]]));
}

#[test]
fn level_0_does_not_vanish() {
    let new = approximate(2, &[2]);
    let after = inserted(&[&[approximate(1, &[2])], &[single(7)]], &new);
    assert_eq!(after, group(&[&[new], &[single(7)]]));
}

#[test]
fn compaction_shrinks_by_all_records_above() {
    let (new, old) = (accurate(0, 3, 1), accurate(0, 9, 1));
    let after = compacted(&[std::slice::from_ref(&new), &[old]]);
    assert_eq!(after, group(&[&[new, accurate(4, 9, 1)]]));
    // Both of two levels count, and what is left of an approximate record is
    // what it still owns.
    let levels: [&[Record]; 3] = [
        &[single(1)],
        &[accurate(7, 9, 2)],
        &[approximate(1, &[1, 4, 7, 12]), accurate(20, 20, 3)],
    ];
    let expected: [&[Record]; 2] = [
        &[single(1), accurate(7, 9, 2), accurate(20, 20, 3)],
        &[approximate(1, &[4, 12])],
    ];
    assert_eq!(compacted(&levels), group(&expected));
}

#[test]
fn compaction_puts_a_record_below_the_lowest_it_meets() {
    let levels: [&[Record]; 4] = [
        &[single(5)],
        &[accurate(4, 9, 5)],
        // Meets the record of level 1 and none above that.
        &[accurate(8, 12, 4)],
        // A member of the record above, which goes; one that meets nothing.
        &[single(12), single(40)],
    ];
    let expected: [&[Record]; 3] = [&[single(5), single(40)], levels[1], levels[2]];
    assert_eq!(compacted(&levels), group(&expected));
    // It meets records at levels 0 and 1: the lower one counts.
    let nested: [&[Record]; 3] = [
        &[accurate(10, 20, 10)],
        &[single(15)],
        &[accurate(14, 16, 2)],
    ];
    assert_eq!(compacted(&nested), group(&nested));
}

#[test]
fn a_group_without_records_has_no_level() {
    assert_eq!(compacted(&[]), Group::default());
}
