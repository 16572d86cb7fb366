//! Worked examples.

use hedjosur_model::cases::whys;
use hedjosur_model::ops::{self, Lookup, Reason, Refusal, WhyEntry};
use hedjosur_model::record::{Kind, Record};
use hedjosur_model::sound::state_is_sound;
use hedjosur_model::testing::World;

/// Each case, byte by byte, with what lookup answers beside it.
#[test]
fn every_case() {
    for case in whys() {
        let batches: Vec<&[u32]> = case.flushes.iter().map(Vec::as_slice).collect();
        let flushed = World::flushed(case.numbers, &batches);
        let world = match case.compacted {
            true => flushed.compacted(),
            false => flushed,
        };
        for (logical_page, told) in &case.told {
            let shown = format!("{}: {logical_page}", case.name);
            assert_eq!(world.why(*logical_page).as_ref(), Ok(told), "{shown}");
            let member = told.last().is_some_and(|entry| entry[8] == 3);
            match world.lookup(*logical_page).expect("an accepted lookup") {
                Lookup::Found { levels, .. } => assert_eq!((levels, true), (told.len(), member)),
                Lookup::NotWritten { levels } => {
                    assert_eq!((levels, false), (told.len(), member));
                }
            }
        }
    }
}

/// All four reasons as values: from the top the accurate record of 0 and 3, the single 2,
/// the approximate record of 0, 2 and 3, and the single 1.
#[test]
fn entries_as_values() {
    let world = World::flushed([5, 4, 4, 1], &[&[1], &[0, 2, 3], &[2], &[0, 3]]);
    let group = ops::list(&world.lent, 0).expect("a sound group");
    let told = [
        (true, Reason::OffTheStride),
        (false, Reason::NoneCovers),
        (true, Reason::NotOwned { owner: None }),
        (true, Reason::Member),
    ];
    let entries: Vec<WhyEntry> = (0..)
        .zip(told)
        .map(|(level, (covers, reason))| WhyEntry {
            level,
            record: covers.then_some(&group.levels[level][0]),
            reason,
        })
        .collect();
    assert_eq!(ops::reasons(&world.lent, 1).as_ref(), Ok(&entries));
    let bytes = entries.iter().map(WhyEntry::bytes).collect();
    assert_eq!(world.why(1), Ok(bytes));
}

/// 'A discarded page lists nothing', until it is written again.
#[test]
fn a_discarded_page_lists_nothing() {
    let mut world = World::flushed([4, 4, 6, 0], &[&[0, 1, 2, 3]]);
    let listed = vec![[0, 3, 2, 0, 0, 0, 0, 0, 3, 0, 0, 0]];
    assert_eq!(world.why(2), Ok(listed.clone()));
    world.discard(2).expect("an accepted discard");
    assert_eq!(world.why(2), Ok(vec![]));
    assert_eq!(ops::reasons(&world.lent, 2), Ok(vec![]));
    // Its neighbours' record stays.
    assert_eq!(world.why(1), Ok(listed));
    world.flush(&[2]).expect("an accepted flush");
    assert_eq!(world.why(2), Ok(vec![[2, 0, 0, 0, 4, 0, 0, 0, 3, 0, 0, 0]]));
    // A page never written and discarded lists nothing either.
    assert_eq!(world.why(5), Ok(vec![[0; 12]; 2]));
    world.discard(5).expect("an accepted discard");
    assert_eq!(world.why(5), Ok(vec![]));
}

/// Where lookup refuses 7, the last entry says member, and there are 'as many entries as
/// the holding level's number + 1'.
#[test]
fn it_does_not_refuse_7() {
    let mut world = World::flushed([4, 4, 6, 0], &[&[0, 2], &[1]]);
    world.area.fill(5);
    assert_eq!(world.lookup(2), Err(Refusal::NotNamed));
    let told = [
        [0, 0, 0, 0, 0, 0, 0, 0, 0, 0, 0, 0],
        [0, 2, 4, 0, 0, 0, 0, 0, 3, 0, 0, 0],
    ];
    assert_eq!(world.why(2), Ok(told.to_vec()));
    // A predicted page that doesn't exist.
    world.state_mut().groups[0].levels[1][0].intercept = -9;
    assert_eq!(world.lookup(2), Err(Refusal::NotNamed));
    let told = [told[0], [0, 2, 4, 0, 247, 255, 255, 255, 3, 0, 0, 0]];
    assert_eq!(world.why(2), Ok(told.to_vec()));
    // A discarded page is spared both.
    world.discard(2).expect("an accepted discard");
    assert_eq!(world.lookup(2), Ok(Lookup::NotWritten { levels: 0 }));
    assert_eq!(world.why(2), Ok(vec![]));
}

/// As many levels as a sound group can have, with nothing at the offset: the buffer is
/// filled to its end.
#[test]
fn five_hundred_and_twelve_levels() {
    let mut world = World::flushed([9, 64, 256, 0], &[]);
    let single = Record::exact(7, 0, Kind::Single, 0);
    world.state_mut().groups[0].levels = vec![vec![single.clone()]; 512];
    let (device, state) = world.lent.open().expect("a state");
    assert!(state_is_sound(&device, state));
    assert_eq!(world.why(6), Ok(vec![[0; 12]; 512]));
    assert_eq!(world.why(7), Ok(vec![[7, 0, 0, 0, 0, 0, 0, 0, 3, 0, 0, 0]]));
    // One level more is one record more, and not sound.
    world.state_mut().groups[0].levels.push(vec![single]);
    assert_eq!(world.why(6), Err(Refusal::NotSound));
}
