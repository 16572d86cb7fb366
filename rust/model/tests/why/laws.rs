//! Laws of what is told, on devices with histories of their own.

use hedjosur_model::device::offset_of;
use hedjosur_model::ops::Reason;
use hedjosur_model::testing::{batch, rounds, small_device, World};

use crate::entries;

/// A flush puts all its records on level 0, and so does a collection: of what it wrote
/// one entry is listed, the member.
#[test]
fn what_was_just_written_is_a_member_at_the_top() {
    rounds(600, &mut (), |random, log, ()| {
        let device = small_device(random);
        let mut world = World::lived_in(random, &device);
        let batch = batch(random, &device);
        log.note((&world, &batch));
        world.flush_by_any_means(&batch);
        for logical_page in batch {
            let reasons = entries(&world, logical_page);
            let reasons = Vec::from_iter(reasons.iter().map(|entry| entry.reason));
            assert_eq!(reasons, [Reason::Member]);
        }
    });
}

/// After a compaction there are as many entries or fewer, and the last one says what it
/// said: member of a record that predicts the same page, or no member.
#[test]
fn a_compaction_keeps_the_last_reason() {
    let mut fewer = 0;
    rounds(600, &mut fewer, |random, log, fewer| {
        let device = small_device(random);
        let one = World::lived_in(random, &device);
        let other = one.compacted();
        log.note(&one);
        for logical_page in 0..device.logical_pages {
            let [before, after] = [&one, &other].map(|world| entries(world, logical_page));
            assert!(after.len() <= before.len());
            *fewer += usize::from(after.len() < before.len());
            let [before, after] = [before, after].map(|entries| {
                let last = entries
                    .last()
                    .filter(|last| last.reason == Reason::Member)?;
                last.record?.predicted(offset_of(logical_page))
            });
            assert_eq!(before, after);
        }
    });
    assert!(fewer > 0, "no compaction brought a record up");
}
