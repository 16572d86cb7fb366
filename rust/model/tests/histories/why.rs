//! What telling why has to say.

use hedjosur_model::device::{group_of, offset_of};
use hedjosur_model::ops::Lookup;
use hedjosur_model::record::Kind;
use hedjosur_model::testing::{Told, World};

use crate::events::Events;

/// 'Each reason holds in the state, there are as many entries as lookup looks at
/// levels, and the last says member exactly where lookup doesn't say 'not written'.'
/// The record told last predicts the predicted page, an owner lies below the record that
/// is told not to own the offset, and with bound 0 no record owns any.
pub fn check_told(events: &mut Events, world: &World, logical_page: u32, answer: Lookup) {
    let entries = world.why(logical_page).expect("an accepted telling");
    let told: Vec<Told> = entries.into_iter().map(Told::read).collect();
    let (device, state) = world.lent.open().expect("a state");
    let (group, offset) = (
        &state.groups[group_of(logical_page)],
        offset_of(logical_page),
    );
    for (level, one) in told.iter().enumerate() {
        assert!(one.holds(group, level, offset), "{logical_page}: {told:?}");
    }
    let (last, above) = match told.split_last() {
        Some((last, above)) if last.reason == 3 => (Some(last), above),
        _ => (None, &told[..]),
    };
    assert!(above.iter().all(|one| one.reason < 3));
    assert!(device.bound > 0 || above.iter().all(|one| one.reason < 2));
    match answer {
        Lookup::Found {
            predicted, levels, ..
        } => {
            let last = last.expect("the last says member");
            let kind = Kind::of(last.word).expect("a tabled word");
            let page = i64::from(last.intercept) + kind.rise(offset);
            assert_eq!((page, told.len()), (predicted.into(), levels));
            events.told_member += 1;
        }
        Lookup::NotWritten { levels } => {
            assert_eq!((last, told.len()), (None, levels));
            // Nobody owns what was never written.
            assert!(told.iter().all(|one| one.owner.is_none()));
            events.told_nothing += usize::from(told.is_empty());
        }
    }
    for (level, one) in above.iter().enumerate() {
        match (one.reason, one.owner) {
            (0, _) => events.told_none += 1,
            (1, _) => events.told_off_the_stride += 1,
            (_, None) => events.told_unowned += 1,
            (_, Some(start)) => {
                let mut below = group.levels[level + 1..].iter().flatten();
                assert!(below.any(|record| record.is_approximate() && record.start == start));
                events.told_owner += 1;
                let reached = last.is_some_and(|last| last.word % 2 == 1);
                events.told_hidden_owner += usize::from(!reached);
            }
        }
    }
}
