//! Records and groups, looked at a second time: members, predictions, soundness.

use std::collections::BTreeSet;

use hedjosur_model::levels::Group;
use hedjosur_model::record::Record;
use hedjosur_model::sound::group_is_sound;
use hedjosur_model::testing::{last_offset, rounds, small_device, sound_state};

use crate::worlds::spoil;

/// The members of a record, listed.
pub fn members(record: &Record) -> BTreeSet<u8> {
    let (first, last) = (u32::from(record.start), record.last());
    match record.word {
        0 => [record.start].into(),
        word if word % 2 == 0 => (first..=last)
            .step_by(usize::from(word / 2))
            .map(|offset| offset as u8)
            .collect(),
        _ => record.owns.clone(),
    }
}

/// What the word adds to the intercept at an offset: a fraction, rounded up.
pub fn rise(record: &Record, offset: u8) -> i64 {
    let (word, offset) = (i64::from(record.word), i64::from(offset));
    let (over, under) = match word {
        0 => (0, 1),
        _ if word % 2 == 0 => (offset, word / 2),
        _ => ((word - 1) / 2 * offset, 256),
    };
    over / under + i64::from(over % under != 0)
}

/// Soundness, a second time: every level is laid out offset by offset, and the
/// owners are counted.
pub fn group_unsound(logical_pages: u64, number: usize, group: &Group) -> bool {
    let layout_wrong = group.levels.iter().any(|level| {
        let covered: Vec<u32> = level
            .iter()
            .flat_map(|record| u32::from(record.start)..=record.last())
            .collect();
        covered.is_empty() || covered.windows(2).any(|pair| pair[0] >= pair[1])
    });
    let record_wrong = |record: &Record| {
        let (start, span, word) = (record.start, record.span, record.word);
        let last = u64::from(start) + u64::from(span);
        let range: Vec<u64> = vec![start.into(), last];
        let owned = [record.owns.first(), record.owns.last()];
        let owned: Vec<u64> = owned.into_iter().flatten().map(|&o| o.into()).collect();
        last > 255
            || 256 * number as u64 + last >= logical_pages
            || match word {
                0 => span != 0 || !owned.is_empty(),
                1..=511 if word % 2 == 0 => u16::from(span) % (word / 2) != 0 || !owned.is_empty(),
                1..=513 if word % 2 == 1 => owned != range,
                _ => true,
            }
    };
    let owned: usize = group.records().map(|record| record.owns.len()).sum();
    let offsets: BTreeSet<u8> = group.records().flat_map(|r| r.owns.clone()).collect();
    layout_wrong
        || group.levels.concat().len() > 512
        || group.records().any(record_wrong)
        || owned != offsets.len()
        || !group.strays.is_empty()
}

/// The model's soundness and the one above agree, on sound groups and spoiled.
#[test]
fn soundness_is_the_same_both_ways() {
    let mut tally = [0, 0];
    rounds(2000, &mut tally, |random, log, tally| {
        let device = small_device(random);
        let mut state = sound_state(random, &device);
        if random.once_in(2) {
            spoil(random, &mut state);
        }
        log.note(&state);
        let group = &state.groups[0];
        let sound = group_is_sound(&device, 0, group);
        assert_eq!(sound, !group_unsound(device.logical_pages.into(), 0, group));
        assert!(last_offset(&device, 0) < 20);
        tally[usize::from(sound)] += 1;
    });
    assert!(tally.iter().all(|&met| met > 0));
}
