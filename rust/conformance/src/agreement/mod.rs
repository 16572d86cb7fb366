//! Agreement of states that differ in one thing alone, or in nothing that a lookup
//! answers: the answer is known without the model.

mod changes;
mod contents;

use std::collections::BTreeSet;

use hedjosur_layout::state_bytes;
use hedjosur_model::device::Device;
use hedjosur_model::ops::{Lookup, Refusal};
use hedjosur_model::testing::{full_device, lists, multiplier, rounds, CallLog, Random};

use crate::answers::Answers;
use crate::beside::Beside;
use crate::calls::Calls;
use crate::steps::Writer;
use changes::{Change, Pair, Place};
use contents::Contents;

/// What occurred.
#[derive(Debug, Default)]
struct Met {
    /// Without a refused lookup: each change in each place.
    changes: BTreeSet<(Change, Place)>,
    /// With one: what else, and which of the states refuse it.
    refusals: BTreeSet<(With, [bool; 2])>,
}

/// What there is beside a refused lookup.
#[derive(Clone, Copy, Debug, PartialEq, Eq, PartialOrd, Ord)]
enum With {
    /// Nothing: the states would agree.
    Nothing,
    /// An earlier logical page that differs.
    Earlier,
    /// A later one.
    Later,
    /// Another N.
    OtherN,
    /// Another N, which is not above the refused logical page.
    Beyond,
}

/// Calls that change no page and yet what lookups answer, or not even that: a discard of
/// a page that was never written, and a compaction.
pub fn check_examples(calls: &impl Calls) {
    let mut answers = Answers::default();
    let log = &mut CallLog::new(0);
    let beside = &mut Beside::new(calls, log, &mut answers);
    let device = full_device(3, 4, 1);
    let agreed = lists_agree(beside, &device, &[&[0, 1]], |beside| {
        assert_eq!(beside.discard(3), Ok(()));
    });
    assert!(!agreed);
    // Without records a discarded page and one never written both look at no level.
    let agreed = lists_agree(beside, &device, &[], |beside| {
        assert_eq!(beside.discard(3), Ok(()));
    });
    assert!(agreed);
    // The first record has a level of its own at last, and no member that is found.
    let device = full_device(9, 64, 1);
    let batches: [&[u32]; 3] = [&[0, 1, 2, 3], &[1], &[0, 1, 2, 3]];
    for (flushed, unchanged) in [(1, true), (3, false)] {
        let agreed = lists_agree(beside, &device, &batches[..flushed], |beside| {
            assert_eq!(beside.compact(0), Ok(1));
        });
        assert_eq!(agreed, unchanged);
    }
    answers.tell("agreement after calls", 20);
}

/// Whether a device, formatted and flushed, agrees with itself after another call.
fn lists_agree<'a, C: Calls>(
    beside: &mut Beside<'a, C>,
    device: &Device,
    batches: &[&[u32]],
    call: impl FnOnce(&mut Beside<'a, C>),
) -> bool {
    beside.lend(vec![0; state_bytes(device)], vec![0; device.spare_length()]);
    assert_eq!(beside.format(device.numbers()), Ok(()));
    for batch in batches {
        let [mut plan, _] = lists(device);
        assert!(beside.flush(batch, &mut plan).is_ok());
    }
    let (bytes, area) = beside.lent();
    assert_eq!(beside.agree((&bytes, &area)), [Ok(true); 2]);
    call(beside);
    let [one_way, other_way] = beside.agree((&bytes, &area));
    assert_eq!(one_way, other_way);
    one_way.expect("an accepted agreement")
}

/// Pairs of each kind, agreed both ways, with and without a refused lookup: 14 calls a
/// round.
pub fn check_agreement(calls: &impl Calls, base: u64) {
    let mut counts = (Answers::default(), Met::default());
    rounds(base, &mut counts, |random, log, (answers, met)| {
        let (change, place) = (random.pick(&Change::ALL), random.pick(&Place::ALL));
        let mut pair = Pair::new(random, change, place);
        assert_eq!(differing(&pair), expected_difference(change, &pair));
        log.note((change, place, pair.changed));
        if random.once_in(2) {
            let refused = any_page(random, &pair);
            let by = pair.refuse(random, refused);
            log.note(("refused", refused, by));
            if by.contains(&true) {
                let beside = beside_refusal(change, &pair, refused);
                met.refusals.insert((beside, by));
            }
        } else {
            met.changes.insert((change, place));
        }
        compare(&mut Beside::new(calls, log, answers), random, &pair);
    });
    let (answers, met) = counts;
    met.assert_all();
    assert_eq!(answers.met("agree"), [0, 7]);
    answers.tell("agreement", 14 * (base * multiplier()) as usize);
}

impl Met {
    /// All that should occur did.
    fn assert_all(&self) {
        for change in Change::ALL {
            for place in Place::ALL {
                assert!(
                    self.changes.contains(&(change, place)),
                    "{change:?}, {place:?}"
                );
            }
        }
        let both = [[true, false], [false, true], [true, true]];
        for by in both {
            for beside in [With::Nothing, With::Earlier, With::Later, With::OtherN] {
                assert!(self.refusals.contains(&(beside, by)), "{beside:?}, {by:?}");
            }
        }
        for by in &both[..2] {
            assert!(
                self.refusals.contains(&(With::Beyond, *by)),
                "beyond, {by:?}"
            );
        }
    }
}

/// What lookups of all logical pages answer.
fn lookups(state: &Contents) -> Result<Vec<Lookup>, Refusal> {
    let pages = 0..state.device.logical_pages;
    pages.map(|page| state.lookup(page)).collect()
}

/// The logical pages, of those that both have, whose lookups differ.
fn differing(pair: &Pair) -> Vec<u32> {
    let [one, other] = &pair.states;
    let fewer = one.device.logical_pages.min(other.device.logical_pages);
    let differs = |&page: &u32| one.lookup(page) != other.lookup(page);
    (0..fewer).filter(differs).collect()
}

/// The logical pages whose lookups are to differ.
fn expected_difference(change: Change, pair: &Pair) -> Vec<u32> {
    let changed = change.is_seen().then_some(pair.changed);
    changed.into_iter().collect()
}

/// A logical page of either state.
fn any_page(random: &mut Random, pair: &Pair) -> u32 {
    let numbers = pair
        .states
        .each_ref()
        .map(|state| state.device.logical_pages);
    random.below(numbers[0].max(numbers[1]))
}

/// What there is beside the refused lookup of a logical page.
fn beside_refusal(change: Change, pair: &Pair, refused: u32) -> With {
    let is_beyond = |state: &Contents| refused >= state.device.logical_pages;
    match change {
        Change::Shorter if pair.states.iter().any(is_beyond) => With::Beyond,
        Change::Shorter => With::OtherN,
        _ if !change.is_seen() => With::Nothing,
        _ if pair.changed < refused => With::Earlier,
        _ => With::Later,
    }
}

/// Some lookups are as the contents say, and agreement is as the lookups do.
fn compare<C: Calls>(beside: &mut Beside<C>, random: &mut Random, pair: &Pair) {
    let [one, other] = pair.states.each_ref().map(|state| {
        let lent = state.lent(random);
        beside.lend(lent.0.clone(), lent.1.clone());
        let logical_pages = state.device.logical_pages;
        let changed = pair.changed.min(logical_pages - 1);
        for page in [
            changed,
            0,
            1,
            logical_pages - 1,
            random.below(logical_pages),
        ] {
            assert_eq!(beside.lookup(page), state.lookup(page));
        }
        lent
    });
    let [of_one, of_other] = pair.states.each_ref().map(lookups);
    // 'It refuses .. 7 if any lookup does'; lists are equal only if N is.
    let expected = of_one.and_then(|of_one| Ok(of_one == of_other?));
    assert_eq!(beside.agree((&one.0, &one.1)), [expected; 2]);
    let itself = lookups(&pair.states[1]).map(|_| true);
    assert_eq!(beside.agree((&other.0, &other.1)), [itself; 2]);
}
