//! The calls, and what an accepted one leaves.

use std::collections::BTreeSet;

use hedjosur_model::plain::{self, Lent, NOT_WRITTEN};
use hedjosur_model::testing::{
    any_list, any_logical_page, perhaps_wrong, rounds, small_device, Random,
};

use super::facts::Facts;
use super::lent::any_lent;
use crate::collection::{gain, takings};
use crate::expected::{assert_met, expect, first_of, Tally};

#[test]
fn format_refuses_in_order() {
    let mut tally = Tally::new();
    rounds(2000, &mut tally, |random, log, tally| {
        let mut lent = any_lent(random);
        let mut numbers = match (&lent, random.once_in(2)) {
            (Lent::Held(state), true) => state.numbers,
            _ => small_device(random).numbers(),
        };
        if random.once_in(4) {
            numbers[random.below(4) as usize] = random.pick(&[0, 1, 2, 16, 5000, u32::MAX]);
        }
        log.note(("format", &lent, numbers));
        let facts = Facts::of(&lent).to_format(numbers);
        let expected = first_of(&[
            (1, facts.outside_limits()),
            (2, facts.short()),
            (2, facts.length_wrong()),
        ]);
        let answer = expect(tally, expected, &mut lent, |lent| {
            plain::format(lent, numbers)
        });
        if answer.is_some() {
            let state = lent.held_mut();
            assert_eq!(state.numbers, numbers);
            assert!(state.counts.iter().all(|&count| count == 0));
            assert!(state.entries.iter().all(|&entry| entry == 4_294_967_295));
        }
    });
    assert_met(&tally, &[1, 2]);
}

#[test]
fn lookup_and_discard_refuse_in_order() {
    let mut tally = Tally::new();
    rounds(2500, &mut tally, |random, log, tally| {
        let mut lent = any_lent(random);
        for _ in 0..4 {
            let mut discarded = lent.clone();
            let facts = Facts::of(&discarded);
            let logical_page = any_logical_page(random, facts.logical_pages());
            log.note(("lookup and discard", &lent, logical_page));
            let expected = first_of(&facts.refused_for(logical_page));
            let page = expect(tally, expected, &mut lent, |lent| {
                plain::lookup(lent, logical_page)
            });
            let answer = expect(tally, expected, &mut lent, |lent| {
                plain::discard(lent, logical_page)
            });
            assert_eq!(page.is_some(), answer.is_some());
            // The entry is the page, and it alone is changed.
            if let Some(page) = page {
                let entry = &mut discarded.held_mut().entries[logical_page as usize];
                assert_eq!(*entry, page.unwrap_or(NOT_WRITTEN));
                *entry = NOT_WRITTEN;
                assert_eq!(lent, discarded);
            }
        }
    });
    assert_met(&tally, &[1, 2, 3, 4]);
}

#[test]
fn flush_refuses_in_order() {
    let mut tally = Tally::new();
    rounds(4000, &mut tally, |random, log, tally| {
        let lent = any_lent(random);
        let facts = Facts::of(&lent);
        let batch = any_batch(random, &facts);
        let plan = any_list(random, facts.block_pages());
        log.note(("flush", &lent, &batch, plan.len()));
        let length = batch.len() as u64;
        let mut refused = facts.refused().to_vec();
        refused.push((2, plan.len() as u64 != facts.block_pages()));
        if first_of(&refused) == 0 {
            let beyond = |&page: &u32| u64::from(page) >= facts.logical_pages();
            refused.extend([
                (3, facts.unsound()),
                (5, length == 0 || length > facts.block_pages()),
                (4, batch.iter().any(beyond)),
                (6, facts.free().len() < 2),
            ]);
        }
        let mut after = (lent.clone(), plan.clone());
        let answer = expect(tally, first_of(&refused), &mut after, |(lent, plan)| {
            plain::flush(lent, &batch, plan)
        });
        if let Some(answer) = answer {
            let mut expected = (lent.clone(), plan);
            let state = expected.0.held_mut();
            let first = facts.free()[0] * facts.block_pages();
            let written: BTreeSet<u32> = batch.iter().copied().collect();
            for (place, logical_page) in written.iter().enumerate() {
                state.entries[*logical_page as usize] = first as u32 + place as u32;
                let last = batch.iter().rposition(|page| page == logical_page);
                expected.1[place] = last.expect("an arrival") as u32;
            }
            state.counts[facts.free()[0] as usize] = written.len() as u32;
            assert_eq!(after, expected);
            assert_eq!(u64::from(answer.first), first);
            assert_eq!(answer.count as usize, written.len());
        }
    });
    assert_met(&tally, &[1, 2, 3, 4, 5, 6]);
}

/// A batch that may be empty, too long, or have a logical page that is N or more.
fn any_batch(random: &mut Random, facts: &Facts) -> Vec<u32> {
    let logical_pages = facts.logical_pages().clamp(1, 1 << 31) as u32;
    let block_pages = facts.block_pages().clamp(1, 300) as u32;
    let length = random.between(1, block_pages);
    let batch = (0..length).map(|_| random.below(logical_pages)).collect();
    perhaps_wrong(random, batch, block_pages, logical_pages)
}

#[test]
fn collection_refuses_in_order() {
    let (mut tally, mut empty) = (Tally::new(), 0);
    let mut counts = (&mut tally, &mut empty);
    rounds(4000, &mut counts, |random, log, (tally, empty)| {
        let lent = any_lent(random);
        let facts = Facts::of(&lent);
        let plan = any_list(random, facts.block_pages());
        let erased = any_list(random, facts.blocks());
        log.note(("collection", &lent, plan.len(), erased.len()));
        let mut refused = facts.refused().to_vec();
        refused.push((2, plan.len() as u64 != facts.block_pages()));
        refused.push((2, erased.len() as u64 != facts.blocks()));
        let (mut taken, mut total) = (0, 0);
        if first_of(&refused) == 0 {
            let valid = facts
                .valid_pages()
                .iter()
                .map(|&(pages, _)| pages)
                .collect();
            (taken, total) = takings(valid, facts.block_pages());
            refused.push((3, facts.unsound()));
            refused.extend(gain(taken, total, facts.free().len()));
        }
        let mut after = (lent.clone(), plan.clone(), erased.clone());
        let answer = expect(tally, first_of(&refused), &mut after, |lent| {
            let (lent, plan, erased) = lent;
            plain::collection(lent, plan, erased)
        });
        if let Some(answer) = answer {
            assert_eq!((answer.count as usize, answer.erased), (total, taken));
            let expected = collected(&facts, taken as usize, (lent.clone(), plan, erased));
            assert_eq!(after, expected);
            let first = match total {
                0 => 0,
                _ => facts.free()[0] * facts.block_pages(),
            };
            assert_eq!(u64::from(answer.first), first);
            **empty += u32::from(total == 0);
        }
    });
    assert_met(&tally, &[1, 2, 3, 6, 8]);
    assert!(empty > 0, "no collection had a total of 0");
}

/// What an accepted collection that takes this many blocks leaves of a state, a plan
/// and an erased list.
fn collected(
    facts: &Facts,
    taken: usize,
    (mut lent, mut plan, mut erased): (Lent, Vec<u32>, Vec<u32>),
) -> (Lent, Vec<u32>, Vec<u32>) {
    let mut blocks = facts.valid_pages();
    blocks.sort_unstable();
    let state = lent.held_mut();
    let mut count = 0;
    for entry in &mut state.entries {
        let block = u64::from(*entry) / facts.block_pages();
        if blocks[..taken].iter().any(|&(_, one)| one == block) {
            plan[count] = *entry;
            *entry = (facts.free()[0] * facts.block_pages()) as u32 + count as u32;
            count += 1;
        }
    }
    if count > 0 {
        state.counts[facts.free()[0] as usize] = count as u32;
    }
    for (place, &(_, block)) in blocks[..taken].iter().enumerate() {
        state.counts[block as usize] = 0;
        erased[place] = block as u32;
    }
    (lent, plan, erased)
}
