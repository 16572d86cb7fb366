//! Worked examples.

use hedjosur_model::ops::{Collected, Flushed, Refusal};
use hedjosur_model::plain::{self, Lent, State, NOT_WRITTEN};
use hedjosur_model::testing::{full_device, lists};

use crate::{discard, flush, formatted, two_blocks, NUMBERS, STAYS};

/// Three flushes and two discards, which leave one block free.
fn three_blocks() -> Lent {
    let mut lent = two_blocks();
    assert_eq!(flush(&mut lent, &[3]), (8, 1, [0, STAYS, STAYS, STAYS]));
    lent
}

/// An accepted collection: its first page, its count, how many blocks it erased, the
/// whole plan and the whole erased list.
fn collect(lent: &mut Lent) -> (u32, u32, u32, [u32; 4], [u32; 4]) {
    let (mut plan, mut list) = ([STAYS; 4], [STAYS; 4]);
    let answer = plain::collection(lent, &mut plan, &mut list).expect("a collection");
    let Collected {
        first,
        count,
        erased,
    } = answer;
    (first, count, erased, plan, list)
}

/// What lookup gives for each logical page.
fn pages(lent: &Lent) -> [Option<u32>; 6] {
    [0, 1, 2, 3, 4, 5].map(|page| plain::lookup(lent, page).expect("an accepted lookup"))
}

/// Format 'frees all blocks', and nothing is written.
#[test]
fn a_format_leaves_nothing_written() {
    let mut lent = formatted();
    assert_eq!(pages(&lent), [None; 6]);
    let fresh = State {
        numbers: NUMBERS,
        counts: vec![0; 4],
        entries: vec![4_294_967_295; 6],
    };
    assert_eq!(lent, Lent::Held(fresh.clone()));
    // Also after calls.
    flush(&mut lent, &[0, 1, 2, 3]);
    assert_eq!(plain::format(&mut lent, NUMBERS), Ok(()));
    assert_eq!(lent, Lent::Held(fresh));
}

/// 'Repeated logical pages keep their last arrival. The rest are sorted', and put on
/// the lowest-numbered free block; 'later entries stay'.
#[test]
fn a_flush_enters_the_pages_it_writes() {
    let mut lent = formatted();
    let answer = flush(&mut lent, &[5, 0, 2, 5]);
    assert_eq!(answer, (0, 3, [1, 2, 3, STAYS]));
    assert_eq!(pages(&lent), [Some(0), None, Some(1), None, None, Some(2)]);
    assert_eq!(lent.held_mut().counts, [3, 0, 0, 0]);
}

/// The next flush opens the next block, though block 0 has a page left; the page that
/// logical page 2 had is nobody's now.
#[test]
fn a_flush_writes_a_page_again() {
    let mut lent = formatted();
    flush(&mut lent, &[5, 0, 2, 5]);
    let answer = flush(&mut lent, &[2, 1]);
    assert_eq!(answer, (4, 2, [1, 0, STAYS, STAYS]));
    let written = [Some(0), Some(4), Some(5), None, None, Some(2)];
    assert_eq!(pages(&lent), written);
    assert_eq!(lent.held_mut().counts, [3, 2, 0, 0]);
}

/// A discard changes the logical page's entry alone: the count of the block stays.
/// One that was never written, or discarded before, is discarded too.
#[test]
fn a_discarded_page_is_not_written() {
    let mut lent = formatted();
    flush(&mut lent, &[5, 0, 2, 5]);
    let mut expected = lent.clone();
    expected.held_mut().entries[5] = 4_294_967_295;
    discard(&mut lent, &[5]);
    assert_eq!(lent, expected);
    assert_eq!(plain::lookup(&lent, 5), Ok(None));
    discard(&mut lent, &[5, 3]);
    assert_eq!(lent, expected);
    // Until a flush writes it again.
    flush(&mut lent, &[5]);
    assert_eq!(plain::lookup(&lent, 5), Ok(Some(4)));
}

/// Blocks 0 and 2 have one valid page each and block 1 has two: four together, which is
/// B. They are taken in this order, and the pages put in that of the logical pages.
#[test]
fn a_collection_helps_a_refused_flush() {
    let mut lent = three_blocks();
    let before = [Some(0), Some(4), Some(5), Some(8), None, None];
    assert_eq!(pages(&lent), before);
    // Block 3 alone is free, so that a flush is refused; a collection takes it.
    let refused = plain::flush(&mut lent, &[4], &mut [STAYS; 4]);
    assert_eq!(refused, Err(Refusal::NoFreeBlock));
    let answer = collect(&mut lent);
    assert_eq!(answer, (12, 4, 3, [0, 4, 5, 8], [0, 2, 1, STAYS]));
    let moved = [Some(12), Some(13), Some(14), Some(15), None, None];
    assert_eq!(pages(&lent), moved);
    assert_eq!(lent.held_mut().counts, [0, 0, 0, 4]);
    let answer = flush(&mut lent, &[5, 4]);
    assert_eq!(answer, (0, 2, [1, 0, STAYS, STAYS]));
    let written = [Some(12), Some(13), Some(14), Some(15), Some(0), Some(1)];
    assert_eq!(pages(&lent), written);
}

/// A discarded page's block has one valid page fewer, and may come first by it: block 2
/// has none now, blocks 0 and 1 have one each.
#[test]
fn a_collection_leaves_a_discarded_page_behind() {
    let mut lent = three_blocks();
    discard(&mut lent, &[3, 1]);
    let answer = collect(&mut lent);
    assert_eq!(answer, (12, 2, 3, [0, 5, STAYS, STAYS], [2, 0, 1, STAYS]));
    assert_eq!(pages(&lent), [Some(12), None, Some(13), None, None, None]);
}

/// 'First page (0 if count is 0)': the plan stays, and no block is opened.
#[test]
fn a_collection_copies_nothing_where_all_is_discarded() {
    let mut lent = three_blocks();
    discard(&mut lent, &[0, 1, 2, 3]);
    let answer = collect(&mut lent);
    assert_eq!(answer, (0, 0, 3, [STAYS; 4], [0, 1, 2, STAYS]));
    assert_eq!(lent, formatted());
}

/// 8: 'no block is used, or one is taken with total above 0'. One alone with total 0 is
/// erased, and so are two of which the second has B valid pages.
#[test]
fn what_there_is_to_gain() {
    let refused = |lent: &mut Lent| {
        let (mut plan, mut erased) = ([STAYS; 4], [STAYS; 4]);
        let answer = plain::collection(lent, &mut plan, &mut erased);
        assert_eq!((plan, erased), ([STAYS; 4], [STAYS; 4]));
        answer == Err(Refusal::NothingToGain)
    };
    let mut lent = formatted();
    assert!(refused(&mut lent));
    flush(&mut lent, &[0, 1, 2, 3]);
    assert!(refused(&mut lent));
    // The two blocks have one valid page more than B.
    flush(&mut lent, &[4]);
    assert!(refused(&mut lent));
    discard(&mut lent, &[4]);
    let answer = collect(&mut lent);
    assert_eq!(answer, (8, 4, 2, [0, 1, 2, 3], [1, 0, STAYS, STAYS]));
    discard(&mut lent, &[0, 1, 2, 3]);
    let answer = collect(&mut lent);
    assert_eq!(answer, (0, 0, 1, [STAYS; 4], [2, STAYS, STAYS, STAYS]));
}

/// Document 01's case of a full device: M 3, B 4, N 4, g 0.
#[test]
fn a_full_device_is_collected() {
    let device = full_device(3, 4, 0);
    let mut lent = Lent::Held(State::formatted(&device));
    let [mut plan, mut erased] = lists(&device);
    let mut flush = |lent: &mut Lent| plain::flush(lent, &[0], &mut plan);
    let flushed = |first| Ok(Flushed { first, count: 1 });
    assert_eq!(flush(&mut lent), flushed(0));
    assert_eq!(flush(&mut lent), flushed(4));
    assert_eq!(flush(&mut lent), Err(Refusal::NoFreeBlock));
    let answer = Collected {
        first: 8,
        count: 1,
        erased: 2,
    };
    let collected = plain::collection(&mut lent, &mut plan, &mut erased);
    assert_eq!(collected, Ok(answer));
    assert_eq!((plan[0], &erased[..2]), (4, &[0, 1][..]));
    assert_eq!(plain::lookup(&lent, 0), Ok(Some(8)));
}

/// 'For lookup and discard their own': another entry, two that name one page and a
/// count above B are nothing to them.
#[test]
fn another_entry_may_be_wrong() {
    let mut lent = two_blocks();
    let state = lent.held_mut();
    state.counts = vec![3, 65_535, 0, 0];
    // Page 3 is beyond its block's count, block 3 is free, and page 16 doesn't exist;
    // page 7 is the last of block 1, whatever is above B in the count.
    state.entries = vec![3, 5, 5, 12, 16, 7];
    let all = [0, 1, 2, 3, 4, 5];
    let [wrong, five, seven] = [Err(Refusal::NotSound), Ok(Some(5)), Ok(Some(7))];
    let answers = [wrong, five, five, wrong, wrong, seven];
    assert_eq!(all.map(|page| plain::lookup(&lent, page)), answers);
    let discards = answers.map(|answer| answer.map(|_| ()));
    assert_eq!(all.map(|page| plain::discard(&mut lent, page)), discards);
    let kept = [3, NOT_WRITTEN, NOT_WRITTEN, 12, 16, NOT_WRITTEN];
    assert_eq!(lent.held_mut().entries, kept);
}

/// 16 bytes for M, B, N and g, 2 for each count, 4 for each entry; 0 outside limits.
#[test]
fn lengths() {
    assert_eq!(plain::state_bytes(NUMBERS), 48);
    assert_eq!(plain::state_bytes([3, 4, 4, 0]), 38);
    assert_eq!(plain::state_bytes([9, 64, 256, 15]), 1058);
    assert_eq!(plain::state_bytes([4096, 256, 524_160, 0]), 2_104_848);
    for outside in [[3, 4, 5, 0], [9, 64, 256, 16], [0; 4], [u32::MAX; 4]] {
        assert_eq!(plain::state_bytes(outside), 0);
    }
}
