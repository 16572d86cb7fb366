//! The plain engine through the wrapper: its bytes, every refusal in its order, buffers
//! of all kinds, and the learned engine beside it.

use hedjosur::{Collected, Device, Flushed, Numbers, Plain, Refusal};

/// The smallest device.
const SMALLEST: Numbers = Numbers {
    blocks: 3,
    block_pages: 4,
    logical_pages: 4,
    error_bound: 0,
};

/// Where the counts and the entries of the smallest device's state begin.
const COUNTS: usize = 16;
const ENTRIES: usize = 22;

/// A newly formatted device in a buffer of its own.
fn formatted(numbers: Numbers) -> Plain<Vec<u8>> {
    let mut device = Plain {
        state: vec![0xA5; numbers.plain_state_len().expect("a device")],
    };
    device.format(numbers).expect("an accepted format");
    device
}

/// A state of the smallest device with these counts and entries.
fn state(counts: [u16; 3], entries: [u32; 4]) -> Plain<Vec<u8>> {
    let mut state = Vec::from_iter([3u32, 4, 4, 0].iter().flat_map(|n| n.to_le_bytes()));
    state.extend(counts.iter().flat_map(|count| count.to_le_bytes()));
    state.extend(entries.iter().flat_map(|entry| entry.to_le_bytes()));
    Plain { state }
}

const NONE: u32 = 0xFFFF_FFFF;

/// A discard, a flush, a collection, each with the bytes that docs/LAYOUT.md has for it.
#[test]
fn the_bytes_of_the_state() {
    let mut device = formatted(SMALLEST);
    let (mut plan, mut erased) = ([9; 4], [9; 3]);
    assert_eq!(device, state([0; 3], [NONE; 4]));
    let flushed = |first_page, count| Ok(Flushed { first_page, count });
    assert_eq!(device.flush(&[2, 0, 2], &mut plan), flushed(0, 2));
    assert_eq!(plan, [1, 2, 9, 9]);
    assert_eq!(device, state([2, 0, 0], [0, NONE, 1, NONE]));
    assert_eq!(device.flush(&[3, 2, 1], &mut plan), flushed(4, 3));
    assert_eq!(device, state([2, 3, 0], [0, 4, 5, 6]));
    assert_eq!(device.discard(1), Ok(()));
    assert_eq!(device, state([2, 3, 0], [0, NONE, 5, 6]));

    plan.fill(9);
    let refused = device.flush(&[1], &mut plan);
    assert_eq!((refused, plan), (Err(Refusal::NoFreeBlock), [9; 4]));
    let moved = Collected {
        first_page: 8,
        count: 3,
        erased: 2,
    };
    assert_eq!(device.collect(&mut plan, &mut erased), Ok(moved));
    assert_eq!((plan, erased), ([0, 5, 6, 9], [0, 1, 9]));
    assert_eq!(device, state([0, 0, 3], [8, NONE, 9, 10]));
    let looked_up = [0, 1, 2, 3].map(|page| device.lookup(page));
    assert_eq!(
        looked_up,
        [Ok(Some(8)), Ok(None), Ok(Some(9)), Ok(Some(10))]
    );
}

/// What each call refuses, and before what: in each line the reasons that come later
/// are there, too, where they can be.
#[test]
fn refusals_in_their_order() {
    let too_many = Numbers {
        logical_pages: 5,
        ..SMALLEST
    };
    let short = Plain { state: [0; 15] };
    let mut long = Plain { state: [0; 39] };
    long.state[..16].copy_from_slice(&state([0; 3], [NONE; 4]).state[..16]);
    let damaged = state([0; 3], [0, NONE, NONE, NONE]);
    let full = state([1, 1, 0], [4, NONE, NONE, NONE]);

    assert_eq!(long.clone().format(too_many), Err(Refusal::BadNumbers));
    assert_eq!(long.clone().format(SMALLEST), Err(Refusal::BadLength));

    assert_eq!(short.lookup(4), Err(Refusal::BadNumbers));
    assert_eq!(short.clone().discard(4), Err(Refusal::BadNumbers));
    assert_eq!(long.lookup(4), Err(Refusal::BadLength));
    assert_eq!(long.clone().discard(4), Err(Refusal::BadLength));
    for (page, answer) in [
        (4, Err(Refusal::OutOfRange)),
        (0, Err(Refusal::NotSound)),
        (1, Ok(None)),
    ] {
        let mut discarded = damaged.clone();
        assert_eq!(damaged.lookup(page), answer);
        assert_eq!(discarded.discard(page), answer.map(drop));
        assert_eq!(discarded, damaged);
    }

    let flushed = |device: &Plain<Vec<u8>>, batch: &[u32], plan_len: usize| {
        let (mut after, mut plan) = (device.clone(), vec![9; plan_len]);
        let refusal = after.flush(batch, &mut plan).expect_err("refused");
        assert_eq!((&after, plan), (device, vec![9; plan_len]));
        refusal
    };
    assert_eq!(short.clone().flush(&[], &mut []), Err(Refusal::BadNumbers));
    assert_eq!(
        long.clone().flush(&[], &mut [9; 4]),
        Err(Refusal::BadLength)
    );
    assert_eq!(flushed(&damaged, &[], 3), Refusal::BadLength);
    assert_eq!(flushed(&damaged, &[], 4), Refusal::NotSound);
    assert_eq!(flushed(&full, &[], 4), Refusal::BadBatch);
    assert_eq!(flushed(&full, &[4; 5], 4), Refusal::BadBatch);
    assert_eq!(flushed(&full, &[0, 4], 4), Refusal::OutOfRange);
    assert_eq!(flushed(&full, &[0, 3], 4), Refusal::NoFreeBlock);

    let collected = |device: &Plain<Vec<u8>>, plan_len: usize, erased_len: usize| {
        let (mut after, mut plan, mut erased) =
            (device.clone(), vec![9; plan_len], vec![9; erased_len]);
        let refusal = after.collect(&mut plan, &mut erased).expect_err("refused");
        assert_eq!(&after, device);
        assert_eq!((plan, erased), (vec![9; plan_len], vec![9; erased_len]));
        refusal
    };
    let new = formatted(SMALLEST);
    let one_block = state([4, 0, 0], [0, 1, 2, 3]);
    let no_block_free = state([1, 1, 1], [0, 4, 8, NONE]);
    let refused = short.clone().collect(&mut [], &mut []);
    assert_eq!(refused, Err(Refusal::BadNumbers));
    let refused = long.clone().collect(&mut [9; 4], &mut [9; 3]);
    assert_eq!(refused, Err(Refusal::BadLength));
    assert_eq!(collected(&damaged, 3, 3), Refusal::BadLength);
    assert_eq!(collected(&damaged, 4, 4), Refusal::BadLength);
    assert_eq!(collected(&damaged, 4, 3), Refusal::NotSound);
    assert_eq!(collected(&new, 4, 3), Refusal::NothingToGain);
    assert_eq!(collected(&one_block, 4, 3), Refusal::NothingToGain);
    assert_eq!(collected(&no_block_free, 4, 3), Refusal::NoFreeBlock);
}

/// A lookup and a discard judge their own entry alone; a flush and a collection judge
/// all, and the counts.
#[test]
fn what_is_not_sound() {
    let own = |entry| state([2, 4, 0], [5, entry, NONE, NONE]);
    let shared = state([2, 4, 0], [1, 5, 5, NONE]);
    let above = state([2, 5, 0], [1, 5, NONE, NONE]);
    for (mut device, lookup_is_sound, flush_is_sound) in [
        (own(4), true, true),
        (own(1), true, true),
        (own(NONE), true, true),
        (own(2), false, false),
        (own(8), false, false),
        (own(12), false, false),
        (own(NONE - 1), false, false),
        (shared, true, false),
        (above, true, false),
    ] {
        let before = device.clone();
        assert_eq!(device.lookup(0).err(), None);
        assert_eq!(device.lookup(1).is_ok(), lookup_is_sound, "{before:?}");
        let (mut plan, mut erased) = ([9; 4], [9; 3]);
        let flushed = device.flush(&[0], &mut plan).expect_err("refused");
        let collected = device.clone().collect(&mut plan, &mut erased);
        match flush_is_sound {
            true => assert_eq!((flushed, collected.err()), (Refusal::NoFreeBlock, None)),
            false => {
                assert_eq!(flushed, Refusal::NotSound, "{before:?}");
                assert_eq!(collected, Err(Refusal::NotSound), "{before:?}");
            }
        }
        assert_eq!(device, before);
        assert_eq!(device.discard(1).is_ok(), lookup_is_sound);
        let mut discarded = before;
        if lookup_is_sound {
            discarded.state[ENTRIES + 4..][..4].fill(0xFF);
        }
        assert_eq!(device, discarded);
    }
}

/// From a format, some thousand calls on both engines, refused ones among them: the same
/// pages, plans, erased lists and refusals.
#[test]
fn the_learned_engine_gives_the_same() {
    for (blocks, block_pages, logical_pages, error_bound) in [
        (3, 4, 4, 0),
        (9, 64, 256, 1),
        (16, 16, 120, 4),
        (5, 256, 512, 15),
    ] {
        let numbers = Numbers {
            blocks,
            block_pages,
            logical_pages,
            error_bound,
        };
        let mut plain = formatted(numbers);
        let mut learned = Device {
            state: vec![0; numbers.state_len().expect("a device")],
            spare: vec![0; numbers.spare_len().expect("a device")],
        };
        learned.format(numbers).expect("an accepted format");
        let mut chance = 1u32;
        let mut below = |bound: u32| {
            chance = chance.wrapping_mul(1_664_525).wrapping_add(1_013_904_223);
            (chance >> 16) % bound
        };
        let (mut collections, mut refusals) = (0, 0);
        for _ in 0..2000 {
            // Sometimes a page too many, sometimes a page that doesn't exist.
            let length = below(block_pages + 2);
            let batch = Vec::from_iter((0..length).map(|_| below(logical_pages)));
            let page = below(logical_pages + 1);
            let mut plans = [(); 2].map(|()| vec![7; block_pages as usize]);
            let mut lists = [(); 2].map(|()| vec![7; blocks as usize]);
            let flushed = plain.flush(&batch, &mut plans[0]);
            assert_eq!(flushed, learned.flush(&batch, &mut plans[1]));
            if flushed == Err(Refusal::NoFreeBlock) || below(8) == 0 {
                let collected = plain.collect(&mut plans[0], &mut lists[0]);
                assert_eq!(collected, learned.collect(&mut plans[1], &mut lists[1]));
                collections += u32::from(collected.is_ok());
            }
            if below(4) == 0 {
                assert_eq!(plain.discard(page), learned.discard(page));
            }
            assert_eq!((&plans[0], &lists[0]), (&plans[1], &lists[1]));
            let looked_up = learned.lookup(page).map(|found| found.page());
            assert_eq!(plain.lookup(page), looked_up);
            refusals += u32::from(flushed.is_err()) + u32::from(looked_up.is_err());
        }
        assert!(
            collections > 50 && refusals > 50,
            "{collections}, {refusals}"
        );
        for page in 0..logical_pages {
            let looked_up = learned.lookup(page).map(|found| found.page());
            assert_eq!(plain.lookup(page), looked_up);
        }
        // Head and counts are the same bytes in both states, but the lengths differ.
        let end = COUNTS + 2 * blocks as usize;
        assert_eq!(plain.state[..end], learned.state[..end]);
        std::mem::swap(&mut plain.state, &mut learned.state);
        assert_eq!(plain.lookup(0), Err(Refusal::BadLength));
        assert_eq!(learned.lookup(0), Err(Refusal::BadLength));
    }
}

/// The same calls on an owned array, a borrowed slice and a buffer that is only read.
#[test]
fn buffers_of_all_kinds() {
    let mut array = Plain { state: [1; 38] };
    let mut vector = vec![2; 38];
    let mut borrowed = Plain {
        state: &mut vector[..],
    };
    assert_eq!(array.format(SMALLEST), Ok(()));
    assert_eq!(borrowed.format(SMALLEST), Ok(()));
    for batch in [[0, 1, 2], [1, 2, 3]] {
        let (mut plan, mut other) = ([0; 4], [0; 4]);
        let flushed = array.flush(&batch, &mut plan);
        assert_eq!(flushed, borrowed.flush(&batch, &mut other));
        assert_eq!((flushed.is_ok(), plan), (true, other));
    }
    assert_eq!(array.discard(2), borrowed.discard(2));
    let read_only = Plain { state: &vector[..] };
    let looked_up = [0, 1, 2, 3].map(|page| read_only.lookup(page));
    assert_eq!(looked_up, [Ok(Some(0)), Ok(Some(4)), Ok(None), Ok(Some(6))]);
    assert_eq!(array.state, *vector);
}
