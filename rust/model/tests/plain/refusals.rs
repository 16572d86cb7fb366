//! The refusals, each alone and with any others beside it.

use hedjosur_model::ops::Refusal;
use hedjosur_model::plain::{self, Lent, State, NOT_WRITTEN};

use crate::{two_blocks, NUMBERS, STAYS};

/// What a call is lent, and its arguments.
#[derive(Clone, Debug, PartialEq)]
struct Lending {
    lent: Lent,
    numbers: [u32; 4],
    logical_page: u32,
    batch: Vec<u32>,
    plan: Vec<u32>,
    erased: Vec<u32>,
}

impl Lending {
    /// Every call is accepted with this.
    fn accepted() -> Lending {
        Lending {
            lent: two_blocks(),
            numbers: NUMBERS,
            logical_page: 2,
            batch: vec![4],
            plan: vec![STAYS; 4],
            erased: vec![STAYS; 4],
        }
    }

    fn state(&mut self) -> &mut State {
        self.lent.held_mut()
    }

    fn format(&mut self) -> Option<Refusal> {
        plain::format(&mut self.lent, self.numbers).err()
    }

    fn lookup(&mut self) -> Option<Refusal> {
        plain::lookup(&self.lent, self.logical_page).err()
    }

    fn discard(&mut self) -> Option<Refusal> {
        plain::discard(&mut self.lent, self.logical_page).err()
    }

    fn flush(&mut self) -> Option<Refusal> {
        plain::flush(&mut self.lent, &self.batch, &mut self.plan).err()
    }

    fn collection(&mut self) -> Option<Refusal> {
        plain::collection(&mut self.lent, &mut self.plan, &mut self.erased).err()
    }
}

/// A refusal and what brings it about.
type Cause = (Refusal, fn(&mut Lending));

/// A call refuses for the first of the causes given, alone and with any of the others
/// beside it, and changes nothing then.
fn assert_order(causes: &[Cause], call: fn(&mut Lending) -> Option<Refusal>) {
    for subset in 0..1 << causes.len() {
        let chosen = (0..causes.len()).filter(|number| subset >> number & 1 == 1);
        let chosen: Vec<Cause> = chosen.map(|number| causes[number]).collect();
        let mut lending = Lending::accepted();
        // The last comes first, so that the state is cut short after all else.
        for (_, spoil) in chosen.iter().rev() {
            spoil(&mut lending);
        }
        let before = lending.clone();
        let refusal = chosen.first().map(|(refusal, _)| *refusal);
        assert_eq!(call(&mut lending), refusal, "{before:?}");
        assert!(refusal.is_none() || lending == before);
    }
}

const TOO_SHORT: Cause = (Refusal::BadNumbers, |lending| lending.lent = Lent::Short);
const OUTSIDE_LIMITS: Cause = (Refusal::BadNumbers, |lending| {
    lending.state().numbers[3] = 16
});
const ONE_COUNT_MORE: Cause = (Refusal::BadLength, |lending| lending.state().counts.push(0));
const ONE_ENTRY_LESS: Cause = (Refusal::BadLength, |lending| {
    lending.state().entries.truncate(5)
});
const SHORT_PLAN: Cause = (Refusal::BadLength, |lending| lending.plan.truncate(3));
const LONG_ERASED: Cause = (Refusal::BadLength, |lending| lending.erased.push(0));

/// The causes of refusal 3, each alone enough for flush and collection. Page 3 is
/// beyond the count of block 0, which is 3, and page 15 is the last of block 3, which is
/// free or has a count of 1.
const NOT_SOUND: [Cause; 6] = [
    (Refusal::NotSound, |lending| lending.state().entries[0] = 3),
    (Refusal::NotSound, |lending| lending.state().entries[1] = 15),
    (Refusal::NotSound, |lending| lending.state().entries[3] = 16),
    (Refusal::NotSound, |lending| {
        lending.state().entries[4] = 4_294_967_294;
    }),
    (Refusal::NotSound, |lending| {
        let entries = &mut lending.state().entries;
        (entries[2], entries[5]) = (5, 5);
    }),
    (Refusal::NotSound, |lending| lending.state().counts[1] = 5),
];

#[test]
fn format_refuses_1_2() {
    let causes: [Cause; 5] = [
        (Refusal::BadNumbers, |lending| lending.numbers[2] = 7),
        (Refusal::BadNumbers, |lending| lending.numbers[3] = 16),
        (Refusal::BadLength, |lending| lending.lent = Lent::Short),
        ONE_COUNT_MORE,
        ONE_ENTRY_LESS,
    ];
    assert_order(&causes, Lending::format);
}

#[test]
fn lookup_and_discard_refuse_1_2_4_3() {
    let causes: [Cause; 6] = [
        TOO_SHORT,
        OUTSIDE_LIMITS,
        ONE_COUNT_MORE,
        ONE_ENTRY_LESS,
        (Refusal::OutOfRange, |lending| lending.logical_page = 6),
        (Refusal::NotSound, |lending| lending.state().entries[2] = 3),
    ];
    assert_order(&causes, Lending::lookup);
    assert_order(&causes, Lending::discard);
}

#[test]
fn flush_refuses_1_2_3_5_4_6() {
    let batch: [Cause; 4] = [
        (Refusal::BadBatch, |lending| lending.batch.clear()),
        (Refusal::BadBatch, |lending| lending.batch.extend([0; 4])),
        (Refusal::OutOfRange, |lending| lending.batch.push(6)),
        (Refusal::NoFreeBlock, |lending| {
            lending.state().counts[2] = 1
        }),
    ];
    let lent = [TOO_SHORT, OUTSIDE_LIMITS, ONE_COUNT_MORE, SHORT_PLAN];
    assert_order(&[&lent[..], &NOT_SOUND, &batch].concat(), Lending::flush);
}

/// 8 and 6 have no state in common: where all blocks are used, two together have at
/// most B valid pages, as 2 × N is at most (M − 1) × B.
#[test]
fn collection_refuses_1_2_3_8_6() {
    let lent = [
        TOO_SHORT,
        OUTSIDE_LIMITS,
        ONE_ENTRY_LESS,
        SHORT_PLAN,
        LONG_ERASED,
    ];
    let nothing_to_gain: Cause = (Refusal::NothingToGain, |lending| {
        let state = lending.state();
        state.counts = vec![3, 0, 0, 0];
        state.entries = vec![0, 1, 2, NOT_WRITTEN, NOT_WRITTEN, NOT_WRITTEN];
    });
    let no_free_block: Cause = (Refusal::NoFreeBlock, |lending| {
        lending.state().counts = vec![3, 2, 1, 1];
    });
    for last in [nothing_to_gain, no_free_block] {
        let causes = [&lent[..], &NOT_SOUND, &[last]].concat();
        assert_order(&causes, Lending::collection);
    }
}
