//! Every refusal of the plain engine's calls, alone and with any others beside it.

use hedjosur_layout::{encode_plain_state, HEAD_BYTES};
use hedjosur_model::ops::Refusal::{self, *};
use hedjosur_model::plain::{State, NOT_WRITTEN};

use crate::answers::Answers;
use crate::calls::PlainCalls;
use crate::orders;
use crate::plain::beside::Beside;
use crate::steps::Writer;

/// What a call is lent, and its arguments.
#[derive(Clone, Debug)]
struct Lending {
    state: State,
    /// Whether the state ends before its numbers do.
    short: bool,
    numbers: [u32; 4],
    logical_page: u32,
    batch: Vec<u32>,
    plan: Vec<u32>,
    erased: Vec<u32>,
}

impl Lending {
    /// Every call is accepted with this: a device whose first two blocks are used.
    fn accepted() -> Lending {
        let numbers = [4, 4, 6, 0];
        let entries = vec![0, 4, 5, NOT_WRITTEN, NOT_WRITTEN, 2];
        let counts = vec![3, 2, 0, 0];
        Lending {
            state: State {
                numbers,
                counts,
                entries,
            },
            short: false,
            numbers,
            logical_page: 2,
            batch: vec![4],
            plan: vec![777_777; 4],
            erased: vec![888_888; 4],
        }
    }

    fn bytes(&self) -> Vec<u8> {
        let mut bytes = encode_plain_state(&self.state);
        if self.short {
            bytes.truncate(HEAD_BYTES - 1);
        }
        bytes
    }
}

type Change = orders::Change<Lending>;

const SHORT: Change = (Some(BadNumbers), |lent| lent.short = true);
const OUTSIDE_LIMITS: Change = (Some(BadNumbers), |lent| lent.state.numbers[3] = 16);
const ONE_COUNT_MORE: Change = (Some(BadLength), |lent| lent.state.counts.push(0));
const ONE_ENTRY_LESS: Change = (Some(BadLength), |lent| {
    let _ = lent.state.entries.pop();
});
const SHORT_PLAN: Change = (Some(BadLength), |lent| lent.plan.truncate(3));
const LONG_ERASED: Change = (Some(BadLength), |lent| lent.erased.push(888_888));

/// What is not sound, of which lookup and discard of logical page 2 see nothing: pages
/// 3 and 15, behind the counts of their blocks, and 16, outside the device; the entry
/// next to 'not written'; a page that another entry names, too; a count above B.
const NOT_SOUND_ELSEWHERE: [fn(&mut Lending); 6] = [
    |lent| lent.state.entries[0] = 3,
    |lent| lent.state.entries[3] = 15,
    |lent| lent.state.entries[4] = 16,
    |lent| lent.state.entries[5] = 4_294_967_294,
    |lent| lent.state.entries[1] = 5,
    |lent| lent.state.counts[1] = 5,
];

/// Every call with every choice of changes gives the refusal of the first one that
/// brings about any: format 1, 2; lookup and discard 1, 2, 4, 3; flush 1, 2, 3, 5, 4, 6;
/// collection 1, 2, 3, 8 or 6. The last two don't occur together.
pub fn check_orders(calls: &impl PlainCalls) {
    let mut answers = Answers::default();
    let unsound = |refusal| NOT_SOUND_ELSEWHERE.map(|change| (refusal, change));

    let format: [Change; 7] = [
        (Some(BadNumbers), |lent| lent.numbers[2] = 7),
        (Some(BadNumbers), |lent| lent.numbers[3] = 16),
        (Some(BadLength), |lent| lent.short = true),
        ONE_COUNT_MORE,
        ONE_ENTRY_LESS,
        (None, |lent| lent.state.numbers = [0; 4]),
        (None, |lent| lent.state.counts[0] = 65_535),
    ];
    check_order(calls, &mut answers, &format, |beside, lent| {
        beside.format(lent.numbers).err()
    });

    let own: [Change; 6] = [
        SHORT,
        OUTSIDE_LIMITS,
        ONE_COUNT_MORE,
        ONE_ENTRY_LESS,
        (Some(OutOfRange), |lent| lent.logical_page = 6),
        (Some(NotSound), |lent| lent.state.entries[2] = 6),
    ];
    // The entry of logical page 2 names a page behind the count, unless that is raised.
    let elsewhere = &unsound(None)[..5];
    for changes in [[&own[..], elsewhere].concat(), unsound(None).to_vec()] {
        check_order(calls, &mut answers, &changes, |beside, lent| {
            beside.lookup(lent.logical_page).err()
        });
        check_order(calls, &mut answers, &changes, |beside, lent| {
            beside.discard(lent.logical_page).err()
        });
    }

    let flush: [Change; 8] = [
        SHORT,
        OUTSIDE_LIMITS,
        ONE_ENTRY_LESS,
        SHORT_PLAN,
        (Some(BadBatch), |lent| lent.batch.clear()),
        (Some(BadBatch), |lent| lent.batch.extend([0; 4])),
        (Some(OutOfRange), |lent| lent.batch.push(6)),
        (Some(NoFreeBlock), |lent| lent.state.counts[3] = 1),
    ];
    let changes = [&flush[..4], &unsound(Some(NotSound)), &flush[4..]].concat();
    check_order(calls, &mut answers, &changes, |beside, lent| {
        beside.flush(&lent.batch, &mut lent.plan).err()
    });

    let lengths = [
        SHORT,
        OUTSIDE_LIMITS,
        ONE_COUNT_MORE,
        SHORT_PLAN,
        LONG_ERASED,
    ];
    let nothing_to_gain: Change = (Some(NothingToGain), |lent| {
        lent.state.counts[1] = 0;
        lent.state.entries = vec![0, NOT_WRITTEN, 1, NOT_WRITTEN, NOT_WRITTEN, 2];
    });
    let no_free_block: Change = (Some(NoFreeBlock), |lent| {
        lent.state.counts = vec![3, 2, 1, 1];
    });
    for last in [nothing_to_gain, no_free_block] {
        let changes = [&lengths[..], &unsound(Some(NotSound)), &[last]].concat();
        check_order(calls, &mut answers, &changes, |beside, lent| {
            beside.collect(&mut lent.plan, &mut lent.erased).err()
        });
    }

    assert_eq!(answers.met("format"), [0, 1, 2]);
    assert_eq!(answers.met("lookup"), [0, 1, 2, 3, 4]);
    assert_eq!(answers.met("discard"), [0, 1, 2, 3, 4]);
    assert_eq!(answers.met("flush"), [0, 1, 2, 3, 4, 5, 6]);
    assert_eq!(answers.met("collect"), [0, 1, 2, 3, 6, 8]);
    answers.tell("plain: refusals in their order", 28_000);
}

/// One call with every choice of changes.
fn check_order<C: PlainCalls>(
    calls: &C,
    answers: &mut Answers,
    changes: &[Change],
    call: impl Fn(&mut Beside<C>, &mut Lending) -> Option<Refusal>,
) {
    orders::check_order(&Lending::accepted(), changes, |lent, log| {
        let beside = &mut Beside::new(calls, log, answers);
        beside.lend(lent.bytes());
        call(beside, lent)
    });
}
