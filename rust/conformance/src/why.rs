//! Telling why: of arbitrary groups, beside lookups, and refused.

use std::collections::BTreeSet;

use hedjosur::WHY_LEN;
use hedjosur_layout::{encode_state, HEAD_BYTES};
use hedjosur_model::cases::whys;
use hedjosur_model::device::{group_of, Device};
use hedjosur_model::levels::{Group, GROUP_RECORDS};
use hedjosur_model::ops::Refusal::{self, *};
use hedjosur_model::ops::{Lookup, ENTRY_BYTES};
use hedjosur_model::record::{Kind, Record};
use hedjosur_model::script::{Answer, Line};
use hedjosur_model::state::State;
use hedjosur_model::testing::{
    any_logical_page, any_record, full_device, last_offset, lists, multiplier, rounds, sound_state,
    CallLog, Random, Told,
};

use crate::answers::Answers;
use crate::arguments::{lengths_around, perhaps_damaged, uneven_device};
use crate::beside::Beside;
use crate::calls::Calls;
use crate::orders::{check_order, Change};
use crate::steps::{flush_by_any_means, Writer};

/// The first entries of a buffer, so many.
pub(crate) fn read_entries(out: &[u8], count: usize) -> Vec<Told> {
    let (entries, _) = out.as_chunks::<ENTRY_BYTES>();
    entries[..count].iter().copied().map(Told::read).collect()
}

/// The answers of a lookup and of a telling of why, about one logical page.
#[derive(Clone, Debug)]
pub struct Explained {
    /// The lookup's.
    pub lookup: Result<Lookup, Refusal>,
    /// The entries told.
    pub told: Result<Vec<Told>, Refusal>,
}

impl Explained {
    /// 'There are as many entries as lookup looks at levels, and the last says member
    /// exactly where lookup doesn't say 'not written'. It uses lookup's refusals except
    /// 7': then the last says member, too. No other entry does.
    pub fn assert_fits(&self) {
        if let Ok([above @ .., _]) = self.told.as_deref() {
            assert!(above.iter().all(|entry| entry.reason != 3), "{self:?}");
        }
        match (&self.lookup, &self.told) {
            (Ok(lookup), Ok(told)) => {
                let (Lookup::Found { levels, .. } | Lookup::NotWritten { levels }) = *lookup;
                assert_eq!(told.len(), levels, "{self:?}");
                assert_eq!(self.is_member(), lookup.page().is_some(), "{self:?}");
            }
            (Err(NotNamed), Ok(_)) => assert!(self.is_member(), "{self:?}"),
            // The spare area has another length, and only a lookup is lent it.
            (Err(BadLength), _) => {}
            (lookup, told) => assert_eq!(lookup.as_ref().err(), told.as_ref().err()),
        }
    }

    /// Whether the last entry says member.
    fn is_member(&self) -> bool {
        let last = self.told.iter().flatten().last();
        last.is_some_and(|last| last.reason == 3)
    }
}

/// The model's cases of telling why, each with what it lists.
pub fn check_cases(calls: &impl Calls) {
    let mut answers = Answers::default();
    for case in whys() {
        let log = &mut CallLog::new(0);
        let beside = &mut Beside::new(calls, log, &mut answers);
        let device = formatted(beside, case.numbers);
        for batch in &case.flushes {
            let [mut plan, _] = lists(&device);
            assert!(beside.flush(batch, &mut plan).is_ok());
        }
        if case.compacted {
            assert!(beside.compact(0).is_ok());
        }
        for (logical_page, entries) in case.told {
            let told = entries.into_iter().map(Told::read);
            let explained = beside.explain(logical_page);
            assert_eq!(explained.told, Ok(told.collect()), "{}", case.name);
        }
    }
    answers.tell("cases of telling why", 85);
}

/// Formats a device in new buffers.
fn formatted<C: Calls>(beside: &mut Beside<C>, numbers: [u32; 4]) -> Device {
    assert_eq!(beside.call(&Line::Format(numbers)), Answer::Formatted);
    Device::new(numbers).expect("numbers inside their limits")
}

/// A group that gets a level with each flush, from a format, until it is full: what is
/// told of a page between those written fills the buffer to its end.
pub fn check_full_buffer(calls: &impl Calls) {
    let mut answers = Answers::default();
    let log = &mut CallLog::new(0);
    let beside = &mut Beside::new(calls, log, &mut answers);
    let device = formatted(beside, [8, 4, 14, 0]);
    let mut most = 0;
    for flushes in 0..1000 {
        let first = flushes % 2;
        flush_by_any_means(beside, &device, &[first, 13 - first], |_| {});
        for logical_page in [0, 5, 12] {
            let told = beside.explain(logical_page).told.expect("accepted");
            most = most.max(told.len());
        }
    }
    assert_eq!(most, GROUP_RECORDS);
    answers.tell("telling why of all levels", 7000);
}

/// What occurred.
#[derive(Debug, Default)]
struct Met {
    /// How often each reason was told.
    reasons: [usize; 4],
    /// How often 'not owned by it' came without an owner, and with one.
    owners: [usize; 2],
    /// How often an owner started at 0.
    owners_at_0: usize,
    /// How often a lookup ended above the owner that was told.
    hidden_owners: usize,
    /// How often a discarded page of a group with records was told of.
    discarded: usize,
    /// How often a lookup was refused 7.
    not_named: usize,
    /// How many levels were told of at most.
    most: usize,
}

impl Met {
    /// Counts what came of a logical page of a state.
    fn count(&mut self, state: &State, logical_page: u32, explained: &Explained) {
        let Ok(told) = &explained.told else {
            return;
        };
        let last = told.last();
        for entry in told {
            self.reasons[usize::from(entry.reason)] += 1;
            if entry.reason == 2 {
                self.owners[usize::from(entry.owner.is_some())] += 1;
                self.owners_at_0 += usize::from(entry.owner == Some(0));
                let ends_above = last.is_some_and(|last| last.word % 2 == 0);
                self.hidden_owners += usize::from(entry.owner.is_some() && ends_above);
            }
        }
        let group = &state.groups[group_of(logical_page)];
        let is_discarded = state.marks[logical_page as usize] && !group.levels.is_empty();
        self.discarded += usize::from(is_discarded);
        self.not_named += usize::from(explained.lookup == Err(NotNamed));
        self.most = self.most.max(told.len());
    }

    /// All that should occur did.
    fn assert_all(&self) {
        let times = [
            &self.reasons[..],
            &self.owners,
            &[self.owners_at_0, self.hidden_owners],
            &[self.discarded, self.not_named],
        ];
        assert!(times.concat().iter().all(|&times| times > 0), "{self:?}");
        assert!(self.most > 400, "{self:?}");
    }
}

/// Logical pages of arbitrary states, mostly sound, half of them with crowded groups,
/// looked up and told of; and buffers of all lengths: at least 65 calls a round.
pub fn check_arbitrary_groups(calls: &impl Calls, base: u64) {
    let mut counts = (Answers::default(), Met::default());
    rounds(base, &mut counts, |random, log, (answers, met)| {
        let device = uneven_device(random);
        let mut state = sound_state(random, &device);
        if random.once_in(2) {
            for (number, group) in state.groups.iter_mut().enumerate() {
                *group = crowded_group(random, last_offset(&device, number));
            }
        }
        let (bytes, area) = perhaps_damaged(random, &device, state.clone());
        let beside = &mut Beside::new(calls, log, answers);
        beside.lend(bytes, area);
        for _ in 0..30 {
            let logical_page = random.below(device.logical_pages);
            let explained = beside.explain(logical_page);
            met.count(&state, logical_page, &explained);
        }
        for _ in 0..5 {
            let logical_page = any_logical_page(random, device.logical_pages.into());
            let _ = beside.why(logical_page, random.pick(&lengths_around(WHY_LEN)));
        }
    });
    let (answers, met) = counts;
    met.assert_all();
    assert_eq!(answers.met("why"), [0, 1, 2, 3, 4]);
    answers.tell("telling why", 65 * (base * multiplier()) as usize);
}

/// A sound group of many records that reach more or less far: one a level, or levels
/// full of them.
fn crowded_group(random: &mut Random, last: u8) -> Group {
    let size = random.between(1, GROUP_RECORDS as u32) as usize;
    let is_deep = random.once_in(2);
    let reach = random.pick(&[0, 3, 20, 255]);
    let mut group = Group::default();
    let mut unowned: BTreeSet<u8> = (0..=last).collect();
    while group.size() < size {
        let mut level: Vec<Record> = Vec::new();
        let mut next = random.below(u32::from(last) + 1);
        while next <= last.into() && group.size() + level.len() < size {
            let start = next as u8;
            let farthest = start.saturating_add(reach).min(last);
            let record = any_record(random, start, farthest, &unowned);
            unowned = &unowned - &record.owns;
            next = record.last() + random.between(1, 3);
            level.push(record);
            if is_deep {
                break;
            }
        }
        group.levels.push(level);
    }
    group
}

/// What a telling of why is lent, and its logical page.
#[derive(Clone, Debug)]
struct Lending {
    state: State,
    /// Whether the state ends before its numbers do.
    short: bool,
    logical_page: u32,
    /// The length of the buffer.
    length: usize,
}

impl Lending {
    /// It is accepted with this: a page of the second of two groups.
    fn accepted() -> Lending {
        let device = full_device(5, 150, 0);
        let mut state = State::formatted(&device);
        for group in &mut state.groups {
            let record = Record::exact(20, 8, Kind::Accurate { stride: 4 }, 7);
            group.levels = vec![vec![record]; 3];
        }
        Lending {
            state,
            short: false,
            logical_page: 299,
            length: WHY_LEN,
        }
    }

    fn bytes(&self) -> Vec<u8> {
        let mut bytes = encode_state(&self.state, || 0xA5).expect("a state with bytes");
        if self.short {
            bytes.truncate(HEAD_BYTES - 1);
        }
        bytes
    }

    /// Gives the group of a logical page a single with a span.
    fn spoil(&mut self, logical_page: u32) {
        let single = Record::exact(0, 1, Kind::Single, 0);
        self.state.groups[group_of(logical_page)].levels[1][0] = single;
    }
}

/// With every choice of changes it gives the refusal of the first one that brings about
/// any: 1, 2, 4, 3. What is not sound elsewhere, and a mark, bring about none.
pub fn check_orders(calls: &impl Calls) {
    let mut answers = Answers::default();
    let changes: [Change<Lending>; 12] = [
        (Some(BadNumbers), |lent| lent.short = true),
        (Some(BadNumbers), |lent| lent.state.numbers[3] = 16),
        (Some(BadLength), |lent| lent.state.counts.push(0)),
        (Some(BadLength), |lent| lent.state.marks.truncate(296)),
        (Some(BadLength), |lent| drop(lent.state.groups.pop())),
        (Some(BadLength), |lent| lent.length = WHY_LEN - 1),
        (Some(BadLength), |lent| lent.length = WHY_LEN + ENTRY_BYTES),
        (Some(OutOfRange), |lent| lent.logical_page = 300),
        (Some(NotSound), |lent| lent.spoil(299)),
        (None, |lent| lent.spoil(0)),
        (None, |lent| lent.state.counts[0] = 65_535),
        (None, |lent| lent.state.marks[299] = true),
    ];
    check_order(&Lending::accepted(), &changes, |lent, log| {
        let beside = &mut Beside::new(calls, log, &mut answers);
        beside.lend(lent.bytes(), Vec::new());
        beside.why(lent.logical_page, lent.length).err()
    });
    assert_eq!(answers.met("why"), [0, 1, 2, 3, 4]);
    answers.tell("telling why: refusals in their order", 4096);
}
