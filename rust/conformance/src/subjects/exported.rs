//! The proved calls of both engines.

use hedjosur::{Device, Numbers, Plain, Reason};
use hedjosur_model::device::offset_of;
use hedjosur_model::ops::{Collected, Flushed, Lookup, Refusal};
use hedjosur_model::script::Listed;
use hedjosur_model::testing::Told;

use crate::calls::{Calls, PlainCalls};

/// The proved calls of both engines, through the crate `hedjosur`.
#[derive(Clone, Copy, Debug)]
pub struct Exported;

impl Calls for Exported {
    fn lengths(&self, numbers: [u32; 4]) -> Option<[usize; 2]> {
        named(numbers).archive_lens()
    }

    fn format(
        &self,
        state: &mut [u8],
        spare: &mut [u32],
        numbers: [u32; 4],
    ) -> Result<(), Refusal> {
        let mut device = Device { state, spare };
        device.format(named(numbers)).map_err(refusal)
    }

    fn flush(
        &self,
        state: &mut [u8],
        spare: &mut [u32],
        batch: &[u32],
        plan: &mut [u32],
    ) -> Result<Flushed, Refusal> {
        let mut device = Device { state, spare };
        device.flush(batch, plan).map(flushed).map_err(refusal)
    }

    fn lookup(&self, state: &[u8], spare: &[u32], logical_page: u32) -> Result<Lookup, Refusal> {
        let device = Device { state, spare };
        let lookup = device.lookup(logical_page).map_err(refusal)?;
        let levels = lookup.levels() as usize;
        let in_model = match lookup {
            hedjosur::Lookup::Found {
                page, predicted, ..
            } => Lookup::Found {
                page,
                predicted,
                levels,
            },
            hedjosur::Lookup::NotWritten { .. } => Lookup::NotWritten { levels },
        };
        assert_eq!(lookup.page(), in_model.page());
        assert_eq!(lookup.reads(), in_model.reads());
        Ok(in_model)
    }

    fn discard(&self, state: &mut [u8], spare: &[u32], logical_page: u32) -> Result<(), Refusal> {
        let mut device = Device { state, spare };
        device.discard(logical_page).map_err(refusal)
    }

    fn collect(
        &self,
        state: &mut [u8],
        spare: &mut [u32],
        plan: &mut [u32],
        erased: &mut [u32],
    ) -> Result<Collected, Refusal> {
        let mut device = Device { state, spare };
        let answer = device.collect(plan, erased);
        answer.map(collected).map_err(refusal)
    }

    fn compact(&self, state: &mut [u8], group: u32) -> Result<usize, Refusal> {
        let mut device = Device { state, spare: () };
        let left = device.compact(group).map_err(refusal)?;
        Ok(left as usize)
    }

    fn agree(&self, one: (&[u8], &[u32]), other: (&[u8], &[u32])) -> Result<bool, Refusal> {
        let [one, other] = [one, other].map(|(state, spare)| Device { state, spare });
        one.agree(&other).map_err(refusal)
    }

    fn list(&self, state: &[u8], group: u32, out: &mut [u8]) -> Result<Vec<Listed>, Refusal> {
        let device = Device { state, spare: () };
        let listing = device.list(group, out).map_err(refusal)?;
        let records = listing.map(|r| (r.level.into(), r.start, r.span, r.word, r.intercept));
        Ok(records.collect())
    }

    fn why(&self, state: &[u8], logical_page: u32, out: &mut [u8]) -> Result<Vec<Told>, Refusal> {
        let device = Device { state, spare: () };
        let reasons = device.why(logical_page, out).map_err(refusal)?;
        let numbered = (0..).zip(reasons).map(|(level, reason)| {
            let place = (reason.level(), reason.offset());
            assert_eq!(place, (level, offset_of(logical_page)));
            told(reason)
        });
        Ok(numbered.collect())
    }
}

impl PlainCalls for Exported {
    fn length(&self, numbers: [u32; 4]) -> Option<usize> {
        named(numbers).archive_plain_len()
    }

    fn format(&self, state: &mut [u8], numbers: [u32; 4]) -> Result<(), Refusal> {
        Plain { state }.format(named(numbers)).map_err(refusal)
    }

    fn flush(&self, state: &mut [u8], batch: &[u32], plan: &mut [u32]) -> Result<Flushed, Refusal> {
        let answer = Plain { state }.flush(batch, plan);
        answer.map(flushed).map_err(refusal)
    }

    fn lookup(&self, state: &[u8], logical_page: u32) -> Result<Option<u32>, Refusal> {
        Plain { state }.lookup(logical_page).map_err(refusal)
    }

    fn discard(&self, state: &mut [u8], logical_page: u32) -> Result<(), Refusal> {
        Plain { state }.discard(logical_page).map_err(refusal)
    }

    fn collect(
        &self,
        state: &mut [u8],
        plan: &mut [u32],
        erased: &mut [u32],
    ) -> Result<Collected, Refusal> {
        let answer = Plain { state }.collect(plan, erased);
        answer.map(collected).map_err(refusal)
    }
}

/// What a flush answers, in the model's terms.
fn flushed(flushed: hedjosur::Flushed) -> Flushed {
    Flushed {
        first: flushed.first_page,
        count: flushed.count,
    }
}

/// What a collection answers, in the model's terms.
fn collected(collected: hedjosur::Collected) -> Collected {
    Collected {
        first: collected.first_page,
        count: collected.count,
        erased: collected.erased,
    }
}

/// What is told of a level, in the model's terms.
fn told(reason: Reason) -> Told {
    let record = reason.record().map_or_else(Told::default, |record| Told {
        start: record.start,
        span: record.span,
        word: record.word,
        intercept: record.intercept,
        ..Told::default()
    });
    let number = match reason {
        Reason::NoneCovers { .. } => 0,
        Reason::OffTheStride { .. } => 1,
        Reason::NotOwned { .. } => 2,
        Reason::Member { .. } => 3,
    };
    Told {
        reason: number,
        owner: reason.owner(),
        ..record
    }
}

/// M, B, N and g by their names.
fn named([blocks, block_pages, logical_pages, error_bound]: [u32; 4]) -> Numbers {
    Numbers {
        blocks,
        block_pages,
        logical_pages,
        error_bound,
    }
}

/// The model's refusal of the same number.
fn refusal(refusal: hedjosur::Refusal) -> Refusal {
    let mut refusals = Refusal::ALL.into_iter();
    let same = refusals.find(|model| model.number() == refusal.number());
    same.expect("a refusal of the model")
}
