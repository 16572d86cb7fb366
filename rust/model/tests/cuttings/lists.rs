//! A list of records held against its batch: it has to be a cutting into runs, and as
//! short as any.

use hedjosur_model::device::GROUP_PAGES;
use hedjosur_model::learn::Learned;

use crate::judge::{Batch, Part};
use crate::runs::Runs;

/// What is wrong with a list of records.
#[derive(Debug, PartialEq, Eq, PartialOrd, Ord)]
pub enum Fault {
    /// The members of its records, one after the other, aren't the batch's pages.
    Members,
    /// The members of a record are no run by its word and intercept.
    NoRun,
    /// The batch, or what it has of one group, is cut into more parts than need be.
    TooMany,
}

/// The cutting that a list of records is, nothing left out.
pub fn cutting_of(batch: &Batch, list: &[Learned]) -> Result<Vec<Part>, Fault> {
    let mut cutting = Vec::new();
    let mut end = 0;
    for Learned { group, record } in list {
        let first = *group as u32 * GROUP_PAGES;
        let members = record.members().into_iter();
        let members = Vec::from_iter(members.map(|offset| first + u32::from(offset)));
        let part = end..end + members.len();
        let same = batch.sorted.get(part.clone()) == Some(&members[..]);
        require(same && !part.is_empty(), Fault::Members)?;
        require(batch.is_run_of(record, &part), Fault::NoRun)?;
        end = part.end;
        cutting.push(part);
    }
    require(end == batch.sorted.len(), Fault::Members)?;
    Ok(cutting)
}

/// Holds a cutting against all others: for the whole batch, and for each group.
pub fn as_short_as_any(batch: &Batch, runs: &Runs, cutting: &[Part]) -> Result<(), Fault> {
    for places in batch.groups().into_iter().chain([batch.places()]) {
        let inside = cutting.iter().filter(|part| places.contains(&part.start));
        require(inside.count() <= runs.least(&places), Fault::TooMany)?;
    }
    Ok(())
}

fn require(condition: bool, fault: Fault) -> Result<(), Fault> {
    match condition {
        true => Ok(()),
        false => Err(fault),
    }
}
