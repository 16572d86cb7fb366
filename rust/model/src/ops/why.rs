//! Telling why.

use super::lookup::group_for;
use super::{require, Refusal};
use crate::device::offset_of;
use crate::levels::Group;
use crate::record::Record;
use crate::state::Lent;

/// 'A lent buffer of 512 entries.'
pub const WHY_ENTRIES: usize = 512;

/// An entry: '12 bytes each'.
pub const ENTRY_BYTES: usize = 12;

/// The bytes of the buffer that [`why`] is lent.
pub const WHY_BYTES: usize = WHY_ENTRIES * ENTRY_BYTES;

/// What is told of one level of a group, for the offset of a logical page.
#[derive(Clone, Copy, Debug, PartialEq, Eq)]
pub struct WhyEntry<'a> {
    /// The number of the level, 0 newest.
    pub level: usize,
    /// The record of this level that covers the offset; none exactly where the reason
    /// is [`Reason::NoneCovers`].
    pub record: Option<&'a Record>,
    /// Why it has the offset as a member or hasn't.
    pub reason: Reason,
}

/// The reasons, '0 to 3 as named'.
#[derive(Clone, Copy, Debug, PartialEq, Eq)]
pub enum Reason {
    /// 0: 'no record covers it'.
    NoneCovers,
    /// 1: 'off the stride'.
    OffTheStride,
    /// 2: 'not owned by it (with the owner's start, if any)'.
    NotOwned {
        /// The start of the approximate record of the group that owns the offset. The
        /// starts of a sound group's approximate records are distinct, so that it
        /// names one of them.
        owner: Option<u8>,
    },
    /// 3: 'member'.
    Member,
}

/// 'A new call for support staff returns, for each level from the top, the record
/// covering the offset if there is one, and one reason'. It 'stops at the member and
/// leaves later entries; a discarded page lists nothing. It answers how many it
/// listed'. 'It uses lookup's refusals except 7': 1, 2, 4, 3. It is lent no spare
/// area; 2 is also another length of `out` than [`WHY_BYTES`].
///
/// The entries are those of [`reasons`], each as [`WhyEntry::bytes`].
pub fn why(lent: &Lent, logical_page: u32, out: &mut [u8]) -> Result<usize, Refusal> {
    lent.open()?;
    require(out.len() == WHY_BYTES, Refusal::BadLength)?;
    let entries = reasons(lent, logical_page)?;
    for (bytes, entry) in out.chunks_exact_mut(ENTRY_BYTES).zip(&entries) {
        bytes.copy_from_slice(&entry.bytes());
    }
    Ok(entries.len())
}

/// The entries that [`why`] lists for a logical page, from the top level down to the
/// member, as values; none for a discarded page. It refuses as [`why`] does, 1, 2, 4, 3,
/// and is lent the state alone.
pub fn reasons(lent: &Lent, logical_page: u32) -> Result<Vec<WhyEntry<'_>>, Refusal> {
    let (device, state) = lent.open()?;
    let group = group_for(&device, state, logical_page)?;
    Ok(match state.marks[logical_page as usize] {
        true => Vec::new(),
        false => down_to_member(group, offset_of(logical_page)),
    })
}

/// An entry of each level of a sound group, down to the member.
fn down_to_member(group: &Group, offset: u8) -> Vec<WhyEntry<'_>> {
    let mut entries = Vec::new();
    for (level, records) in group.levels.iter().enumerate() {
        let record = records.iter().find(|record| record.covers(offset));
        let reason = reason(group, record, offset);
        entries.push(WhyEntry {
            level,
            record,
            reason,
        });
        if reason == Reason::Member {
            break;
        }
    }
    entries
}

/// The reason for the record that covers the offset, if there is one. A single
/// covers its member alone, so that what covers the offset and hasn't it as a member
/// is accurate or approximate.
fn reason(group: &Group, record: Option<&Record>, offset: u8) -> Reason {
    match record {
        None => Reason::NoneCovers,
        Some(record) if record.has(offset) => Reason::Member,
        Some(record) if record.is_approximate() => Reason::NotOwned {
            owner: group.owner(offset).map(|owner| owner.start),
        },
        Some(_) => Reason::OffTheStride,
    }
}

impl Reason {
    /// The number of the reason.
    pub fn number(self) -> u8 {
        match self {
            Reason::NoneCovers => 0,
            Reason::OffTheStride => 1,
            Reason::NotOwned { .. } => 2,
            Reason::Member => 3,
        }
    }

    /// The owner's start, if one is given, which only [`Reason::NotOwned`] may do.
    pub fn owner(self) -> Option<u8> {
        match self {
            Reason::NotOwned { owner } => owner,
            _ => None,
        }
    }
}

impl WhyEntry<'_> {
    /// The entry as it is listed: 'record (or zeros), reason 0 to 3 as named, 1 if an
    /// owner is given, its start, 0 (zeros without owner)'.
    pub fn bytes(&self) -> [u8; ENTRY_BYTES] {
        let mut bytes = [0; ENTRY_BYTES];
        if let Some(record) = self.record {
            bytes[..8].copy_from_slice(&record.bytes());
        }
        bytes[8] = self.reason.number();
        if let Some(start) = self.reason.owner() {
            (bytes[9], bytes[10]) = (1, start);
        }
        bytes
    }
}
