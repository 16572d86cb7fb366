//! The levels of a group: insertion, compaction and the room for 512 records.

use std::collections::BTreeSet;

use crate::record::Record;

/// 'A group holds 512 records.'
pub const GROUP_RECORDS: usize = 512;

/// A group: its levels, 0 newest, each a list of records.
#[derive(Clone, Debug, Default, PartialEq, Eq)]
pub struct Group {
    /// The levels; 'in one level records ascend and their ranges don't meet'.
    pub levels: Vec<Vec<Record>>,
    /// Offsets whose owner is no approximate record of the group. A sound group
    /// has none; see [`crate::sound`].
    pub strays: BTreeSet<u8>,
}

impl Group {
    /// All records, from the top level down, each level ascending.
    pub fn records(&self) -> impl Iterator<Item = &Record> {
        self.levels.iter().flatten()
    }

    /// How many records the group holds.
    pub fn size(&self) -> usize {
        self.records().count()
    }

    /// The first record having the offset as a member, going down the levels,
    /// with the number of its level.
    pub fn first_with(&self, offset: u8) -> Option<(usize, &Record)> {
        self.levels.iter().enumerate().find_map(|(level, records)| {
            let found = records.iter().find(|record| record.has(offset))?;
            Some((level, found))
        })
    }

    /// The record that owns an offset: 'an offset of a group is owned by at most one
    /// approximate record'.
    pub fn owner(&self, offset: u8) -> Option<&Record> {
        self.records().find(|record| record.owns.contains(&offset))
    }

    /// Takes in the batch's records for this group, ascending: 'if a group's
    /// records and the batch's for it are together more [than 512], it is
    /// compacted first'.
    pub fn take(&mut self, batch: Vec<Record>) {
        if self.size() + batch.len() > GROUP_RECORDS {
            self.compact();
        }
        for record in batch {
            self.insert(record);
        }
    }

    /// Inserts a record at level 0.
    pub fn insert(&mut self, new: Record) {
        let members = new.members();
        if new.is_approximate() {
            self.give_up(&members);
        }
        if self.levels.is_empty() {
            self.levels.push(Vec::new());
        }
        // 'Then each level 0 record whose range meets r's, ascending, loses the
        // members that r has.'
        let (victims, mut staying): (Vec<Record>, Vec<Record>) =
            std::mem::take(&mut self.levels[0])
                .into_iter()
                .partition(|record| record.meets(&new));
        for victim in victims {
            match victim.without(&members) {
                Some(shrunk) if shrunk.meets(&new) => self.move_down(shrunk),
                Some(shrunk) => place(&mut staying, shrunk),
                None => {}
            }
        }
        place(&mut staying, new);
        self.levels[0] = staying;
    }

    /// 'If r is approximate, every other approximate record of the group gives
    /// up the offsets that r takes; it shrinks to its first and last remaining
    /// members, or goes if none is left.' 'A level other than 0 vanishes as soon
    /// as it is empty': before the first victim is looked at.
    fn give_up(&mut self, taken: &BTreeSet<u8>) {
        for level in &mut self.levels {
            *level = std::mem::take(level)
                .into_iter()
                .filter_map(|record| match record.is_approximate() {
                    true => record.without(taken),
                    false => Some(record),
                })
                .collect();
        }
        let mut number = 0;
        self.levels.retain(|level| {
            number += 1;
            number == 1 || !level.is_empty()
        });
    }

    /// A victim that still meets the new record 'moves to level 1 when it meets
    /// nothing there; otherwise a new level holding it goes between'. A second
    /// victim looks at the level that the first may have made.
    fn move_down(&mut self, victim: Record) {
        match self.levels.get_mut(1) {
            Some(level) if !level.iter().any(|record| record.meets(&victim)) => {
                place(level, victim);
            }
            _ => self.levels.insert(1, vec![victim]),
        }
    }

    /// Compaction of a group.
    pub fn compact(&mut self) {
        // 'Each record shrinks in the same way by all members of records above
        // it, or goes.'
        let mut above = BTreeSet::new();
        let mut left = Vec::new();
        for level in std::mem::take(&mut self.levels) {
            left.extend(level.iter().filter_map(|record| record.without(&above)));
            above.extend(level.iter().flat_map(Record::members));
        }
        // 'Then, from the top down and ascending, each gets level 0 if it meets
        // no record already put back, else one below the lowest that it meets.'
        for record in left {
            let lowest = self
                .levels
                .iter()
                .rposition(|level| level.iter().any(|other| other.meets(&record)));
            let level = lowest.map_or(0, |met| met + 1);
            if level == self.levels.len() {
                self.levels.push(Vec::new());
            }
            place(&mut self.levels[level], record);
        }
    }
}

/// Puts a record into a level where its range meets no other.
fn place(level: &mut Vec<Record>, record: Record) {
    let at = level.partition_point(|other| other.start < record.start);
    level.insert(at, record);
}
