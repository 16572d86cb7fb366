//! A plain state, looked at a second time.

use std::collections::BTreeSet;

use hedjosur_model::plain::{Lent, State};

use crate::expected::Condition;
use crate::facts::outside_limits;

/// What can be told of a plain state without asking the model.
pub struct Facts<'a> {
    /// The state, where it is long enough for the device numbers.
    state: Option<&'a State>,
    /// M, B, N and g, or zeros where there are no device numbers.
    numbers: [u64; 4],
}

impl<'a> Facts<'a> {
    /// What can be told of this state.
    pub fn of(lent: &'a Lent) -> Facts<'a> {
        let state = match lent {
            Lent::Short => None,
            Lent::Held(state) => Some(state),
        };
        let numbers = state.map_or([0; 4], |state| state.numbers.map(u64::from));
        Facts { state, numbers }
    }

    /// The same state, with the numbers that a format is given.
    pub fn to_format(&self, numbers: [u32; 4]) -> Facts<'a> {
        let numbers = numbers.map(u64::from);
        Facts { numbers, ..*self }
    }

    /// The state, where there are device numbers.
    pub fn state(&self) -> &'a State {
        self.state.expect("a readable state")
    }

    /// M.
    pub fn blocks(&self) -> u64 {
        self.numbers[0]
    }

    /// B.
    pub fn block_pages(&self) -> u64 {
        self.numbers[1]
    }

    /// N.
    pub fn logical_pages(&self) -> u64 {
        self.numbers[2]
    }

    /// Whether the state is too short for device numbers.
    pub fn short(&self) -> bool {
        self.state.is_none()
    }

    /// Whether a number is outside its limits.
    pub fn outside_limits(&self) -> bool {
        outside_limits(self.numbers)
    }

    /// Whether the state hasn't the length that the numbers give.
    pub fn length_wrong(&self) -> bool {
        self.state.is_some_and(|state| {
            state.counts.len() as u64 != self.blocks()
                || state.entries.len() as u64 != self.logical_pages()
        })
    }

    /// Refusals 1 and 2 for the state.
    pub fn refused(&self) -> [Condition; 3] {
        [
            (1, self.short()),
            (1, self.outside_limits()),
            (2, self.length_wrong()),
        ]
    }

    /// The refusals of a call about one logical page.
    pub fn refused_for(&self, logical_page: u32) -> Vec<Condition> {
        let own = || self.state().entries[logical_page as usize];
        let beyond = u64::from(logical_page) >= self.logical_pages();
        let unreadable = self.refused().iter().any(|&(_, holds)| holds);
        let wrong = !unreadable && !beyond && self.entry_wrong(own());
        [&self.refused()[..], &[(4, beyond), (3, wrong)]].concat()
    }

    /// The pages of the blocks that are below their counts.
    fn written(&self) -> BTreeSet<u32> {
        let block_pages = self.block_pages() as u32;
        let blocks = (0..).zip(&self.state().counts);
        blocks
            .flat_map(|(block, &count)| (0..count.min(block_pages)).map(move |i| (block, i)))
            .map(|(block, place)| block * block_pages + place)
            .collect()
    }

    fn entry_wrong(&self, entry: u32) -> bool {
        entry != u32::MAX && !self.written().contains(&entry)
    }

    /// Whether flush and collection have to refuse 3. Only for a state of the right
    /// length.
    pub fn unsound(&self) -> bool {
        let state = self.state();
        let mut named = state.entries.clone();
        named.retain(|&entry| entry != u32::MAX);
        let written = self.written();
        let distinct: BTreeSet<u32> = named.iter().copied().collect();
        let most = self.block_pages();
        !distinct.is_subset(&written)
            || distinct.len() < named.len()
            || state.counts.iter().any(|&count| u64::from(count) > most)
    }

    /// The numbers of the free blocks.
    pub fn free(&self) -> Vec<u64> {
        let counts = &self.state().counts;
        let free = (0..self.blocks()).filter(|&block| counts[block as usize] == 0);
        free.collect()
    }

    /// How many valid pages each used block has, with its number.
    pub fn valid_pages(&self) -> Vec<(usize, u64)> {
        let State {
            counts, entries, ..
        } = self.state();
        let used = (0..self.blocks()).filter(|&block| counts[block as usize] != 0);
        used.map(|block| {
            let on = |&&entry: &&u32| u64::from(entry) / self.block_pages() == block;
            (entries.iter().filter(on).count(), block)
        })
        .collect()
    }
}
