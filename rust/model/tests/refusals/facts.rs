//! A state and its spare area, looked at a second time.

use hedjosur_model::state::{Lent, State};
use hedjosur_model::testing::World;

use crate::expected::Condition;
use crate::groups::{group_unsound, members, rise};

/// What can be told of a state and its spare area without asking the model.
pub struct Facts<'a> {
    /// The state, where it is long enough for the device numbers.
    pub state: Option<&'a State>,
    /// The spare area.
    pub area: &'a [u32],
    /// M, or 0 where there are no device numbers; so B, N and g.
    pub blocks: u64,
    /// B.
    pub block_pages: u64,
    /// N.
    pub logical_pages: u64,
    /// g.
    pub bound: u64,
}

/// What lookup answers: the page and the predicted one, None for 'not written', and
/// how many levels were looked at.
pub type LookedUp = (Option<[u64; 2]>, usize);

impl<'a> Facts<'a> {
    /// What can be told of this state and spare area.
    pub fn of(world: &'a World) -> Facts<'a> {
        let state = match &world.lent {
            Lent::Short => None,
            Lent::Held(state) => Some(state),
        };
        let numbers = state.map_or([0; 4], |state| state.numbers.map(u64::from));
        let [blocks, block_pages, logical_pages, bound] = numbers;
        Facts {
            state,
            area: &world.area,
            blocks,
            block_pages,
            logical_pages,
            bound,
        }
    }

    /// Whether there are no device numbers, or some outside their limits.
    pub fn outside_limits(&self) -> bool {
        let numbers = [
            self.blocks,
            self.block_pages,
            self.logical_pages,
            self.bound,
        ];
        self.state.is_none() || outside_limits(numbers)
    }

    /// Whether the state hasn't the length that the numbers give.
    pub fn state_length_wrong(&self) -> bool {
        self.state.is_some_and(|state| {
            state.counts.len() as u64 != self.blocks
                || state.marks.len() as u64 != 8 * self.logical_pages.div_ceil(8)
                || state.groups.len() as u64 != self.group_count()
        })
    }

    /// Whether the spare area hasn't.
    pub fn area_length_wrong(&self) -> bool {
        self.area.len() as u64 != area_length(self.blocks, self.block_pages, self.bound)
    }

    /// The number of groups that N logical pages need.
    pub fn group_count(&self) -> u64 {
        self.logical_pages.div_ceil(256)
    }

    /// Whether lengths and numbers are as they should be, so that the rest can
    /// be looked at.
    pub fn readable(&self) -> bool {
        !self.outside_limits() && !self.state_length_wrong() && !self.area_length_wrong()
    }

    /// The refusals of a call about one logical page, before 7, where what is lent
    /// besides the state has a wrong length or hasn't.
    pub fn refused_for(&self, logical_page: u32, length_wrong: bool) -> [Condition; 5] {
        [
            (1, self.outside_limits()),
            (2, self.state_length_wrong()),
            (2, length_wrong),
            (4, u64::from(logical_page) >= self.logical_pages),
            (3, self.group_unsound((logical_page / 256) as usize)),
        ]
    }

    /// Whether a count or a group is not as in a sound state.
    pub fn unsound(&self) -> bool {
        self.state.is_some_and(|state| {
            state
                .counts
                .iter()
                .any(|&c| u64::from(c) > self.block_pages)
                || (0..state.groups.len()).any(|group| self.group_unsound(group))
        })
    }

    /// Whether a group is not sound; false where there is no such group.
    pub fn group_unsound(&self, number: usize) -> bool {
        let group = self.state.and_then(|state| state.groups.get(number));
        group.is_some_and(|group| group_unsound(self.logical_pages, number, group))
    }

    /// How many blocks are free.
    pub fn free(&self) -> usize {
        self.state.map_or(0, |state| {
            state.counts.iter().filter(|&&count| count == 0).count()
        })
    }

    /// Whether a logical page is discarded. Only for a readable state.
    pub fn discarded(&self, logical_page: u64) -> bool {
        self.state.expect("a readable state").marks[logical_page as usize]
    }

    /// What lookup of a logical page answers; an error is 7. Only for a readable
    /// state whose group is sound.
    pub fn looked_up(&self, logical_page: u64) -> Result<LookedUp, ()> {
        match self.discarded(logical_page) {
            true => Ok((None, 0)),
            false => self.recorded(logical_page),
        }
    }

    /// As [`Facts::looked_up`], by the records alone.
    pub fn recorded(&self, logical_page: u64) -> Result<LookedUp, ()> {
        let state = self.state.expect("a readable state");
        let group = &state.groups[(logical_page / 256) as usize];
        let offset = (logical_page % 256) as u8;
        let mut levels = 0;
        let holding = group.levels.iter().find_map(|level| {
            levels += 1;
            level.iter().find(|r| members(r).contains(&offset))
        });
        let Some(record) = holding else {
            return Ok((None, levels));
        };
        let predicted = i64::from(record.intercept) + rise(record, offset);
        let last = (self.blocks * self.block_pages) as i64 - 1;
        if predicted < 0 || predicted > last {
            return Err(());
        }
        let bound = self.bound as i64;
        // The pages named for the logical page, the predicted one first.
        let distances = [0].into_iter().chain(-bound..=bound);
        let named = distances.map(|distance| predicted + distance).find(|page| {
            let entry = predicted * (2 * bound + 1) + bound + (page - predicted);
            (0..=last).contains(page) && u64::from(self.area[entry as usize]) == logical_page
        });
        let page = named.ok_or(())?;
        Ok((Some([page as u64, predicted as u64]), levels))
    }

    /// The valid pages of each used block.
    pub fn valid_pages(&self) -> Vec<usize> {
        let state = self.state.expect("a readable state");
        let valid = |page: u64| {
            let middle = self.area[(page * (2 * self.bound + 1) + self.bound) as usize];
            u64::from(middle) < self.logical_pages && {
                let found = self.looked_up(middle.into());
                matches!(found, Ok((Some([on, _]), _)) if on == page)
            }
        };
        (0..self.blocks)
            .filter(|&block| state.counts[block as usize] != 0)
            .map(|block| {
                let pages = block * self.block_pages..(block + 1) * self.block_pages;
                pages.filter(|&page| valid(page)).count()
            })
            .collect()
    }
}

/// Whether M, B, N or g is outside its limits.
pub fn outside_limits([blocks, block_pages, logical_pages, bound]: [u64; 4]) -> bool {
    !(3..=4096).contains(&blocks)
        || !(4..=256).contains(&block_pages)
        || logical_pages == 0
        || logical_pages > (blocks - 1) * block_pages / 2
        || bound > 15
}

/// The length that the numbers give a spare area.
fn area_length(blocks: u64, block_pages: u64, bound: u64) -> u64 {
    // Only asked for its value when the numbers are inside limits.
    blocks.wrapping_mul(block_pages).wrapping_mul(2 * bound + 1)
}
