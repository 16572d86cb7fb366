//! States told by what their lookups answer.

use std::collections::BTreeMap;

use hedjosur_layout::encode_state;
use hedjosur_model::device::{group_of, offset_of, Device, GROUP_PAGES};
use hedjosur_model::levels::Group;
use hedjosur_model::ops::{Lookup, Refusal};
use hedjosur_model::record::{Kind, Record};
use hedjosur_model::spare::NOBODY;
use hedjosur_model::state::State;
use hedjosur_model::testing::Random;

/// The offset of each group whose page is discarded and that a record of each level has,
/// which predicts a page that doesn't exist: so no level is empty, and nobody sees them.
const HIDDEN: u8 = 1;

/// What a state says of a logical page.
#[derive(Clone, Copy, Debug, PartialEq, Eq)]
pub(super) enum Page {
    /// No record has it.
    Unwritten,
    /// It is discarded, whatever records have it.
    Discarded,
    /// A record has it.
    Held {
        /// The record's level.
        level: usize,
        /// The predicted page, which need not exist.
        predicted: i32,
        /// The page, if an entry of the predicted one tells it.
        page: Option<u32>,
    },
}

/// A device and what it says of each logical page.
#[derive(Clone, Debug)]
pub(super) struct Contents {
    pub(super) device: Device,
    /// How many levels each group has.
    pub(super) depths: Vec<usize>,
    pub(super) pages: Vec<Page>,
}

/// Whether the last group of so many logical pages has a first and a last one beside
/// the hidden one.
pub(super) fn fits(logical_pages: u32) -> bool {
    !matches!(logical_pages % GROUP_PAGES, 1 | 2)
}

impl Contents {
    /// Any contents, with two levels or more in each group, that refuse no lookup.
    pub(super) fn any(random: &mut Random, device: Device) -> Contents {
        let depths = (0..device.groups()).map(|_| random.between(2, 5) as usize);
        let mut contents = Contents {
            device,
            depths: depths.collect(),
            pages: vec![Page::Discarded; device.logical_pages as usize],
        };
        for logical_page in 0..device.logical_pages {
            if offset_of(logical_page) != HIDDEN {
                contents.pages[logical_page as usize] = match random.below(8) {
                    0 | 1 => Page::Unwritten,
                    2 => Page::Discarded,
                    _ => contents.any_held(random, logical_page),
                };
            }
        }
        contents
    }

    /// A logical page that is found in any level. It is predicted on one of two pages
    /// that are predicted for no other.
    pub(super) fn any_held(&self, random: &mut Random, logical_page: u32) -> Page {
        let Device { bound, .. } = self.device;
        let predicted = 2 * logical_page + random.below(2);
        let page = random.between(predicted.saturating_sub(bound), predicted + bound);
        Page::Held {
            level: random.below(self.depths[group_of(logical_page)] as u32) as usize,
            predicted: predicted as i32,
            page: Some(page),
        }
    }

    /// A logical page whose lookup is refused: its predicted page doesn't name it, or
    /// doesn't exist.
    pub(super) fn any_refused(&self, random: &mut Random, logical_page: u32) -> Page {
        let outside = self.any_outside(random);
        let inside = 2 * logical_page as i32;
        Page::Held {
            level: 0,
            predicted: random.pick(&[inside, inside + 1, outside, outside]),
            page: None,
        }
    }

    /// A page that doesn't exist.
    fn any_outside(&self, random: &mut Random) -> i32 {
        let pages = self.device.pages() as i32;
        random.pick(&[-1, -300, i32::MIN + 255, pages, pages + 1, i32::MAX])
    }

    /// The logical pages of a group but for the hidden one.
    pub(super) fn of_group(&self, group: usize) -> impl Iterator<Item = u32> {
        let pages = 0..self.device.logical_pages;
        pages.filter(move |&page| group_of(page) == group && offset_of(page) != HIDDEN)
    }

    /// What a lookup answers, by the documents.
    pub(super) fn lookup(&self, logical_page: u32) -> Result<Lookup, Refusal> {
        match self.pages[logical_page as usize] {
            Page::Unwritten => Ok(Lookup::NotWritten {
                levels: self.depths[group_of(logical_page)],
            }),
            Page::Discarded => Ok(Lookup::NotWritten { levels: 0 }),
            Page::Held {
                level,
                predicted,
                page,
            } => Ok(Lookup::Found {
                page: page.ok_or(Refusal::NotNamed)?,
                predicted: predicted as u32,
                levels: level + 1,
            }),
        }
    }

    /// A state with these contents, in bytes, and its spare area.
    pub(super) fn lent(&self, random: &mut Random) -> (Vec<u8>, Vec<u32>) {
        let Device {
            blocks,
            block_pages,
            ..
        } = self.device;
        let counts = Vec::from_iter((0..blocks).map(|_| random.below(block_pages + 1)));
        let mut marks: Vec<bool> = self.pages.iter().map(|&p| p == Page::Discarded).collect();
        marks.resize_with(self.device.mark_bits(), || random.once_in(2));
        let state = State {
            numbers: self.device.numbers(),
            counts,
            marks,
            groups: (0..self.depths.len())
                .map(|group| self.group(random, group))
                .collect(),
        };
        let bytes = encode_state(&state, || random.bits() as u8);
        (bytes.expect("a state with bytes"), self.area(random))
    }

    /// A group, with records that nobody sees below others and of discarded pages.
    fn group(&self, random: &mut Random, number: usize) -> Group {
        let mut levels = vec![BTreeMap::new(); self.depths[number]];
        let first = number as u32 * GROUP_PAGES;
        let pages = self.pages[first as usize..].iter().zip(0..=u8::MAX);
        for (&page, offset) in pages {
            let unseen = match page {
                Page::Unwritten => continue,
                Page::Discarded => 0,
                Page::Held {
                    level, predicted, ..
                } => {
                    levels[level].insert(offset, any_record(random, offset, predicted));
                    level + 1
                }
            };
            for level in &mut levels[unseen..] {
                if offset == HIDDEN || random.once_in(12) {
                    let intercept = match offset {
                        HIDDEN => self.any_outside(random),
                        _ => random.bits() as i32 >> random.below(32),
                    };
                    level.insert(offset, Record::exact(offset, 0, Kind::Single, intercept));
                }
            }
        }
        let levels = levels
            .into_iter()
            .map(|level| level.into_values().collect());
        Group {
            levels: levels.collect(),
            ..Group::default()
        }
    }

    /// A spare area that tells the pages, and else anything.
    fn area(&self, random: &mut Random) -> Vec<u32> {
        let (device, width) = (&self.device, self.device.entries_per_page());
        let mut area: Vec<u32> = (0..device.spare_length())
            .map(|at| {
                // Two pages may be predicted for a logical page; they don't name it yet.
                let named = random.below(device.logical_pages + 1);
                let own = (at / width / 2) as u32;
                if named == own {
                    NOBODY
                } else {
                    named
                }
            })
            .collect();
        for (held, logical_page) in self.pages.iter().zip(0..) {
            if let &Page::Held {
                predicted,
                page: Some(page),
                ..
            } = held
            {
                let entry = page + device.bound - predicted as u32;
                area[predicted as usize * width + entry as usize] = logical_page;
            }
        }
        area
    }
}

/// A record of any kind that has one offset and predicts a page for it.
fn any_record(random: &mut Random, offset: u8, predicted: i32) -> Record {
    let slope = random.below(257) as u16;
    let stride = random.between(1, 255) as u8;
    let kind = random.pick(&[
        Kind::Single,
        Kind::Accurate { stride },
        Kind::Approximate { slope },
    ]);
    let intercept = predicted.saturating_sub(kind.rise(offset) as i32);
    match kind {
        Kind::Approximate { slope } => Record::approximate(slope, intercept, [offset].into()),
        _ => Record::exact(offset, 0, kind, intercept),
    }
}
