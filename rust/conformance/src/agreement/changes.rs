//! Pairs of states with one difference, or none that lookups see.

use hedjosur_model::device::{group_of, Device, GROUP_PAGES};
use hedjosur_model::testing::{full_device, Random};

use super::contents::{fits, Contents, Page};

/// How the second state differs from the first.
#[derive(Clone, Copy, Debug, PartialEq, Eq, PartialOrd, Ord)]
pub(super) enum Change {
    /// A logical page is found in another level.
    Levels,
    /// It is not written, in a group of more levels.
    UnwrittenLevels,
    /// It is not written, in a group without records.
    NoRecords,
    /// Another page is predicted; the page is the same.
    Predicted,
    /// It is discarded, not just never written.
    Discarded,
    /// Another page is named where the same one is predicted.
    Page,
    /// It is never written.
    Written,
    /// A group has more levels, and no logical page that looks at all of them.
    Unseen,
    /// A group without records, all of whose logical pages are discarded in the first.
    Emptied,
    /// Nothing that a lookup answers.
    Nothing,
    /// N is smaller.
    Shorter,
}

impl Change {
    pub(super) const ALL: [Change; 11] = [
        Change::Levels,
        Change::UnwrittenLevels,
        Change::NoRecords,
        Change::Predicted,
        Change::Discarded,
        Change::Page,
        Change::Written,
        Change::Unseen,
        Change::Emptied,
        Change::Nothing,
        Change::Shorter,
    ];

    /// The least error bound that allows it: with 0 the page is the predicted one.
    fn least_bound(self) -> u32 {
        matches!(self, Change::Predicted | Change::Page).into()
    }

    /// Whether one lookup has another answer.
    pub(super) fn is_seen(self) -> bool {
        self < Change::Unseen
    }
}

/// Which logical page is changed.
#[derive(Clone, Copy, Debug, PartialEq, Eq, PartialOrd, Ord)]
pub(super) enum Place {
    /// The first.
    First,
    /// The first of a later group.
    Later,
    /// The last, where N is a multiple of 256.
    LastOfWhole,
    /// The last, where it is not.
    LastOfPart,
}

impl Place {
    pub(super) const ALL: [Place; 4] = [
        Place::First,
        Place::Later,
        Place::LastOfWhole,
        Place::LastOfPart,
    ];

    /// A device with such a place and any error bound from `least` on.
    fn device(self, random: &mut Random, least: u32) -> Device {
        let groups = match self {
            Place::Later => random.between(1, 2),
            _ => random.below(3),
        };
        let rest = match self {
            Place::LastOfWhole => GROUP_PAGES,
            _ => random.between(4, GROUP_PAGES - 1),
        };
        let logical_pages = groups * GROUP_PAGES + rest;
        Device {
            logical_pages,
            ..full_device(2 * groups + 3, 256, random.between(least, 15))
        }
    }

    /// The logical page in this place.
    fn page(self, random: &mut Random, device: &Device) -> u32 {
        match self {
            Place::First => 0,
            Place::Later => GROUP_PAGES * random.between(1, device.groups() as u32 - 1),
            Place::LastOfWhole | Place::LastOfPart => device.logical_pages - 1,
        }
    }
}

/// Two states that differ by a change.
#[derive(Debug)]
pub(super) struct Pair {
    pub(super) states: [Contents; 2],
    /// The logical page that is changed.
    pub(super) changed: u32,
}

impl Pair {
    /// A pair that differs in this way in this place, of devices that may differ in
    /// more than that. No lookup is refused.
    pub(super) fn new(random: &mut Random, change: Change, place: Place) -> Pair {
        let device = place.device(random, change.least_bound());
        let mut one = Contents::any(random, device);
        let changed = place.page(random, &device);
        make_ready(random, &mut one, change, changed);
        let mut other = one.clone();
        make_change(random, &mut other, change, changed);
        other.device.blocks += random.below(3);
        other.device.bound = random.between(device.bound, 15);
        let mut states = [one, other];
        if random.once_in(2) {
            states.reverse();
        }
        Pair { states, changed }
    }

    /// Has the lookup of a logical page refused by some of the states, where they have
    /// it in a group with records and it isn't the one that is changed; answers by which.
    pub(super) fn refuse(&mut self, random: &mut Random, refused: u32) -> [bool; 2] {
        let mut asked = random.pick(&[[true, false], [false, true], [true, true]]);
        for (state, asked) in self.states.iter_mut().zip(&mut asked) {
            let group = group_of(refused);
            let has = state.of_group(group).any(|page| page == refused);
            *asked &= refused != self.changed && has && state.depths[group] > 0;
            if *asked {
                state.pages[refused as usize] = state.any_refused(random, refused);
            }
        }
        asked
    }
}

/// Makes the first state of a pair ready for its change.
fn make_ready(random: &mut Random, one: &mut Contents, change: Change, changed: u32) {
    let group = group_of(changed);
    for page in one.of_group(group) {
        let page = &mut one.pages[page as usize];
        match change {
            Change::UnwrittenLevels | Change::Unseen if *page == Page::Unwritten => {
                *page = Page::Discarded;
            }
            Change::NoRecords | Change::Emptied => *page = Page::Discarded,
            _ => {}
        }
    }
    let mut held = one.any_held(random, changed);
    if let (Change::Predicted, Page::Held { page, .. }) = (change, &mut held) {
        // One that both predictions reach.
        let (bound, first) = (one.device.bound, 2 * changed);
        let lowest = (first + 1).saturating_sub(bound);
        *page = Some(random.between(lowest, first + bound));
    }
    let page = &mut one.pages[changed as usize];
    match change {
        Change::Levels | Change::Predicted | Change::Page | Change::Written => *page = held,
        Change::UnwrittenLevels | Change::NoRecords | Change::Discarded => *page = Page::Unwritten,
        Change::Unseen | Change::Emptied | Change::Nothing | Change::Shorter => {}
    }
}

/// Makes the second state of a pair out of the first.
fn make_change(random: &mut Random, other: &mut Contents, change: Change, changed: u32) {
    let group = group_of(changed);
    let depth = other.depths[group];
    let bound = other.device.bound;
    let page = &mut other.pages[changed as usize];
    match (change, page) {
        (Change::Levels, Page::Held { level, .. }) => {
            *level = (*level + random.between(1, depth as u32 - 1) as usize) % depth;
        }
        (Change::Predicted, Page::Held { predicted, .. }) => *predicted ^= 1,
        (Change::Page, held) => {
            let before = *held;
            while *held == before {
                *held = renamed(random, before, bound);
            }
        }
        (Change::Discarded, page) => *page = Page::Discarded,
        (Change::Written, page) => *page = Page::Unwritten,
        (Change::UnwrittenLevels | Change::Unseen, _) => {
            other.depths[group] += random.between(1, 3) as usize;
        }
        (Change::NoRecords, _) => other.depths[group] = 0,
        (Change::Emptied, _) => {
            other.depths[group] = 0;
            for page in other.of_group(group) {
                if random.once_in(2) {
                    other.pages[page as usize] = Page::Unwritten;
                }
            }
        }
        (Change::Shorter, _) => shorten(random, other),
        _ => {}
    }
}

/// The same with any page that the predicted one can name.
fn renamed(random: &mut Random, mut held: Page, bound: u32) -> Page {
    if let Page::Held {
        predicted, page, ..
    } = &mut held
    {
        let predicted = *predicted as u32;
        *page = Some(random.between(predicted.saturating_sub(bound), predicted + bound));
    }
    held
}

/// Takes logical pages away from the end.
fn shorten(random: &mut Random, other: &mut Contents) {
    let before = other.device.logical_pages;
    let mut after = before;
    while after == before || !fits(after) {
        after = random.between(before.saturating_sub(300).max(3), before);
    }
    other.device.logical_pages = after;
    other.pages.truncate(after as usize);
    other.depths.truncate(other.device.groups());
}
