//! The longest approximate run with the fewest wrong predictions: several slopes are
//! tried at once, and only those that can be as long as the longest so far. The right
//! predictions are counted once the longest are known, for the slopes that reach as
//! far.

use std::ops::RangeInclusive;

use hedjosur_model::device::offset_of;

/// Slopes are fractions of 256. Slope 256 predicts as 255 does at each offset of
/// a group, so it is never the smallest with as many wrong predictions.
const SLOPES: i32 = 256;

/// How far ahead of the longest run so far a first guess looks.
const AHEAD: usize = 12;

/// How many slopes are tried at once.
const LANES: usize = 16;

/// How many times so many slopes are tried for all.
const BLOCKS: usize = SLOPES as usize / LANES;

/// The largest error bound.
const MAX_BOUND: usize = 15;

/// A slope, how many logical pages it takes, and its intercept, counted from place 0.
#[derive(Clone, Copy, Debug)]
pub(super) struct Fit {
    pub slope: u32,
    pub length: usize,
    pub intercept: i32,
}

/// The logical pages at the places from `place` to before `end` of a batch, all of
/// one group. Predictions keep within `bound` of the page and inside the batch.
pub(super) struct Ahead<'a> {
    pub written: &'a [u32],
    /// Up to where pages lie in line with the place before: an intercept that suits
    /// the ends of a line suits all of it.
    pub line_ends: &'a [u8; 256],
    pub place: usize,
    pub end: usize,
    pub bound: i16,
}

/// The rises of some slopes less the places they are for, at least and at most. An
/// intercept suits a slope if it brings both to within the bound of 0.
#[derive(Clone, Copy)]
struct Leads {
    least: [i16; LANES],
    most: [i16; LANES],
}

impl Leads {
    /// Of no page.
    const NONE: Leads = Leads {
        least: [i16::MAX; LANES],
        most: [i16::MIN; LANES],
    };

    /// The slopes that an intercept suits, a bit each.
    #[inline(always)]
    fn suited(&self, bound: i16) -> u32 {
        (0..LANES).fold(0, |bits, lane| {
            let suited = self.most[lane] - self.least[lane] <= 2 * bound;
            bits | u32::from(suited) << lane
        })
    }
}

/// A byte for each of the slopes.
type Bytes = [u8; LANES];

/// Some slopes of longest runs, and of each the intercepts that suit and may be right
/// for a page: so many from the first on, at most one more than the bound. Behind the
/// last slope the counts are 0.
#[derive(Clone, Copy, Debug)]
pub(super) struct Choices {
    slope: [u16; LANES],
    /// The smallest intercept that suits: it is taken where none is right.
    lowest: [i16; LANES],
    first: [i16; LANES],
    count: Bytes,
}

impl Choices {
    /// Of no slope.
    const NONE: Choices = Choices {
        slope: [0; LANES],
        lowest: [0; LANES],
        first: [0; LANES],
        count: [0; LANES],
    };

    /// Puts in a slope with its leads.
    #[inline(always)]
    fn put(&mut self, at: usize, slope: usize, least: i16, most: i16, bound: i16) {
        let lowest = -bound - least;
        let first = lowest.max(-most);
        let last = (bound - most).min(-least);
        self.slope[at] = slope as u16;
        self.lowest[at] = lowest;
        self.first[at] = first;
        self.count[at] = (last - first + 1) as u8;
    }
}

/// The most right predictions of some slopes, and where the first intercept with as
/// many stands among the slope's choices.
struct Right {
    most: Bytes,
    first: Bytes,
}

/// The choices of all slopes of longest runs.
pub(super) type AllChoices = [Choices; BLOCKS];

/// No slope has a choice.
pub(super) const NO_CHOICES: AllChoices = [Choices::NONE; BLOCKS];

impl Ahead<'_> {
    /// The longest approximate run, if it is longer than `length`: of those with the
    /// fewest wrong predictions the one of the smallest slope, then of the smallest
    /// intercept.
    pub fn longer_fit(&self, length: usize, all: &mut AllChoices) -> Option<Fit> {
        // The last place that a run has to take.
        let mut goal = self.place + length;
        let mut slopes = self.slopes_to(goal);
        if slopes.is_empty() {
            return None;
        }
        let mut guess = None;
        // Where even slope 0 gets half of the way, the first slopes are as good a guess.
        if self.end - self.place > 4 * self.bound as usize + 2 {
            let ahead = self.slopes_to((goal + AHEAD).min(self.end - 1));
            let middle = (ahead.start() + ahead.end()) / 2;
            let slope = first_lane(middle.clamp(*slopes.start(), *slopes.end()));
            guess = self.reach(slope, goal).map(|found| (slope, found));
        }
        // What is reached leaves fewer slopes to be tried.
        if let Some((_, (end, _))) = guess.filter(|(_, (end, _))| *end > goal + 1) {
            goal = end - 1;
            slopes = self.slopes_to(goal);
        }
        let mut longest = [(0, Leads::NONE); BLOCKS];
        let mut count = 0;
        let mut slope = first_lane(*slopes.start());
        while slope <= *slopes.end() {
            let found = match guess {
                Some((guessed, found)) if guessed == slope => Some(found),
                _ => self.reach(slope, goal),
            };
            if let Some((end, leads)) = found.filter(|&(end, _)| end > goal) {
                if end > goal + 1 {
                    goal = end - 1;
                    slopes = self.slopes_to(goal);
                    count = 0;
                }
                longest[count] = (slope, leads);
                count += 1;
            }
            slope = (slope + LANES).max(first_lane(*slopes.start()));
        }
        self.best_fit(&longest[..count], goal + 1, all)
    }

    /// Of the runs up to `end` of some slopes with their leads there, ascending: the
    /// first with the most right predictions.
    #[inline]
    fn best_fit(
        &self,
        longest: &[(usize, Leads)],
        end: usize,
        all: &mut AllChoices,
    ) -> Option<Fit> {
        let mut count = 0;
        for (slope, leads) in longest {
            let mut suited = leads.suited(self.bound);
            while suited != 0 {
                let lane = suited.trailing_zeros() as usize % LANES;
                suited &= suited - 1;
                let choices = &mut all[count / LANES];
                if count % LANES == 0 {
                    choices.count = [0; LANES];
                }
                let (least, most) = (leads.least[lane], leads.most[lane]);
                choices.put(count % LANES, slope + lane, least, most, self.bound);
                count += 1;
            }
        }
        // A run that needs an approximate record has at most 255 pages: a byte counts them.
        let length = end - self.place;
        let fit = |choices: &Choices, lane: usize, right: u8, choice: u8| Fit {
            slope: u32::from(choices.slope[lane]),
            length,
            intercept: i32::from(match right {
                0 => choices.lowest[lane],
                _ => choices.first[lane] + i16::from(choice),
            }),
        };
        if count == 1 && all[0].count[0] == 1 {
            return Some(fit(&all[0], 0, 1, 0));
        }
        let mut best: Option<(u8, Fit)> = None;
        for choices in &all[..count.div_ceil(LANES)] {
            let right = self.most_right(end, choices);
            let top = right.most.into_iter().fold(0, u8::max);
            if best.is_some_and(|(right, _)| top <= right) {
                continue;
            }
            let is_top = |bits, lane: usize| {
                let is_top = right.most[lane] == top && choices.count[lane] > 0;
                bits | u32::from(is_top) << lane
            };
            let lane = (0..LANES).fold(0, is_top).trailing_zeros() as usize % LANES;
            best = Some((top, fit(choices, lane, top, right.first[lane])));
            if usize::from(top) == length {
                break;
            }
        }
        best.map(|(_, fit)| fit)
    }

    /// The most right predictions of some slopes.
    #[inline]
    fn most_right(&self, end: usize, choices: &Choices) -> Right {
        match choices.count.into_iter().fold(0, u8::max) {
            ..=1 => self.count_right::<1>(end, choices),
            2 => self.count_right::<2>(end, choices),
            3 => self.count_right::<3>(end, choices),
            4 => self.count_right::<4>(end, choices),
            5..=6 => self.count_right::<6>(end, choices),
            7..=8 => self.count_right::<8>(end, choices),
            9..=12 => self.count_right::<12>(end, choices),
            _ => self.count_right::<{ MAX_BOUND + 1 }>(end, choices),
        }
    }

    /// The most right predictions of slopes that have at most `N` choices.
    #[inline(never)]
    fn count_right<const N: usize>(&self, end: usize, choices: &Choices) -> Right {
        // Above a product's low byte the rise and the first intercept add up.
        let above: [u16; LANES] = choices.first.map(|first| 255 | (first as u16) << 8);
        let mut places = [self.place as u8; LANES];
        let mut counts = [[0u8; LANES]; N];
        for &page in &self.written[self.place..end] {
            let offset = u16::from(offset_of(page));
            let right: Bytes = std::array::from_fn(|lane| {
                let sum = (choices.slope[lane] * offset).wrapping_add(above[lane]);
                places[lane].wrapping_sub((sum >> 8) as u8)
            });
            places = places.map(|place| place.wrapping_add(1));
            for (choice, counts) in (0..).zip(&mut counts) {
                *counts =
                    std::array::from_fn(|lane| counts[lane] + u8::from(right[lane] == choice));
            }
        }
        let mut most = [0; LANES];
        let mut first = [0; LANES];
        for (choice, counts) in (0..).zip(&counts) {
            let is_choice = choices.count.map(|count| mask(choice < count));
            let count: Bytes = std::array::from_fn(|lane| counts[lane] & is_choice[lane]);
            let is_more: Bytes = std::array::from_fn(|lane| mask(count[lane] > most[lane]));
            first = std::array::from_fn(|lane| {
                (is_more[lane] & choice) | (!is_more[lane] & first[lane])
            });
            most = std::array::from_fn(|lane| most[lane].max(count[lane]));
        }
        Right { most, first }
    }

    /// The slopes for which one intercept may suit the first page and a later one.
    /// From the one to the other a prediction rises by what the slope gives, rounded
    /// up or down.
    fn slopes_to(&self, later: usize) -> RangeInclusive<usize> {
        let distance = (self.written[later] - self.written[self.place]) as i32;
        let [first, later] = [self.place, later].map(|place| self.allowed(place as i32));
        let least = later.start() - first.end();
        let most = later.end() - first.start();
        let first = match least {
            ..=0 => 0,
            _ => SLOPES * (least - 1) / distance + 1,
        };
        let last = (SLOPES * (most + 1) - 1) / distance;
        first as usize..=last.min(SLOPES - 1) as usize
    }

    /// The places that a prediction may name for a page.
    #[inline]
    fn allowed(&self, place: i32) -> RangeInclusive<i32> {
        let bound = i32::from(self.bound);
        (place - bound).max(0)..=(place + bound).min(self.written.len() as i32 - 1)
    }

    /// Where the longest run of the slopes from this one on ends, and their leads
    /// there, if one of them takes the page at `goal`.
    #[inline(always)]
    fn reach(&self, slope: usize, goal: usize) -> Option<(usize, Leads)> {
        let mut leads = self.lead(Leads::NONE, slope, self.place);
        if self.lead(leads, slope, goal).suited(self.bound) == 0 {
            return None;
        }
        // A run of all pages is the longest: its lines need no look in between.
        if goal + 1 == self.end {
            let mut place = self.place;
            while place < goal {
                place = self.line_end(place + 1);
                leads = self.lead(leads, slope, place);
            }
            return (leads.suited(self.bound) != 0).then_some((self.end, leads));
        }
        // From line's end to line's end; the last line is halved.
        let (mut reached, mut missed) = (self.place + 1, self.end);
        let mut next = self.line_end(reached);
        while reached < missed {
            let next_leads = self.lead(leads, slope, next);
            if next_leads.suited(self.bound) != 0 {
                (leads, reached) = (next_leads, next + 1);
                next = self.line_end(reached).min(missed - 1);
            } else {
                missed = next;
                next = (reached + missed) / 2;
            }
        }
        (reached > goal).then_some((reached, leads))
    }

    /// The leads with one page more. At the batch's ends, where predictions have to
    /// stay inside, a page counts as if it stood farther in.
    #[inline(always)]
    fn lead(&self, mut leads: Leads, slope: usize, place: usize) -> Leads {
        let offset = u16::from(offset_of(self.written[place]));
        let last = self.written.len() as i16 - 1;
        let after = (place as i16).max(self.bound);
        let before = (place as i16).min(last - self.bound);
        for lane in 0..LANES {
            let product = (slope + lane) as u16 * offset;
            let rise = ((product + 255) >> 8) as i16;
            leads.least[lane] = leads.least[lane].min(rise - after);
            leads.most[lane] = leads.most[lane].max(rise - before);
        }
        leads
    }

    /// The last place, of these, in line with the two at and before a place.
    #[inline(always)]
    fn line_end(&self, place: usize) -> usize {
        usize::from(self.line_ends[place % 256]).min(self.end - 1)
    }
}

/// All bits or none.
#[inline(always)]
fn mask(is_set: bool) -> u8 {
    u8::from(is_set).wrapping_neg()
}

/// The first of the slopes that are tried together with this one.
fn first_lane(slope: usize) -> usize {
    slope / LANES * LANES
}
