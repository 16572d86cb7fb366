//! Learning a sorted batch: its runs, taken from the left, and their records.

mod approximate;

use std::ops::Range;

use hedjosur_layout::RECORD_BYTES;
use hedjosur_model::device::{group_of, offset_of};

use crate::neighbours::holding;
use crate::record::Record;
use approximate::{Ahead, AllChoices, Fit, NO_CHOICES};

/// From here on the pages of an accurate run are compared several at once.
const SHORT: usize = 6;

/// A run of the sorted batch and its record.
#[derive(Clone, Copy, Debug, Default, PartialEq, Eq)]
pub struct Run {
    /// The place of its first logical page in the batch.
    pub place: u16,
    /// How many logical pages it takes.
    pub length: u16,
    /// Its record.
    pub record: Record,
}

/// A batch that is learned, group by group: at most 256 ascending logical pages
/// that are written on consecutive pages.
#[derive(Clone, Debug)]
pub struct Learner<'a> {
    written: &'a [u32],
    first: u32,
    bound: u32,
    /// Made when it is first needed.
    fitting: Option<Fitting>,
}

/// What the approximate runs of a batch share.
#[derive(Clone, Debug)]
struct Fitting {
    /// See [`line_ends`].
    line_ends: [u8; 256],
    /// Room that each run uses again.
    choices: AllChoices,
}

impl<'a> Learner<'a> {
    /// The learner of a batch written from page `first` on, with error bound
    /// `bound`.
    pub fn new(written: &'a [u32], first: u32, bound: u32) -> Learner<'a> {
        Learner {
            written,
            first,
            bound,
            fitting: None,
        }
    }

    /// Hands on the runs of one of the [`parts`] of the batch, ascending.
    #[inline]
    pub fn learn(&mut self, part: Range<usize>, mut take: impl FnMut(Run)) {
        let mut place = part.start;
        while place < part.end {
            let (length, record) = self.next_run(place, part.end);
            take(Run {
                place: place as u16,
                length: length as u16,
                record,
            });
            place += length;
        }
    }

    /// The run at a place of a part that ends at `end`: how many logical pages it
    /// takes, and its record.
    #[inline]
    fn next_run(&mut self, place: usize, end: usize) -> (usize, Record) {
        let rest = &self.written[place..end];
        let (length, stride) = accurate_run(rest);
        let start = offset_of(rest[0]);
        let fit = match self.bound > 0 && length < rest.len() {
            true => self.longer_fit(place..end, length),
            false => None,
        };
        let on = (self.first + place as u32) as i32;
        let (length, word, intercept) = match fit {
            Some(Fit {
                length,
                slope,
                intercept,
            }) => (length, 2 * slope + 1, intercept + self.first as i32),
            None if stride == 0 => (length, 0, on),
            None => (
                length,
                2 * stride,
                on - u32::from(start).div_ceil(stride) as i32,
            ),
        };
        let record = Record {
            start,
            span: (rest[length - 1] - rest[0]) as u8,
            word: word as u16,
            intercept,
        };
        (length, record)
    }

    /// The longest approximate run of these places, if it is longer than `length`.
    #[inline(never)]
    fn longer_fit(&mut self, places: Range<usize>, length: usize) -> Option<Fit> {
        let Fitting { line_ends, choices } = self.fitting.get_or_insert_with(|| Fitting {
            line_ends: line_ends(self.written),
            choices: NO_CHOICES,
        });
        let ahead = Ahead {
            written: self.written,
            line_ends,
            place: places.start,
            end: places.end,
            bound: self.bound as i16,
        };
        ahead.longer_fit(length, choices)
    }
}

/// Writes the records of a batch, eight bytes each, to the front of `out` and
/// answers how many; see [`Learner`].
pub fn learn(written: &[u32], first: u32, bound: u32, out: &mut [u8]) -> usize {
    let (out, _) = out.as_chunks_mut::<RECORD_BYTES>();
    let mut learner = Learner::new(written, first, bound);
    let mut count = 0;
    for part in parts(written) {
        learner.learn(part, |run| {
            out[count] = run.record.to_bytes();
            count += 1;
        });
    }
    count
}

/// The places of a sorted batch, group by group.
#[inline]
pub fn parts(written: &[u32]) -> impl Iterator<Item = Range<usize>> + '_ {
    let mut end = 0;
    std::iter::from_fn(move || {
        let start = end;
        let group = group_of(*written.get(start)?);
        let is_in_group = |page: &u32| group_of(*page) == group;
        end = match written.last().is_some_and(is_in_group) {
            true => written.len(),
            false => start + written[start..].partition_point(is_in_group),
        };
        Some(start..end)
    })
}

/// How many logical pages the accurate run takes, and its stride: 0 for one
/// page alone.
#[inline]
fn accurate_run(rest: &[u32]) -> (usize, u32) {
    let &[first, second, ..] = rest else {
        return (1, 0);
    };
    let stride = second - first;
    let holds = |page, next| next - page == stride;
    let mut last = 1;
    while last + 1 < rest.len() && holds(rest[last], rest[last + 1]) {
        last += 1;
        if last == SHORT {
            last += holding(&rest[last..], holds);
            break;
        }
    }
    (last + 1, stride)
}

/// For each place of a batch but the first, the last place up to which the pages go
/// on with the stride from the place before it.
fn line_ends(written: &[u32]) -> [u8; 256] {
    let mut ends = [0; 256];
    let (mut end, mut stride) = (0, 0);
    for at in (1..written.len()).rev() {
        let here = written[at] - written[at - 1];
        end = if here == stride { end } else { at as u8 };
        stride = here;
        ends[at % 256] = end;
    }
    ends
}

#[cfg(test)]
mod tests {
    use std::collections::BTreeSet;

    use hedjosur_model::learn;
    use hedjosur_model::testing::{rounds, Random};

    /// Ascending logical pages, at most 256: anywhere, in clusters, or mostly with one
    /// stride.
    fn ascending(random: &mut Random) -> Vec<u32> {
        let length = random.pick(&[4, 16, 64, 256]);
        let length = random.between(1, length);
        let first = random.below(512);
        if random.once_in(3) {
            let below = length * random.between(1, 12);
            let pages: BTreeSet<u32> = (0..length).map(|_| first + random.below(below)).collect();
            return pages.into_iter().collect();
        }
        let (cluster, gap) = (random.between(1, 16), random.between(1, 9));
        let stride = random.between(1, 3);
        (0..length)
            .scan(first, |page, _| {
                let at = *page;
                *page += match random.once_in(cluster) {
                    true => random.between(1, gap),
                    false => stride,
                };
                Some(at)
            })
            .collect()
    }

    /// Each batch is learned with every error bound.
    #[test]
    fn learning_is_the_models() {
        let mut approximate = 0;
        rounds(300, &mut approximate, |random, log, approximate| {
            let written = ascending(random);
            let first = 256 * random.below(4096);
            log.note((first, &written));
            for bound in 0..=15 {
                let learned = learn::learn(bound, first, &written);
                let records: Vec<u8> = learned.iter().flat_map(|one| one.record.bytes()).collect();
                let mut out = vec![0; 8 * written.len()];
                let count = super::learn(&written, first, bound, &mut out);
                assert_eq!(out[..8 * count], records, "bound {bound}");
                let is_approximate = learned.iter().filter(|one| one.record.is_approximate());
                *approximate += is_approximate.count();
            }
        });
        assert!(approximate > 0, "no approximate record was learned");
    }
}
