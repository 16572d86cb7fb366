//! The cuttings of a flush into runs: the one that is learned, others with as few records,
//! and how many there are into how many records.
//!
//! A cutting takes the sorted logical pages apart into consecutive parts and leaves none
//! out. Each part is a run: it lies in one group, and is accurate or, with a bound of at
//! least 1, approximate. A run without its last page is a run, so a part is one exactly if
//! it is at most as long as the longest run from its first place, which is the one that is
//! learned there.

use std::fmt::{self, Display, Formatter};
use std::ops::Range;

use hedjosur_baseline::learn::{parts, Learner, Run};
use hedjosur_model::record::Kind;

use crate::replay::Flush;
use crate::words::counted;

/// How many others with as few records are told.
const OTHERS: usize = 5;
/// How many numbers of cuttings are told before some are left out.
const COUNTS: usize = 6;

/// Places of a flush's sorted logical pages, from 0.
pub type Part = Range<usize>;

/// Runs that follow each other from the first place to the last.
pub type Cutting = Vec<Part>;

/// The cuttings of a flush. They are displayed as lines for a person.
#[derive(Clone, Debug)]
pub struct Cuttings<'a> {
    flush: &'a Flush,
    learned: Cutting,
    /// For each number of records, from 0, and each place: how many ways there are to cut
    /// what lies from there on into so many.
    ways: Vec<Vec<u64>>,
}

impl<'a> Cuttings<'a> {
    /// The cuttings of a flush of a script, which has at most 64 pages.
    pub fn of(flush: &'a Flush) -> Cuttings<'a> {
        let learned = parts(&flush.sorted).flat_map(|group| runs(flush, group));
        let place = |run: &Run| usize::from(run.place);
        Cuttings {
            flush,
            learned: learned
                .map(|run| place(&run)..place(&run) + usize::from(run.length))
                .collect(),
            ways: ways(&reaches(flush)),
        }
    }

    /// The flush.
    pub fn flush(&self) -> &Flush {
        self.flush
    }

    /// The cutting that is learned.
    pub fn learned(&self) -> &[Part] {
        &self.learned
    }

    /// How many cuttings there are into so many records, at most one for each page.
    pub fn count(&self, records: usize) -> u64 {
        self.ways[records][0]
    }

    /// The first few other cuttings into as many records as are learned: the earlier
    /// a cutting's first run ends, the earlier it comes, then its second, and so on.
    pub fn others(&self) -> Vec<Cutting> {
        let records = self.learned.len();
        (0..self.count(records))
            .map(|rank| self.ranked(records, rank))
            .filter(|cutting| *cutting != self.learned)
            .take(OTHERS)
            .collect()
    }

    /// How many such cuttings there are besides.
    pub fn more(&self) -> u64 {
        let others = self.count(self.learned.len()) - 1;
        others.saturating_sub(OTHERS as u64)
    }

    /// The cutting into so many records that has so many before it.
    fn ranked(&self, records: usize, mut rank: u64) -> Cutting {
        let mut end = 0;
        let parts = self.ways[..records].iter().rev().map(|behind| {
            let from = end;
            end += 1;
            while rank >= behind[end] {
                rank -= behind[end];
                end += 1;
            }
            from..end
        });
        parts.collect()
    }

    /// The kind of the record of a run.
    pub fn kind(&self, part: &Part) -> Kind {
        let word = first_run(self.flush, part.clone()).record.word;
        Kind::of(word).expect("a learned record has a kind")
    }

    /// The places at which a group begins, but for the first.
    pub fn edges(&self) -> Vec<usize> {
        let groups = parts(&self.flush.sorted);
        groups.skip(1).map(|group| group.start).collect()
    }

    /// What is cut, in words.
    pub fn heading(&self) -> String {
        let Flush {
            line,
            sorted,
            first,
            bound,
        } = self.flush;
        let pages = counted(sorted.len(), "page");
        let groups = match self.edges().len() + 1 {
            1 => String::new(),
            groups => format!(", in {groups} groups"),
        };
        format!("last flush (line {line}): {pages} from page {first} on, bound {bound}{groups}")
    }

    /// The logical pages of a part.
    pub fn pages(&self, part: &Part) -> String {
        let pages = self.flush.sorted[part.clone()].iter();
        Vec::from_iter(pages.map(u32::to_string)).join(" ")
    }

    /// A cutting in words: its logical pages with a bar between two runs, and two bars
    /// between two groups.
    fn in_words(&self, cutting: &[Part]) -> String {
        let edges = self.edges();
        let parts = cutting.iter().map(|part| {
            let bar = match part.start {
                0 => "",
                place if edges.contains(&place) => " || ",
                _ => " | ",
            };
            bar.to_string() + &self.pages(part)
        });
        parts.collect()
    }

    /// How many others with as few records are not told, in words; none where all are.
    pub fn rest(&self) -> Option<String> {
        match (self.count(self.learned.len()), self.more()) {
            (1, _) => Some("no other".to_string()),
            (_, 0) => None,
            (_, more) => Some(format!("{more} more")),
        }
    }

    /// How many cuttings there are into as many records as are learned and into more, in
    /// words.
    pub fn counts(&self) -> String {
        let least = self.learned.len();
        let mut counts: Vec<String> = (least..self.ways.len())
            .map(|records| {
                let records_in_words = match records == least {
                    true => counted(records, "record"),
                    false => records.to_string(),
                };
                format!("into {records_in_words}: {}", self.count(records))
            })
            .collect();
        if counts.len() > COUNTS + 1 {
            counts.splice(COUNTS..counts.len() - 1, ["..".to_string()]);
        }
        format!("cuttings {}", counts.join(", "))
    }

    /// How many cuttings there are into fewer records than are learned, in words.
    pub fn fewer(&self) -> String {
        let fewer = (0..self.learned.len()).map(|records| self.count(records));
        match fewer.sum() {
            0 => "into fewer: none".to_string(),
            fewer => format!("into fewer: {fewer}"),
        }
    }
}

/// The runs that are learned from a part of one group.
fn runs(flush: &Flush, part: Part) -> Vec<Run> {
    let mut runs = Vec::new();
    Learner::new(&flush.sorted, flush.first, flush.bound).learn(part, |run| runs.push(run));
    runs
}

/// The first of them: the longest run from the part's first place that lies in the part.
fn first_run(flush: &Flush, part: Part) -> Run {
    runs(flush, part)[0]
}

/// For each place, where the longest run from it ends.
fn reaches(flush: &Flush) -> Vec<usize> {
    let reaches = parts(&flush.sorted).flat_map(|group| {
        let reach = move |from| from + usize::from(first_run(flush, from..group.end).length);
        group.clone().map(reach)
    });
    reaches.collect()
}

/// See [`Cuttings::ways`].
fn ways(reaches: &[usize]) -> Vec<Vec<u64>> {
    let places = reaches.len();
    let mut ways = vec![vec![0; places + 1]; places + 1];
    ways[0][places] = 1;
    for records in 1..=places {
        for (from, &reach) in reaches.iter().enumerate() {
            ways[records][from] = ways[records - 1][from + 1..=reach].iter().sum();
        }
    }
    ways
}

impl Display for Cuttings<'_> {
    fn fmt(&self, out: &mut Formatter) -> fmt::Result {
        writeln!(out, "{}", self.heading())?;
        writeln!(out, "learned: {}", self.in_words(&self.learned))?;
        let others = self.others();
        let others = others.iter().map(|other| self.in_words(other));
        for other in others.chain(self.rest()) {
            writeln!(out, "as few:  {other}")?;
        }
        writeln!(out, "{}", self.counts())?;
        writeln!(out, "{}", self.fewer())
    }
}

#[cfg(test)]
mod tests {
    use hedjosur_model::device::{group_of, offset_of};
    use hedjosur_model::learn::learn;
    use hedjosur_model::testing::{full_device, sorted_batch, Random};

    use super::*;

    fn flush(sorted: &[u32], bound: u32) -> Flush {
        Flush {
            line: 2,
            sorted: sorted.to_vec(),
            first: 0,
            bound,
        }
    }

    /// A random flush of at most so many pages, at bounds 0 to 4, in several groups now
    /// and then.
    fn any_flush(random: &mut Random, most: u32) -> Flush {
        let device = full_device(2 * 300 / most + 2, most, random.below(5));
        Flush {
            first: most * random.below(device.blocks),
            ..flush(&sorted_batch(random, &device), device.bound)
        }
    }

    /// Whether a part is a run, by document 01's words: an intercept that suits the first
    /// member predicts it within the bound.
    fn is_run(flush: &Flush, part: &Part) -> bool {
        let pages = &flush.sorted[part.clone()];
        let one_group = pages
            .iter()
            .all(|&page| group_of(page) == group_of(pages[0]));
        let one_stride = pages
            .windows(3)
            .all(|three| three[1] - three[0] == three[2] - three[1]);
        let [first, bound] = [flush.first, flush.bound].map(i64::from);
        let written = first..first + flush.sorted.len() as i64;
        let rise = |slope, page| Kind::Approximate { slope }.rise(offset_of(page));
        let suits = |slope: u16, intercept: i64| {
            let places = (first + part.start as i64..).zip(pages);
            places.into_iter().all(|(on, &page)| {
                let predicted = intercept + rise(slope, page);
                written.contains(&predicted) && (predicted - on).abs() <= bound
            })
        };
        let approximate = |slope| {
            let exact = first + part.start as i64 - rise(slope, pages[0]);
            (exact - bound..=exact + bound).any(|intercept| suits(slope, intercept))
        };
        one_group && (one_stride || bound > 0 && (0..=256).any(approximate))
    }

    /// All cuttings into runs, out of every cutting; the earlier runs end, the earlier it
    /// comes.
    fn enumerated(flush: &Flush) -> Vec<Cutting> {
        let places = flush.sorted.len();
        let mut cuttings: Vec<Cutting> = (0..1u32 << (places - 1))
            .map(|bits| {
                let cuts = (1..places).filter(|place| bits >> (place - 1) & 1 == 1);
                let ends = Vec::from_iter([0].into_iter().chain(cuts).chain([places]));
                ends.windows(2).map(|pair| pair[0]..pair[1]).collect()
            })
            .collect();
        let mut judged = vec![vec![None; places + 1]; places];
        cuttings.retain(|cutting: &Cutting| {
            cutting.iter().all(|part| {
                *judged[part.start][part.end].get_or_insert_with(|| is_run(flush, part))
            })
        });
        cuttings.sort_by_key(|cutting| Vec::from_iter(cutting.iter().map(|part| part.end)));
        cuttings
    }

    #[test]
    fn counts_and_others_by_a_plain_enumeration() {
        let mut random = Random::new(30);
        for _ in 0..150 {
            let flush = any_flush(&mut random, 10);
            let (cuttings, all) = (Cuttings::of(&flush), enumerated(&flush));
            for records in 0..=flush.sorted.len() {
                let counted = all.iter().filter(|one| one.len() == records).count();
                assert_eq!(cuttings.count(records), counted as u64, "{flush:?}");
            }
            let learned = cuttings.learned();
            assert_eq!(
                all.iter().map(Vec::len).min(),
                Some(learned.len()),
                "{flush:?}"
            );
            let is_other = |one: &&Cutting| one.len() == learned.len() && **one != learned;
            let others: Vec<&Cutting> = all.iter().filter(is_other).collect();
            let told = cuttings.others();
            assert_eq!(Vec::from_iter(&told), others[..others.len().min(OTHERS)]);
            assert_eq!(cuttings.more(), (others.len() - told.len()) as u64);
        }
    }

    /// The model's records have as many members, one after the other; no cutting has
    /// fewer; and no record of another reaches farther than the learned one of its number.
    #[test]
    fn the_learned_cutting() {
        let mut random = Random::new(31);
        let mut groups = 0;
        for _ in 0..500 {
            let flush = any_flush(&mut random, 64);
            let cuttings = Cuttings::of(&flush);
            let members: Vec<usize> = learn(flush.bound, flush.first, &flush.sorted)
                .iter()
                .map(|learned| learned.record.members().len())
                .collect();
            let lengths = cuttings.learned().iter().map(Part::len);
            assert_eq!(Vec::from_iter(lengths), members, "{flush:?}");
            assert!(
                cuttings.to_string().ends_with("\ninto fewer: none\n"),
                "{flush:?}"
            );
            for other in cuttings.others() {
                let mut pairs = other.iter().zip(cuttings.learned());
                assert!(
                    pairs.all(|(one, learned)| one.end <= learned.end),
                    "{flush:?}"
                );
            }
            groups += cuttings.edges().len();
        }
        assert!(groups > 0, "no flush had several groups");
    }

    #[test]
    fn kinds() {
        let mut random = Random::new(32);
        for _ in 0..200 {
            let flush = any_flush(&mut random, 64);
            let cuttings = Cuttings::of(&flush);
            for part in cuttings.others().iter().flatten() {
                let pages = &flush.sorted[part.clone()];
                let mut strides = pages.windows(2).map(|pair| pair[1] - pair[0]);
                let kind = cuttings.kind(part);
                match kind {
                    Kind::Single => assert_eq!(pages.len(), 1),
                    Kind::Accurate { stride } => {
                        assert!(strides.all(|one| one == u32::from(stride)));
                    }
                    Kind::Approximate { .. } => {
                        assert!(strides.any(|one| one != pages[1] - pages[0]));
                    }
                }
            }
        }
    }

    #[test]
    fn in_words() {
        let told = |sorted: &[u32], bound| Cuttings::of(&flush(sorted, bound)).to_string();
        assert_eq!(
            told(&[0, 10, 11, 12, 13, 15, 17, 19], 0),
            "last flush (line 2): 8 pages from page 0 on, bound 0\n\
             learned: 0 10 | 11 12 13 | 15 17 19\n\
             as few:  0 | 10 11 12 | 13 15 17 19\n\
             as few:  0 | 10 11 12 13 | 15 17 19\n\
             as few:  0 10 | 11 12 | 13 15 17 19\n\
             cuttings into 3 records: 4, into 4: 16, into 5: 25, into 6: 19, into 7: 7, into 8: 1\n\
             into fewer: none\n"
        );
        assert_eq!(
            told(&[0, 1, 3, 6, 10, 15, 21, 28], 0),
            "last flush (line 2): 8 pages from page 0 on, bound 0\n\
             learned: 0 1 | 3 6 | 10 15 | 21 28\n\
             as few:  no other\n\
             cuttings into 4 records: 1, into 5: 10, into 6: 15, into 7: 7, into 8: 1\n\
             into fewer: none\n"
        );
        assert_eq!(
            told(&[254, 255, 256, 257, 258, 260], 0),
            "last flush (line 2): 6 pages from page 0 on, bound 0, in 2 groups\n\
             learned: 254 255 || 256 257 258 | 260\n\
             as few:  254 255 || 256 257 | 258 260\n\
             cuttings into 3 records: 2, into 4: 5, into 5: 4, into 6: 1\n\
             into fewer: none\n"
        );
        assert_eq!(
            told(&[7], 3),
            "last flush (line 2): 1 page from page 0 on, bound 3\n\
             learned: 7\n\
             as few:  no other\n\
             cuttings into 1 record: 1\n\
             into fewer: none\n"
        );
    }

    /// More than five others, and more numbers than are told.
    #[test]
    fn what_is_left_out() {
        let pages: Vec<u32> = (0..9).chain([20]).collect();
        assert_eq!(
            Cuttings::of(&flush(&pages, 0)).to_string(),
            "last flush (line 2): 10 pages from page 0 on, bound 0\n\
             learned: 0 1 2 3 4 5 6 7 8 | 20\n\
             as few:  0 1 2 3 4 5 6 7 | 8 20\n\
             cuttings into 2 records: 2, into 3: 15, into 4: 49, into 5: 91, into 6: 105, \
             into 7: 77, .., into 10: 1\n\
             into fewer: none\n"
        );
        let approximate = flush(&[0, 1, 4, 5, 6, 30, 31, 33, 36, 40, 41, 90], 1);
        let words = Cuttings::of(&approximate).to_string();
        assert_eq!(words.matches("as few:  0").count(), OTHERS);
        assert!(
            words.contains("\nas few:  11 more\ncuttings into 3 records: 17, "),
            "{words}"
        );
    }

    /// A script's longest flush, all of one stride, can be cut in 2^63 ways.
    #[test]
    fn the_longest_flush() {
        let pages: Vec<u32> = (0..64).collect();
        let flush = flush(&pages, 0);
        let cuttings = Cuttings::of(&flush);
        let all: u64 = (0..=64).map(|records| cuttings.count(records)).sum();
        assert_eq!(all, 1 << 63);
    }
}
