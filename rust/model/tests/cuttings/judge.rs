//! The judge of one part of a batch, from document 01's section 'Learning a batch' and
//! without the model's learner: is it a run, accurate or approximate?

use std::ops::Range;

use hedjosur_model::device::{group_of, offset_of};
use hedjosur_model::record::{Kind, Record};

/// A sorted batch, the first of the consecutive pages that it is put on, and the bound
/// it is learned with.
#[derive(Clone, Debug)]
pub struct Batch {
    /// g.
    pub bound: u32,
    /// The page of the first logical page.
    pub first: u32,
    /// The logical pages, ascending.
    pub sorted: Vec<u32>,
}

/// A part of a batch: the places, from 0, of logical pages that follow each other.
pub type Part = Range<usize>;

impl Batch {
    /// All places.
    pub fn places(&self) -> Part {
        0..self.sorted.len()
    }

    /// The places of each group that the batch touches.
    pub fn groups(&self) -> Vec<Part> {
        let mut end = 0;
        let groups = self
            .sorted
            .chunk_by(|&one, &next| group_of(one) == group_of(next));
        let places = groups.map(|group| {
            end += group.len();
            end - group.len()..end
        });
        places.collect()
    }

    /// The offset of the logical page at a place.
    pub fn offset(&self, place: usize) -> i64 {
        offset_of(self.sorted[place]).into()
    }

    /// The page it is put on.
    pub fn page(&self, place: usize) -> i64 {
        i64::from(self.first) + place as i64
    }

    /// The pages that this flush wrote.
    pub fn written(&self) -> Range<i64> {
        self.page(0)..self.page(self.sorted.len())
    }

    /// Whether a part is a run of either kind; every slope is tried with every
    /// intercept that could matter.
    pub fn is_run(&self, part: &Part) -> bool {
        let intercepts = self.written().start - 255..self.written().end;
        let mut lines =
            (0..=256).flat_map(|slope| intercepts.clone().map(move |number| (slope, number)));
        self.is_accurate(part) || lines.any(|(slope, number)| self.suits(slope, number, part))
    }

    /// 'The accurate run goes on while the stride of its first two holds; one page alone
    /// is a single.'
    pub fn is_accurate(&self, part: &Part) -> bool {
        let pages = &self.sorted[part.clone()];
        let mut steps = pages.windows(2).map(|pair| pair[1] - pair[0]);
        self.in_one_group(part) && steps.all(|step| step == pages[1] - pages[0])
    }

    /// 'If g is at least 1, an approximate run of some slope a and intercept I needs
    /// every member's prediction within g of its page and on a page that this flush
    /// wrote.'
    pub fn suits(&self, slope: i64, intercept: i64, part: &Part) -> bool {
        let mut places = part.clone();
        self.bound >= 1
            && self.in_one_group(part)
            && places.all(|place| self.suits_member(slope, intercept, place))
    }

    /// The same for one member.
    pub fn suits_member(&self, slope: i64, intercept: i64, place: usize) -> bool {
        let predicted = self.predicted(slope, intercept, place);
        let distance = (predicted - self.page(place)).abs();
        distance <= self.bound.into() && self.written().contains(&predicted)
    }

    /// A member's prediction: I + (a × o / 256 rounded up).
    pub fn predicted(&self, slope: i64, intercept: i64, place: usize) -> i64 {
        intercept + (slope * self.offset(place) + 255) / 256
    }

    /// Whether a part is a run by this record's own word and intercept.
    pub fn is_run_of(&self, record: &Record, part: &Part) -> bool {
        let intercept = i64::from(record.intercept);
        match record.kind() {
            None => false,
            Some(Kind::Single) => part.len() == 1 && intercept == self.page(part.start),
            Some(Kind::Accurate { stride }) => {
                let stride = i64::from(stride);
                let predicted = |place| intercept + (self.offset(place) + stride - 1) / stride;
                let step = |place| self.offset(place + 1) - self.offset(place);
                self.in_one_group(part)
                    && (part.start..part.end - 1).all(|place| step(place) == stride)
                    && part
                        .clone()
                        .all(|place| predicted(place) == self.page(place))
            }
            Some(Kind::Approximate { slope }) => self.suits(slope.into(), intercept, part),
        }
    }

    fn in_one_group(&self, part: &Part) -> bool {
        let group = |place: usize| group_of(self.sorted[place]);
        part.clone().all(|place| group(place) == group(part.start))
    }
}

/// What document 01's cases say of learning.
#[test]
fn the_cases_of_document_01() {
    let is_run = |bound, sorted: &[u32]| {
        let (first, sorted) = (64, sorted.to_vec());
        let batch = Batch {
            bound,
            first,
            sorted,
        };
        batch.is_run(&batch.places())
    };
    assert!(is_run(0, &[100, 102, 104, 106]));
    assert!(is_run(1, &[0, 1, 4, 5]));
    assert!(!is_run(0, &[0, 1, 4, 5]));
    assert!(!is_run(15, &[255, 256]));
}
