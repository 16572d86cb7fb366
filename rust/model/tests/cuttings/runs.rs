//! All runs of a batch, and the shortest of all its cuttings into runs: 'no other cutting
//! of a sorted batch into runs [...] has fewer records'.

use hedjosur_model::testing::rounds;

use crate::batches::small_batch;
use crate::judge::{Batch, Part};

/// Which parts of a batch are runs, by the judge.
#[derive(Debug)]
pub struct Runs {
    /// For each place whether a run from there ends before another place.
    ends: Vec<Vec<bool>>,
}

impl Runs {
    /// All runs of a batch.
    pub fn of(batch: &Batch) -> Runs {
        let ends_from = |from, last| {
            let approximate = from + longest_approximate(batch, &(from..last));
            let is_run = |end| end <= approximate || batch.is_accurate(&(from..end));
            let inside = from + 1..=last;
            let ends = 0..=batch.sorted.len();
            ends.map(|end| inside.contains(&end) && is_run(end))
                .collect()
        };
        let groups = batch.groups().into_iter();
        let ends =
            groups.flat_map(|group| group.clone().map(move |from| ends_from(from, group.end)));
        Runs {
            ends: ends.collect(),
        }
    }

    /// Whether a part is a run.
    pub fn has(&self, part: &Part) -> bool {
        self.ends[part.start][part.end]
    }

    /// The least number of runs that a part can be cut into: for each place in turn, that
    /// of what is before it, through every run that could be the last.
    pub fn least(&self, part: &Part) -> usize {
        let mut least = vec![0];
        for end in part.start + 1..=part.end {
            let last_runs = (part.start..end).filter(|&from| self.has(&(from..end)));
            let fewest = last_runs.map(|from| least[from - part.start] + 1).min();
            least.push(fewest.expect("one page alone is a run"));
        }
        least[part.len()]
    }

    /// Every cutting into runs, out of all cuttings.
    pub fn cuttings(&self) -> impl Iterator<Item = Vec<Part>> + '_ {
        let all_runs = |cutting: &Vec<Part>| cutting.iter().all(|part| self.has(part));
        cuttings(self.ends.len()).filter(all_runs)
    }
}

/// How many pages the longest approximate run from the left of a part of one group has:
/// for each slope it goes on while an intercept is left that suits all members. One that
/// suits the first puts its prediction within g of its page.
fn longest_approximate(batch: &Batch, part: &Part) -> usize {
    if batch.bound == 0 {
        return 0;
    }
    let bound = i64::from(batch.bound);
    let (from, page) = (part.start, batch.page(part.start));
    let lengths = (0..=256).map(|slope| {
        let rise = batch.predicted(slope, 0, from);
        let mut intercepts = Vec::from_iter(page - bound - rise..=page + bound - rise);
        let goes_on = |&place: &usize| {
            intercepts.retain(|&number| batch.suits_member(slope, number, place));
            !intercepts.is_empty()
        };
        part.clone().take_while(goes_on).count()
    });
    lengths.max().expect("a slope")
}

/// Every cutting of so many places, at least one: a bit for each but the last says whether
/// it is cut from the next.
fn cuttings(places: usize) -> impl Iterator<Item = Vec<Part>> {
    (0..1u32 << (places - 1)).map(move |bits| {
        let cut_before = (1..places).filter(|place| bits >> (place - 1) & 1 == 1);
        let mut starts = Vec::from_iter(cut_before);
        starts.insert(0, 0);
        starts.push(places);
        starts.windows(2).map(|ends| ends[0]..ends[1]).collect()
    })
}

/// The literal judge, who tries every slope with every intercept, says the same.
#[test]
fn both_judges_say_the_same() {
    let mut said = [0, 0];
    rounds(2000, &mut said, |random, log, said| {
        let batch = small_batch(random);
        log.note(&batch);
        let runs = Runs::of(&batch);
        for from in batch.places() {
            for end in from + 1..=batch.sorted.len() {
                let is_run = batch.is_run(&(from..end));
                assert_eq!(runs.has(&(from..end)), is_run, "{from} to {end}");
                said[usize::from(is_run)] += 1;
            }
        }
    });
    assert!(said[0] > 0, "every part was a run");
    assert!(said[1] > 0, "no part was a run");
}
