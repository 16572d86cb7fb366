//! What a memory budget is drawn up from (document 02, i): the records learned from what
//! one flush or collection writes, and their number that can be told without learning.

use hedjosur_baseline::learn::{parts, Learner};
use hedjosur_model::device::group_of;

/// How many stride runs ascending logical pages have, taken from the left: one begins
/// where the group changes or the step is not that of the run's first two pages. At bound
/// 0 so many records are learned, at a larger bound at most so many.
///
/// ```
/// use hedjosur_simulate::budget::stride_runs;
///
/// assert_eq!(stride_runs(&[0, 10, 11, 12, 13, 15, 17, 19]), 3);
/// ```
pub fn stride_runs(written: &[u32]) -> u64 {
    let (mut runs, mut last, mut stride) = (0, None, None);
    for &page in written {
        let step = last
            .filter(|&last| group_of(last) == group_of(page))
            .map(|last| page - last);
        if step.is_some() && (stride.is_none() || stride == step) {
            stride = step;
        } else {
            runs += 1;
            stride = None;
        }
        last = Some(page);
    }
    runs
}

/// How many records are learned from ascending logical pages, at most 256, that are
/// written from page `first` on.
pub fn records_learned(written: &[u32], first: u32, bound: u32) -> u64 {
    let mut learner = Learner::new(written, first, bound);
    let mut records = 0;
    for part in parts(written) {
        learner.learn(part, |_| records += 1);
    }
    records
}

#[cfg(test)]
mod tests {
    use super::*;

    #[test]
    fn stride_runs_begin_where_the_step_or_the_group_changes() {
        let none: &[u32] = &[];
        for (written, runs) in [
            (none, 0),
            (&[7], 1),
            (&[100, 102, 104, 106], 1),
            (&[0, 1, 4, 5], 2),
            (&[0, 1, 5, 9], 2),
            (&[0, 1, 5, 6, 7], 2),
            (&[254, 255, 256, 257], 2),
            (&[255, 256], 2),
        ] {
            assert_eq!(stride_runs(written), runs, "{written:?}");
            assert_eq!(records_learned(written, 64, 0), runs, "{written:?}");
        }
        assert_eq!(records_learned(&[0, 1, 4, 5], 64, 1), 1);
    }
}
