//! Discards on marks that hold anything.

use hedjosur_layout::{groups_at, marks_at, state_bytes};
use hedjosur_model::device::Device;
use hedjosur_model::ops::Lookup;
use hedjosur_model::testing::{batch, lists, multiplier, rounds, small_device};

use crate::answers::Answers;
use crate::arguments::uneven_device;
use crate::beside::Beside;
use crate::calls::Calls;
use crate::steps::Writer;

/// Calls on marks that hold anything: a discard sets one bit, a flush clears those of
/// what it writes, and every other bit stays, the bits behind the last mark too. A
/// format clears them all.
pub fn check_marks(calls: &impl Calls) {
    let mut counts = (Answers::default(), 0);
    rounds(60, &mut counts, |random, log, (answers, ignored)| {
        let device = match random.once_in(2) {
            true => uneven_device(random),
            false => small_device(random),
        };
        let beside = &mut Beside::new(calls, log, answers);
        let area = vec![0; device.spare_length()];
        beside.lend(vec![0; state_bytes(&device)], area);
        assert_eq!(beside.format(device.numbers()), Ok(()));
        let (mut bytes, area) = beside.lent();
        let marked = &mut bytes[marks_at(&device)..groups_at(&device)];
        marked.fill_with(|| random.bits() as u8);
        beside.lend(bytes, area);
        for _ in 0..20 {
            let mut expected = marks(beside, &device);
            *ignored += (device.logical_pages as usize..expected.len())
                .filter(|&behind| expected[behind])
                .count();
            let [mut plan, mut erased] = lists(&device);
            let logical_page = random.below(device.logical_pages);
            match random.below(4) {
                0 => {
                    assert_eq!(beside.discard(logical_page), Ok(()));
                    expected[logical_page as usize] = true;
                    let discarded = Lookup::NotWritten { levels: 0 };
                    assert_eq!(beside.explain(logical_page).lookup, Ok(discarded));
                }
                1 => {
                    let batch = batch(random, &device);
                    if beside.flush(&batch, &mut plan).is_ok() {
                        batch.iter().for_each(|&one| expected[one as usize] = false);
                    }
                }
                2 => drop(beside.collect(&mut plan, &mut erased)),
                _ => assert!(beside.compact(logical_page / 256).is_ok()),
            }
            assert_eq!(marks(beside, &device), expected);
        }
        assert_eq!(beside.format(device.numbers()), Ok(()));
        assert!(!marks(beside, &device).contains(&true));
    });
    let (answers, ignored) = counts;
    assert!(ignored > 0, "no bit behind the last mark was set");
    answers.tell("marks", 1300 * multiplier() as usize);
}

/// The bits of a device's marks, lowest first, with those behind the last one.
fn marks<C: Calls>(beside: &Beside<C>, device: &Device) -> Vec<bool> {
    let (bytes, _) = beside.lent();
    let bits = 8 * marks_at(device)..8 * groups_at(device);
    bits.map(|bit| bytes[bit / 8] >> (bit % 8) & 1 == 1)
        .collect()
}
