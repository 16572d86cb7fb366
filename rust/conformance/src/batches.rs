//! Sorting and learning against the model.

use hedjosur_model::learn::{last_arrivals, learn};
use hedjosur_model::testing::{rounds, small_device};

use crate::inputs::{any_batch, large_device};
use crate::subjects::Subject;

/// Sorting gives the logical pages and last arrivals of the model, and what
/// stands behind them stays.
pub fn check_sorting(subject: &impl Subject) {
    let mut repeats = 0;
    rounds(6000, &mut repeats, |random, log, repeats| {
        let device = match random.once_in(4) {
            true => small_device(random),
            false => large_device(random),
        };
        let batch = any_batch(random, &device);
        log.note(&batch);
        let kept = last_arrivals(&batch);
        let room = batch.len() + random.below(3) as usize;
        let (mut pages, mut sources) = (vec![777_777; room], vec![888_888; room]);
        let expected = (
            front_of(&pages, kept.keys().copied()),
            front_of(&sources, kept.values().copied()),
        );
        let count = subject.sort(&batch, &mut pages, &mut sources);
        assert_eq!(count, kept.len());
        assert_eq!((pages, sources), expected);
        *repeats += batch.len() - count;
    });
    assert!(repeats > 0, "no batch had repeats");
}

/// Learning gives the records of the model, and what stands behind them stays.
pub fn check_learning(subject: &impl Subject) {
    let mut approximate = 0;
    rounds(6000, &mut approximate, |random, log, approximate| {
        let device = match random.once_in(3) {
            true => small_device(random),
            false => large_device(random),
        };
        let written: Vec<u32> = last_arrivals(&any_batch(random, &device))
            .into_keys()
            .collect();
        let block = random.below(device.blocks);
        let first = device.pages_of_block(block).start;
        log.note((device.bound, first, &written));
        let learned = learn(device.bound, first, &written);
        let room = 8 * (written.len() + random.below(2) as usize);
        let mut out = vec![0xA5; room];
        let records = learned.iter().flat_map(|one| one.record.bytes());
        let expected = front_of(&out, records);
        let count = subject.learn(&written, first, device.bound, &mut out);
        assert_eq!(count, learned.len());
        assert_eq!(out, expected);
        let is_approximate = learned.iter().filter(|one| one.record.is_approximate());
        *approximate += is_approximate.count();
    });
    assert!(approximate > 0, "no approximate record was learned");
}

/// A list with other items at its front.
fn front_of<T: Clone>(list: &[T], front: impl Iterator<Item = T>) -> Vec<T> {
    let mut items: Vec<T> = front.collect();
    items.extend_from_slice(&list[items.len()..]);
    items
}
