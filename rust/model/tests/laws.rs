//! Laws of the levels, on arbitrary sound groups, and of learning, on arbitrary
//! sorted batches.

use std::collections::{BTreeMap, BTreeSet};
use std::ops::Range;

use hedjosur_model::device::{group_of, offset_of, Device};
use hedjosur_model::learn::{learn, Learned};
use hedjosur_model::levels::Group;
use hedjosur_model::record::{Kind, Record};
use hedjosur_model::sound::group_is_sound;
use hedjosur_model::spare;
use hedjosur_model::testing::{
    any_record, full_device, last_offset, rounds, small_device, sorted_batch, sound_group, Random,
    SPOILERS,
};

/// The word and intercept met first at each offset.
fn met_first(group: &Group) -> BTreeMap<u8, (u16, i32)> {
    (0..=255)
        .filter_map(|offset| {
            let (_, record) = group.first_with(offset)?;
            Some((offset, (record.word, record.intercept)))
        })
        .collect()
}

/// [`met_first`] with a record's members put on top.
fn overlaid(mut met: BTreeMap<u8, (u16, i32)>, record: &Record) -> BTreeMap<u8, (u16, i32)> {
    let members = record.members().into_iter();
    met.extend(members.map(|offset| (offset, (record.word, record.intercept))));
    met
}

/// A device of one whole group, or of a few offsets only.
fn any_device(random: &mut Random) -> Device {
    match random.once_in(2) {
        true => full_device(9, 64, random.below(16)),
        false => small_device(random),
    }
}

/// Any sound group of the device.
fn any_group(random: &mut Random, device: &Device) -> Group {
    let group = sound_group(random, last_offset(device, 0));
    assert!(group_is_sound(device, 0, &group));
    group
}

#[test]
fn insertion_changes_what_is_met_at_its_members_alone() {
    rounds(4000, &mut (), |random, log, ()| {
        let device = any_device(random);
        let mut group = any_group(random, &device);
        let last = last_offset(&device, 0);
        for _ in 0..4 {
            let start = random.between(0, last.into()) as u8;
            let new = any_record(random, start, last, &(0..=last).collect());
            log.note((&group, &new));
            if group.size() == 512 {
                break;
            }
            let before = group.clone();
            group.insert(new.clone());
            assert_eq!(met_first(&group), overlaid(met_first(&before), &new));
            assert!(group.size() <= before.size() + 1);
            assert!(group_is_sound(&device, 0, &group));
        }
    });
}

#[test]
fn compaction_changes_what_is_met_nowhere() {
    rounds(3000, &mut (), |random, log, ()| {
        let device = any_device(random);
        let before = any_group(random, &device);
        log.note(&before);
        let mut group = before.clone();
        group.compact();
        assert_eq!(met_first(&group), met_first(&before));
        assert!(group_is_sound(&device, 0, &group));
        assert!(group.size() <= before.size().min(256));
        // Each record left has a first member of its own, and a second
        // compaction finds nothing to do.
        let starts: BTreeSet<u8> = group.records().map(|record| record.start).collect();
        assert_eq!(starts.len(), group.size());
        let once = group.clone();
        group.compact();
        assert_eq!(group, once);
    });
}

#[test]
fn no_batch_fails_for_want_of_records() {
    let mut crowded = 0;
    rounds(400, &mut crowded, |random, log, crowded| {
        let device = full_device(5, 256, random.below(3));
        let before = any_group(random, &device);
        let sorted: Vec<u32> = (0..256).filter(|_| random.once_in(2)).collect();
        log.note((&before, &sorted));
        let batch: Vec<Record> = learn(device.bound, 0, &sorted)
            .into_iter()
            .map(|one| one.record)
            .collect();
        *crowded += u32::from(before.size() + batch.len() > 512);
        let mut group = before.clone();
        group.take(batch.clone());
        assert!(group_is_sound(&device, 0, &group));
        assert_eq!(
            met_first(&group),
            batch.iter().fold(met_first(&before), overlaid)
        );
    });
    assert!(crowded > 0, "no group had to be compacted");
}

#[test]
fn every_spoiler_breaks_soundness() {
    rounds(200, &mut (), |random, log, ()| {
        let device = any_device(random);
        let last = last_offset(&device, 0);
        for spoiler in SPOILERS {
            let mut group = any_group(random, &device);
            (spoiler.spoil)(&mut group, last);
            log.note(spoiler.clause);
            assert!(!group_is_sound(&device, 0, &group));
        }
    });
}

/// A device and a sorted batch for it, over one group or two.
fn placed_batch(random: &mut Random) -> (Device, u32, Vec<u32>) {
    let bound = random.pick(&[0, 1, 1, 2, 3, 7, 15]);
    let device = match random.below(3) {
        0 => full_device(17, 64, bound),
        1 => full_device(4, 256, bound),
        _ => Device {
            bound,
            ..small_device(random)
        },
    };
    let block = random.below(device.blocks);
    let sorted = sorted_batch(random, &device);
    (device, block, sorted)
}

/// A device of one whole group, and four logical pages anywhere in it.
fn four_pages(random: &mut Random) -> (Device, u32, Vec<u32>) {
    let device = full_device(9, 64, random.pick(&[1, 1, 2, 4]));
    let block = random.below(device.blocks);
    let mut pages: Vec<u32> = (0..device.logical_pages).collect();
    random.shuffle(&mut pages);
    pages.truncate(4);
    pages.sort();
    (device, block, pages)
}

/// Demand 2: 'reading those records with the spare area gives back exactly the
/// batch's logical pages, each with its page'.
#[test]
fn records_and_spare_entries_give_back_the_batch() {
    rounds(1500, &mut (), |random, log, ()| {
        let (device, block, sorted) = placed_batch(random);
        log.note((device, block, &sorted));
        let first = device.pages_of_block(block).start;
        let mut area = vec![0; device.spare_length()];
        spare::write(&device, &mut area, block, &sorted);
        let mut read = Vec::new();
        for Learned { group, record } in learn(device.bound, first, &sorted) {
            for offset in record.members() {
                let logical_page = 256 * group as u32 + u32::from(offset);
                let predicted = record.predicted(offset).expect("a tabled word");
                let predicted = spare::existing(&device, predicted).expect("a page");
                read.push((
                    logical_page,
                    spare::find(&device, &area, predicted, logical_page),
                ));
            }
        }
        let put = sorted
            .iter()
            .zip(first..)
            .map(|(&page, at)| (page, Some(at)));
        assert_eq!(read, Vec::from_iter(put));
        // The block's other pages name nobody.
        for page in device.pages_of_block(block).skip(sorted.len()) {
            let named = spare::entries(&device, &area, page);
            assert!(named.iter().all(|&entry| entry == spare::NOBODY));
        }
    });
}

/// How many predictions of an approximate run are wrong, its a and its I: among
/// the longest runs the least is taken.
type Fit = (usize, u16, i32);

/// The approximate runs of these offsets with their pages, by trial: every slope
/// with every intercept that could matter.
fn fits(bound: u32, written: &Range<i64>, run: &[(u8, i64)]) -> Vec<Fit> {
    let mut fits = Vec::new();
    for slope in 0..=256 {
        for intercept in written.start - 256..written.end {
            let rise = |offset: u8| (slope * i64::from(offset) + 255).div_euclid(256);
            let predicted = |offset| intercept + rise(offset);
            let suits = run.iter().all(|&(offset, on)| {
                let within = (predicted(offset) - on).abs() <= i64::from(bound);
                within && written.contains(&predicted(offset))
            });
            if suits {
                let wrong = run.iter().filter(|&&(offset, on)| predicted(offset) != on);
                fits.push((wrong.count(), slope as u16, intercept as i32));
            }
        }
    }
    fits
}

/// The greedy rule by trial, for ever shorter runs.
fn learned_by_trial(bound: u32, first: u32, sorted: &[u32]) -> Vec<(usize, u8, u8, u16, i32)> {
    let written = i64::from(first)..i64::from(first) + sorted.len() as i64;
    let mut learned = Vec::new();
    let mut at = 0;
    while at < sorted.len() {
        let group = group_of(sorted[at]);
        let rest: Vec<(u8, i64)> = sorted[at..]
            .iter()
            .zip(written.start + at as i64..)
            .filter(|(&page, _)| group_of(page) == group)
            .map(|(&page, on)| (offset_of(page), on))
            .collect();
        let start = rest[0].0;
        // The longest prefix whose neighbours all have the first distance.
        let accurate = (1..=rest.len())
            .rev()
            .find(|&length| (2..length).all(|i| rest[i].0 - rest[i - 1].0 == rest[1].0 - rest[0].0))
            .expect("one page alone is a run");
        let mut longer = (accurate + 1..=rest.len()).rev().filter(|_| bound >= 1);
        let approximate = longer.find_map(|length| {
            let fits = fits(bound, &written, &rest[..length]);
            let (_, slope, intercept) = fits.into_iter().min()?;
            Some((length, 2 * slope + 1, intercept))
        });
        let (length, word, intercept) = approximate.unwrap_or_else(|| {
            let stride = rest.get(1).map_or(0, |second| second.0 - start);
            let rise = if stride == 0 {
                0
            } else {
                start.div_ceil(stride)
            };
            let intercept = rest[0].1 - i64::from(rise);
            (accurate, 2 * u16::from(stride), intercept as i32)
        });
        learned.push((group, start, rest[length - 1].0 - start, word, intercept));
        at += length;
    }
    learned
}

#[test]
fn learning_is_the_greedy_rule() {
    let mut approximate = 0;
    rounds(60, &mut approximate, |random, log, approximate| {
        let (device, block, mut sorted) = placed_batch(random);
        sorted.truncate(14);
        let first = device.pages_of_block(block).start;
        log.note((device.bound, first, &sorted));
        let learned = learn(device.bound, first, &sorted);
        let plain: Vec<_> = learned
            .iter()
            .map(|Learned { group, record }| {
                let Record { start, span, .. } = *record;
                (*group, start, span, record.word, record.intercept)
            })
            .collect();
        assert_eq!(plain, learned_by_trial(device.bound, first, &sorted));
        *approximate += learned
            .iter()
            .filter(|one| matches!(one.record.kind(), Some(Kind::Approximate { .. })))
            .count();
    });
    assert!(approximate > 0, "no approximate record was learned");
}

/// How often the choice among the longest approximate runs was a real one.
#[derive(Default)]
struct Choices {
    smaller_slope_suits: usize,
    intercepts_tie: usize,
}

/// Each approximate record's run goes on as far as any does, and none as long has
/// fewer wrong predictions. In half of the rounds the batch is four pages anywhere
/// in one group: intercepts hardly ever tie in the others.
#[test]
fn the_fewest_predictions_are_wrong() {
    let mut choices = Choices::default();
    rounds(4000, &mut choices, |random, log, choices| {
        let (device, block, sorted) = match random.once_in(2) {
            true => placed_batch(random),
            false => four_pages(random),
        };
        let (bound, first) = (device.bound, device.pages_of_block(block).start);
        log.note((bound, first, &sorted));
        let written = i64::from(first)..i64::from(first) + sorted.len() as i64;
        let mut at = 0;
        for Learned { group, record } in learn(bound, first, &sorted) {
            let placed = |(&page, on): (&u32, i64)| (offset_of(page), on);
            let rest = sorted[at..].iter().zip(written.start + at as i64..);
            let length = record.members().len();
            at += length;
            if !record.is_approximate() {
                continue;
            }
            let run: Vec<(u8, i64)> = rest.clone().take(length).map(placed).collect();
            let fits_of_run = fits(bound, &written, &run);
            let &(wrong, slope, intercept) = fits_of_run.iter().min().expect("a fit");
            assert_eq!((record.word, record.intercept), (2 * slope + 1, intercept));
            if sorted.get(at).is_some_and(|&next| group_of(next) == group) {
                let longer: Vec<(u8, i64)> = rest.take(length + 1).map(placed).collect();
                assert_eq!(fits(bound, &written, &longer), []);
            }
            let smaller_slope = fits_of_run.iter().any(|fit| fit.1 < slope);
            let tied = |fit: &&Fit| (fit.0, fit.1) == (wrong, slope);
            choices.smaller_slope_suits += usize::from(smaller_slope);
            choices.intercepts_tie += usize::from(fits_of_run.iter().filter(tied).count() > 1);
        }
    });
    assert!(choices.smaller_slope_suits > 0, "no smaller slope suited");
    assert!(choices.intercepts_tie > 0, "no two intercepts tied");
}

/// Of document 01's case and of the further cases of learning that show the choice
/// among the longest approximate runs: the run taken, and the one passed over.
#[test]
fn runs_taken_and_passed_over() {
    let fits = |bound, written: Range<i64>, offsets: &[u8]| {
        let run: Vec<(u8, i64)> = offsets.iter().copied().zip(64..).collect();
        fits(bound, &written, &run)
    };
    let smallest_slope = |fits: &[Fit]| fits.iter().copied().min_by_key(|fit| (fit.1, fit.2));

    let four = fits(1, 64..68, &[0, 1, 4, 5]);
    assert_eq!(four.iter().min(), Some(&(0, 103, 64)));
    assert_eq!(smallest_slope(&four), Some((3, 1, 65)));

    let three = fits(1, 64..67, &[1, 2, 6]);
    assert_eq!(three.iter().min(), Some(&(1, 43, 64)));
    assert_eq!(smallest_slope(&three), Some((2, 0, 65)));

    let mut tied = fits(1, 64..68, &[91, 181, 190, 199]);
    tied.sort();
    assert_eq!(tied[..2], [(2, 4, 62), (2, 4, 63)]);

    let outside = fits(3, 64..71, &[1, 2, 4, 12]);
    assert_eq!(outside.iter().min(), Some(&(1, 129, 63)));
    let inside = fits(3, 64..68, &[1, 2, 4, 12]);
    assert_eq!(inside.iter().min(), Some(&(2, 22, 65)));
}

/// The offsets of a group are too few to tell the two apart, so the slope taken,
/// the smallest of those with as many wrong, is never 256.
#[test]
fn slopes_255_and_256_predict_alike() {
    let [less, more] = [255, 256].map(|slope| Kind::Approximate { slope });
    assert!((0..=255).all(|offset| less.rise(offset) == more.rise(offset)));
}
