//! Agreement.

use std::collections::BTreeMap;

use hedjosur_model::testing::{rounds, CallLog, Random, World};

use crate::expected::{assert_met, expect, first_of, Condition, Tally};
use crate::facts::{Facts, LookedUp};
use crate::worlds::any_world;

/// How often each answer was given, and to what: whether N and all pages, all predicted
/// pages and all counts of levels are the same.
#[derive(Default)]
struct Counts {
    tally: Tally,
    same: BTreeMap<[bool; 3], usize>,
}

#[test]
fn refuses_in_order() {
    let mut counts = Counts::default();
    rounds(2500, &mut counts, |random, log, counts| {
        let one = any_world(random);
        let other = match random.once_in(2) {
            true => any_world(random),
            false => one.clone(),
        };
        agree(log, counts, &one, &other);
    });
    assert_met(&counts.tally, &[1, 2, 3, 7]);
}

/// Arbitrary sound states, discarded wherever a lookup would refuse 7, beside the same
/// with a change: what is the same decides, each of the three by itself.
#[test]
fn compares_arbitrary_states() {
    let mut counts = Counts::default();
    rounds(2500, &mut counts, |random, log, counts| {
        let mut one = any_world(random);
        let facts = Facts::of(&one);
        if !facts.readable() || facts.unsound() {
            return;
        }
        let refused: Vec<u64> = (0..facts.logical_pages)
            .filter(|&logical_page| facts.looked_up(logical_page).is_err())
            .collect();
        for logical_page in refused {
            one.state_mut().marks[logical_page as usize] = true;
        }
        let mut other = one.clone();
        change(random, &mut other);
        agree(log, counts, &one, &other);
    });
    assert_met(&counts.tally, &[7]);
    let same = counts.same;
    for met in [[true; 3], [true, true, false], [true, false, true]] {
        assert!(same.contains_key(&met), "never {met:?}: {same:?}");
    }
}

/// Changes one thing of a sound state so that it stays sound: the levels of a group,
/// the intercept of a record, or a mark.
fn change(random: &mut Random, world: &mut World) {
    let state = world.state_mut();
    let number = random.below(state.groups.len() as u32) as usize;
    let group = &mut state.groups[number];
    match random.below(4) {
        0 => group.compact(),
        1 => drop(group.levels.pop()),
        2 if !group.levels.is_empty() => {
            let level = random.below(group.levels.len() as u32) as usize;
            let record = &mut group.levels[level][0];
            record.intercept = record.intercept.wrapping_add(random.pick(&[-1, 1]));
        }
        _ => {
            let logical_page = random.below(state.numbers[2]) as usize;
            state.marks[logical_page] = true;
        }
    }
}

fn agree(log: &mut CallLog, counts: &mut Counts, one: &World, other: &World) {
    log.note(("agreement", one, other));
    let worlds = [Facts::of(one), Facts::of(other)];
    let refused: Vec<Condition> = worlds
        .iter()
        .flat_map(|facts| {
            [
                (1, facts.outside_limits()),
                (2, facts.state_length_wrong() || facts.area_length_wrong()),
                (3, facts.unsound()),
            ]
        })
        .collect();
    let lookups = worlds.map(|facts| match first_of(&refused) {
        0 => (0..facts.logical_pages)
            .map(|l| facts.looked_up(l))
            .collect(),
        _ => Ok(Vec::new()),
    });
    let refuses = lookups.iter().any(Result::is_err);
    let expected = first_of(&[&refused[..], &[(7, refuses)]].concat());
    let answer = expect(&mut counts.tally, expected, &mut (), |()| {
        one.agreement(other)
    });
    // The other way round it is refused too, perhaps with another number.
    assert_eq!(other.agreement(one).ok(), answer);
    if let (Some(answer), [Ok(one), Ok(other)]) = (answer, lookups) {
        let same = compare(&one, &other);
        assert_eq!(answer, same == [true; 3]);
        *counts.same.entry(same).or_default() += 1;
    }
}

/// Whether all pages, all predicted pages and all counts of levels are the same.
fn compare(one: &[LookedUp], other: &[LookedUp]) -> [bool; 3] {
    let page = |place: usize| {
        let of = move |&(found, _): &LookedUp| found.map(|pages| pages[place]);
        one.iter().map(of).eq(other.iter().map(of))
    };
    let levels = |&(_, levels): &LookedUp| levels;
    let same_levels = one.iter().map(levels).eq(other.iter().map(levels));
    [page(0), page(1), same_levels]
}
