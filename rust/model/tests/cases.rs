//! The cases of document 01, marked P or not, and its script with the listing.

mod common;

use common::run_program;
use hedjosur_model::cases::{cases, LEARNING, LISTING, SCRIPT};
use hedjosur_model::device::Device;
use hedjosur_model::learn::{last_arrivals, learn};
use hedjosur_model::script::{self, read_line, Answer, Line, Program};
use hedjosur_model::spare::{entries, NOBODY};
use hedjosur_model::testing::World;

/// Each case, call by call.
#[test]
fn every_case() {
    for case in cases() {
        let mut program = Program::default();
        for (line, answer) in &case.calls {
            assert_eq!(&program.call(line), answer, "{}: {line:?}", case.name);
        }
    }
}

/// The cases of learning, by the learner alone.
#[test]
fn learning() {
    for case in LEARNING {
        let name = case.name;
        let learned = learn(case.bound, case.first, case.batch);
        let records = learned.iter().map(|one| {
            let record = &one.record;
            let (start, span) = (record.start, record.span);
            (one.group, start, span, record.word, record.intercept)
        });
        assert_eq!(records.collect::<Vec<_>>(), case.records, "{name}");
        let predictions = learned.iter().flat_map(|one| {
            let members = one.record.members().into_iter();
            members.map(|offset| one.record.predicted(offset).expect("a page"))
        });
        let expected = case.predictions.iter().map(|&page| i64::from(page));
        assert!(predictions.eq(expected), "{name}");
    }
}

/// An approximate record owns the offsets of its run; one that runs over a
/// group's end doesn't exist, whatever the bound.
#[test]
fn runs_and_what_they_own() {
    let approximate = &learn(1, 64, &[0, 1, 4, 5])[0].record;
    assert!(approximate.owns.iter().eq(&[0, 1, 4, 5]));
    for bound in 0..=15 {
        let groups: Vec<usize> = learn(bound, 0, &[255, 256])
            .iter()
            .map(|one| one.group)
            .collect();
        assert_eq!(groups, [0, 1]);
    }
}

#[test]
fn repeats_keep_their_last_arrival() {
    assert_eq!(Vec::from_iter(last_arrivals(&[7, 7])), [(7, 1)]);
}

#[test]
fn an_entry_names_its_neighbours_of_the_same_flush() {
    let device = Device::new([9, 64, 256, 1]).expect("a device");
    let mut world = World::formatted(&device);
    world.flush(&[30, 10, 20]).expect("an accepted flush");
    let of = |page| entries(&device, &world.area, page).to_vec();
    assert_eq!(of(0), [NOBODY, 10, 20]);
    assert_eq!(of(1), [10, 20, 30]);
    assert_eq!(of(2), [20, 30, NOBODY]);
    assert_eq!(of(3), [NOBODY; 3]);
}

/// The case of the script has the calls of the script, and one lookup more.
#[test]
fn the_script_is_the_case() {
    let lines: Vec<Line> = SCRIPT
        .lines()
        .map(|line| read_line(line.as_bytes()).expect("no bad line"))
        .collect();
    let case = cases().pop().expect("the case of the script");
    let more = |line: &Line| *line == Line::Lookup(100);
    let calls = case.calls.iter().map(|(line, _)| line);
    assert!(calls.filter(|line| !more(line)).eq(&lines));
    let reads = case.calls.iter().filter_map(|(_, answer)| match answer {
        Answer::Lookup(lookup) => Some(lookup.reads()),
        _ => None,
    });
    assert_eq!(reads.collect::<Vec<_>>(), [1, 1, 1, 0, 1]);
}

#[test]
fn listing_of_the_script_through_the_library() {
    assert_eq!(script::run(SCRIPT.as_bytes()), LISTING);
}

#[test]
fn listing_of_the_script_through_the_program() {
    assert_eq!(run_program(SCRIPT.as_bytes()), LISTING);
}
