//! Soundness, find, insertion and compaction against the model.

use hedjosur_layout::{decode_group, read_group, Part};
use hedjosur_model::device::Device;
use hedjosur_model::learn::{last_arrivals, learn};
use hedjosur_model::levels::{Group, GROUP_RECORDS};
use hedjosur_model::record::Record;
use hedjosur_model::sound::group_is_sound;
use hedjosur_model::testing::{any_record, full_device, rounds, CallLog, Random};
use hedjosur_probe_sys::Found;

use crate::inputs::{
    all_offsets, any_batch, any_group, damage, encoded, junk, mask_of, spoiled, whole_group,
};
use crate::subjects::Subject;

/// A group of 256 offsets: group 0 of 256 logical pages.
fn whole_device() -> Device {
    full_device(3, 256, 0)
}

/// Whatever the bytes, they are sound where the group read from them is.
pub fn check_soundness(subject: &impl Subject) {
    let mut verdicts = [0; 2];
    rounds(1000, &mut verdicts, |random, log, verdicts| {
        let (device, number, bytes) = any_group(random);
        log.note((device.logical_pages, number));
        let mut agree = |logical_pages, number: u32, bytes: &Part| {
            let device = Device {
                logical_pages,
                ..device
            };
            let expected = group_is_sound(&device, number as usize, &read_group(bytes));
            assert_eq!(subject.is_sound(bytes, logical_pages, number), expected);
            verdicts[usize::from(expected)] += 1;
            expected
        };
        assert!(agree(device.logical_pages, number, &bytes));
        // The same bytes where other logical pages exist.
        agree(random.below(1000), random.below(4), &bytes);
        for _ in 0..8 {
            let mut damaged = bytes;
            damage(random, &mut damaged);
            agree(device.logical_pages, number, &damaged);
        }
        let mut senseless = junk(random);
        agree(256, 0, &senseless);
        (senseless[0], senseless[1]) = (random.below(4) as u8, 0);
        agree(256, 0, &senseless);
        if let Some((clause, bytes)) = spoiled(random) {
            log.note(clause);
            assert!(!agree(256, 0, &bytes));
        }
    });
    assert!(verdicts.iter().all(|&times| times > 1000), "{verdicts:?}");
}

/// Every offset is found where the model finds it, after as many levels.
pub fn check_finding(subject: &impl Subject) {
    let mut found = [0; 2];
    rounds(800, &mut found, |random, log, found| {
        let (group, bytes) = whole_group(random);
        log.note(&group);
        for offset in 0..=255 {
            let expected = match group.first_with(offset) {
                Some((level, record)) => Found {
                    record: Some((record.start, record.word)),
                    levels: level as u16 + 1,
                },
                None => Found {
                    record: None,
                    levels: group.levels.len() as u16,
                },
            };
            assert_eq!(subject.find(&bytes, offset), expected, "offset {offset}");
            found[usize::from(expected.record.is_some())] += 1;
        }
    });
    assert!(found.iter().all(|&times| times > 1000), "{found:?}");
}

/// A group in bytes beside the model's.
struct Pair<'a, S> {
    subject: &'a S,
    group: Group,
    bytes: Part,
    log: &'a mut CallLog,
}

impl<S: Subject> Pair<'_, S> {
    /// Inserts a record into both, where there is room.
    fn insert(&mut self, record: Record) {
        if self.group.size() == GROUP_RECORDS {
            self.compact();
        }
        self.log.note(("insert", &record));
        let mask = mask_of(&record);
        let record_bytes = record.bytes();
        self.group.insert(record);
        let count = self.subject.insert(&mut self.bytes, &record_bytes, &mask);
        self.agree(count);
    }

    /// Compacts both.
    fn compact(&mut self) {
        self.log.note("compact");
        self.group.compact();
        let count = self.subject.compact(&mut self.bytes);
        self.agree(count);
    }

    /// The bytes encode the model's group.
    fn agree(&self, count: usize) {
        assert_eq!(count, self.group.size());
        assert_eq!(decode_group(&self.bytes).as_ref(), Some(&self.group));
    }
}

/// Any sound group, or one time in three none, beside its bytes.
fn any_pair<'a, S: Subject>(
    subject: &'a S,
    random: &mut Random,
    log: &'a mut CallLog,
) -> Pair<'a, S> {
    let (group, bytes) = match random.once_in(3) {
        true => (Group::default(), encoded(random, &Group::default())),
        false => whole_group(random),
    };
    log.note(&group);
    Pair {
        subject,
        group,
        bytes,
        log,
    }
}

/// Any record of a whole group.
fn any_new(random: &mut Random) -> Record {
    let start = random.bits() as u8;
    any_record(random, start, 255, &all_offsets())
}

/// Insertions alone: after each, the bytes encode the model's group.
pub fn check_insertion(subject: &impl Subject) {
    rounds(200, &mut (), |random, log, ()| {
        let mut pair = any_pair(subject, random, log);
        for _ in 0..20.min(GROUP_RECORDS - pair.group.size()) {
            pair.insert(any_new(random));
        }
    });
}

/// Compactions alone: after each, the bytes encode the model's group.
pub fn check_compaction(subject: &impl Subject) {
    rounds(400, &mut (), |random, log, ()| {
        any_pair(subject, random, log).compact();
    });
}

/// Steps of all kinds, one after the other: after each, the bytes encode the
/// model's group. More than 100,000 steps a run.
pub fn check_steps(subject: &impl Subject) {
    let mut steps = 0;
    rounds(4500, &mut steps, |random, log, steps| {
        let mut pair = any_pair(subject, random, log);
        let learns = random.once_in(2);
        for _ in 0..20 {
            match random.below(12) {
                0 => pair.compact(),
                1..=3 if learns => {
                    let records = learned_records(random);
                    *steps += records.len();
                    records.into_iter().for_each(|record| pair.insert(record));
                }
                _ => pair.insert(any_new(random)),
            }
            *steps += 1;
        }
        assert!(group_is_sound(&whole_device(), 0, &pair.group));
        assert!(subject.is_sound(&pair.bytes, 256, 0));
    });
    println!("{steps} steps");
    assert!(steps >= 100_000);
}

/// Some of the records learned from a batch of one group.
fn learned_records(random: &mut Random) -> Vec<Record> {
    let device = Device {
        bound: random.below(16),
        ..whole_device()
    };
    let batch: Vec<u32> = last_arrivals(&any_batch(random, &device))
        .into_keys()
        .take(40)
        .collect();
    let learned = learn(device.bound, 0, &batch).into_iter();
    learned.map(|one| one.record).take(10).collect()
}
