//! The functions on one group's bytes. Those of the static library that need a
//! sound group check that first, so the baseline does too.

use std::hint::black_box;

use hedjosur_baseline::group;
use hedjosur_baseline::record::Record;
use hedjosur_conformance::inputs::{all_offsets, mask_of};
use hedjosur_conformance::subjects::{Baseline, Subject};
use hedjosur_layout::{encode_group, Part, GROUP_BYTES};
use hedjosur_model::testing::{any_record, Random};
use hedjosur_probe_sys as probe;

use crate::kinds::{self, Kind};
use crate::row;
use crate::timing::compare;

/// The check of soundness, by the baseline or the proved code.
type Sound = fn(part: &Part, logical_pages: u32, number: u32) -> bool;

/// Finding an offset, by the baseline or the proved code.
type Find = fn(part: &Part, offset: u8) -> probe::Found;

/// Compaction, by the baseline or the proved code.
type Compact = fn(part: &mut Part) -> usize;

/// How many groups of a kind take turns.
const GROUPS: u64 = 16;

/// The groups of a kind, in bytes; the same ones in every run.
fn groups_of((_, group): Kind) -> Vec<Part> {
    let parts = (0..GROUPS).map(|seed| {
        let mut bytes = [0; GROUP_BYTES];
        let group = group(&mut Random::new(seed));
        assert!(encode_group(&group, &mut bytes) && group::sound(&bytes, 256, 0));
        bytes
    });
    parts.collect()
}

/// Times the check of soundness.
pub fn soundness() {
    for kind in kinds::all() {
        let run = |sound: Sound| {
            move |groups: &mut Vec<Part>| {
                for part in groups {
                    black_box(sound(black_box(part), 256, 0));
                }
            }
        };
        row("sound", kind.0, || {
            compare(
                &mut groups_of(kind),
                GROUPS as usize,
                |_| (),
                run(group::sound),
                run(probe::sound),
            )
        });
    }
}

/// Times the check of soundness and finding one offset.
pub fn finding() {
    for kind in kinds::all() {
        let mut random = Random::new(0);
        let offsets: Vec<u8> = (0..GROUPS).map(|_| random.bits() as u8).collect();
        let run = |find: Find| {
            let offsets = &offsets;
            move |groups: &mut Vec<Part>| {
                for (part, &offset) in groups.iter().zip(offsets) {
                    black_box(find(black_box(part), black_box(offset)));
                }
            }
        };
        row("find", kind.0, || {
            compare(
                &mut groups_of(kind),
                GROUPS as usize,
                |_| (),
                run(find),
                run(probe::find),
            )
        });
    }
}

/// The baseline's find, with the check of soundness.
fn find(part: &Part, offset: u8) -> probe::Found {
    assert!(group::sound(part, 256, 0));
    Baseline.find(part, offset)
}

/// A record to insert, with a mask of its members.
struct New {
    record: [u8; 8],
    mask: [u8; 256],
}

fn any_new(random: &mut Random) -> New {
    let start = random.bits() as u8;
    let record = any_record(random, start, 255, &all_offsets());
    New {
        record: record.bytes(),
        mask: mask_of(&record),
    }
}

/// Groups that are changed, and what they are before each time.
struct Changed {
    before: Vec<Part>,
    now: Vec<Part>,
}

impl Changed {
    fn new(kind: Kind) -> Changed {
        let before = groups_of(kind);
        let now = before.clone();
        Changed { before, now }
    }

    fn restore(&mut self) {
        self.now.copy_from_slice(&self.before);
    }
}

/// Times the checks of soundness and of the record with its mask, and inserting it,
/// where there is room.
pub fn insertion() {
    for kind in kinds::with_room() {
        let mut random = Random::new(7);
        let records_in: Vec<New> = (0..GROUPS).map(|_| any_new(&mut random)).collect();
        let baseline = |groups: &mut Changed| {
            for (part, new) in groups.now.iter_mut().zip(&records_in) {
                assert!(group::sound(part, 256, 0));
                let record = Record::from_bytes(new.record);
                let members = record.members_by(&new.mask).expect("its members");
                group::insert(part, record, members);
                black_box(part);
            }
        };
        let proved = |groups: &mut Changed| {
            for (part, new) in groups.now.iter_mut().zip(&records_in) {
                black_box(probe::insert(part, &new.record, &new.mask));
            }
        };
        row("insert", kind.0, || {
            compare(
                &mut Changed::new(kind),
                GROUPS as usize,
                Changed::restore,
                baseline,
                proved,
            )
        });
    }
}

/// Times the check of soundness and compaction.
pub fn compaction() {
    for kind in kinds::all() {
        let run = |compact: Compact| {
            move |groups: &mut Changed| {
                for part in &mut groups.now {
                    black_box(compact(part));
                }
            }
        };
        row("compact", kind.0, || {
            compare(
                &mut Changed::new(kind),
                GROUPS as usize,
                Changed::restore,
                run(compact),
                run(probe::compact),
            )
        });
    }
}

/// The baseline's compaction, with the check of soundness.
fn compact(part: &mut Part) -> usize {
    assert!(group::sound(part, 256, 0));
    group::compact(part)
}
