//! A block's spare entries, written in one pass that may be stopped, against the
//! model.

use hedjosur_model::device::Device;
use hedjosur_model::spare::{self, NOBODY};
use hedjosur_model::testing::{full_device, multiplier, rounds, small_device, CallLog, Random};
use hedjosur_probe_sys::{answer_to_program, OUTSIDE};

use crate::arguments::numbers_at_limits;
use crate::subjects::Subject;

/// A pass over a block with at most so many entries is stopped after each of them.
const FEW_ENTRIES: usize = 256;

/// The longest area that is made for device numbers at their limits.
const LONGEST_AREA: u64 = 1 << 16;

/// A block to program: a device with its spare area, the block's number, and what is
/// written on its first pages.
struct Block {
    device: Device,
    area: Vec<u32>,
    number: u32,
    written: Vec<u32>,
}

impl Block {
    /// A block, mostly of a small device, in an area that holds anything; one time in
    /// four any numbers are written, else logical pages.
    fn any(random: &mut Random, log: &mut CallLog) -> Block {
        let device = match random.once_in(8) {
            true => large_device(random),
            false => small_device(random),
        };
        let block_pages = device.block_pages;
        let count = match random.once_in(3) {
            true => random.pick(&[0, 1, block_pages - 1, block_pages]),
            false => random.below(block_pages + 1),
        };
        let written = match random.once_in(4) {
            true => any_entries(random, count as usize),
            false => (0..count)
                .map(|_| random.below(device.logical_pages))
                .collect(),
        };
        let number = random.below(device.blocks);
        log.note((&device, number, &written));
        Block {
            device,
            area: any_entries(random, device.spare_length()),
            number,
            written,
        }
    }

    /// The area after the model's pass.
    fn passed(&self, stop: usize) -> Vec<u32> {
        let mut area = self.area.clone();
        spare::pass(&self.device, &mut area, self.number, &self.written, stop);
        area
    }

    /// A pass leaves the whole area as the model's does.
    fn check(&self, subject: &impl Subject, stop: usize) {
        let mut area = self.area.clone();
        subject.program(&self.device, &mut area, self.number, &self.written, stop);
        assert_same(&area, &self.passed(stop), stop);
    }

    /// After how many entries a pass is stopped: after each, or where there are many
    /// at the ends of the block, of what is written, of some pages, and anywhere.
    fn stops(&self, random: &mut Random) -> Vec<usize> {
        let all = self.device.entries_per_block();
        if all <= FEW_ENTRIES {
            return (0..=all).collect();
        }
        let width = self.device.entries_per_page();
        let written = self.written.len() * width;
        let mut stops = vec![0, 1, all - 1, all];
        stops.extend([written.saturating_sub(1), written, (written + 1).min(all)]);
        for _ in 0..8 {
            stops.push(random.between(1, self.device.block_pages) as usize * width);
            stops.push(random.below(all as u32) as usize);
        }
        stops
    }
}

/// A device with many pages in a block, half of the times as many as there can be, and
/// any error bound.
fn large_device(random: &mut Random) -> Device {
    let block_pages = match random.once_in(2) {
        true => 256,
        false => random.between(9, 255),
    };
    full_device(random.between(3, 5), block_pages, random.below(16))
}

/// Entries that hold anything, nobody now and then.
fn any_entries(random: &mut Random, count: usize) -> Vec<u32> {
    let entries = (0..count).map(|_| match random.once_in(8) {
        true => NOBODY,
        false => random.bits() as u32,
    });
    entries.collect()
}

/// Two areas are the same; else the first place is told where they differ.
fn assert_same(area: &[u32], expected: &[u32], stop: usize) {
    assert_eq!(area.len(), expected.len());
    let mut pairs = area.iter().zip(expected);
    let differing = pairs.position(|(one, other)| one != other);
    assert_eq!(differing, None, "stopped after {stop} entries");
}

/// Whole passes: the block's entries become the model's, and all others stay.
pub fn check_programming(subject: &impl Subject) {
    let mut unused = 0;
    rounds(2000, &mut unused, |random, log, unused| {
        let block = Block::any(random, log);
        block.check(subject, block.device.entries_per_block());
        *unused += block.device.block_pages as usize - block.written.len();
    });
    assert!(unused > 0, "no block had unused pages");
}

/// Passes that are stopped: the entries up to there are the model's, and all others
/// stay.
pub fn check_stops(subject: &impl Subject) {
    let mut passes = 0;
    rounds(2000, &mut passes, |random, log, passes| {
        let block = Block::any(random, log);
        for stop in block.stops(random) {
            block.check(subject, stop);
            *passes += 1;
        }
    });
    println!("{passes} passes");
    assert!(passes >= 50_000 * multiplier());
}

/// Arguments of the proved pass at and past their limits: outside its condition it
/// says so, and changes nothing.
pub fn check_arguments() {
    let mut answers = [0; 2];
    rounds(200, &mut answers, |random, log, answers| {
        let Block {
            device,
            area,
            number,
            written,
        } = &Block::any(random, log);
        let numbers = device.numbers();
        let mut check = |area: &[u32], written: &[u32], block, stop| {
            let met = check_condition(numbers, area, written, block, stop);
            answers[usize::from(met)] += 1;
        };
        let all = device.entries_per_block() as u32;
        for block in [0, device.blocks - 1, device.blocks, u32::MAX] {
            check(area, written, block, all);
        }
        for stop in [0, all, all + 1, u32::MAX] {
            check(area, written, *number, stop);
        }
        let most = device.block_pages as usize;
        for count in [0, most, most + 1, 2 * most, 1000] {
            check(area, &any_entries(random, count), *number, all);
        }
        let length = area.len();
        for length in [0, length - most, length - 1, length + 1, 2 * length] {
            check(&any_entries(random, length), written, *number, all);
        }
    });
    for numbers in numbers_at_limits() {
        // An area that fits, where the numbers give one that is short enough, else none.
        let [blocks, block_pages, _, bound] = numbers.map(u64::from);
        let entries = block_pages.saturating_mul(2 * bound + 1);
        let length = blocks.saturating_mul(entries);
        let fits = length <= LONGEST_AREA;
        let area: Vec<u32> = (0..if fits { length as u32 } else { 0 }).collect();
        let last = numbers[0].saturating_sub(1);
        let met = check_condition(numbers, &area, &[7, 8, 9], last, entries as u32);
        assert_eq!(met, fits && Device::new(numbers).is_some(), "{numbers:?}");
        answers[usize::from(met)] += 1;
    }
    let [outside, met] = answers;
    println!("{met} passes, {outside} outside the condition");
    assert!(answers.iter().all(|&times| times > 1000), "{answers:?}");
}

/// Whether the arguments of a pass meet its condition. The proved one answers that and
/// leaves the area as the model's pass does, or as it was.
fn check_condition(
    numbers: [u32; 4],
    area: &[u32],
    written: &[u32],
    block: u32,
    stop: u32,
) -> bool {
    let met = Device::new(numbers).filter(|device| {
        area.len() == device.spare_length()
            && block < device.blocks
            && written.len() <= device.block_pages as usize
            && stop as usize <= device.entries_per_block()
    });
    let [mut expected, mut now] = [(); 2].map(|()| area.to_vec());
    if let Some(device) = met {
        spare::pass(&device, &mut expected, block, written, stop as usize);
    }
    let answer = answer_to_program(numbers, &mut now, written, block, stop);
    assert_eq!(answer, met.map_or(OUTSIDE, |_| 0), "{numbers:?}");
    assert_same(&now, &expected, stop as usize);
    met.is_some()
}
