//! Random scripts for the listing program: calls on devices inside and at its
//! limits, refused calls, and bad lines of every kind.

use hedjosur_model::device::Device;
use hedjosur_model::script::{self, BAD_LINE, HEAD};
use hedjosur_model::testing::{batch, full_device, rounds, small_device, Random};

/// The numbers of a line at most.
const LONGEST: usize = 64;

/// What the model printed for all scripts: how many lines of each kind.
#[derive(Debug, Default)]
struct Printed {
    bad: usize,
    refused: usize,
    heads: usize,
    records: usize,
}

/// Has `print` print what the model prints, byte for byte, for at least 2,000
/// scripts.
pub fn check_scripts(print: impl Fn(&[u8]) -> Vec<u8>) {
    let mut printed = Printed::default();
    rounds(2200, &mut printed, |random, log, printed| {
        let text = any_script(random);
        log.note(String::from_utf8_lossy(&text));
        let expected = script::run(&text);
        let found = print(&text);
        assert_eq!(String::from_utf8_lossy(&found), expected);
        for line in expected.lines() {
            match line {
                BAD_LINE => printed.bad += 1,
                HEAD => printed.heads += 1,
                _ if line.starts_with("refused ") => printed.refused += 1,
                _ => printed.records += 1,
            }
        }
    });
    println!("{printed:?}");
    let Printed {
        bad,
        refused,
        heads,
        records,
    } = printed;
    assert!(bad.min(refused).min(heads).min(records) >= 2000);
}

/// A script; its last line may lack its newline.
fn any_script(random: &mut Random) -> Vec<u8> {
    let device = any_device(random);
    let mut text = Vec::new();
    // Now and then calls come before the format.
    if !random.once_in(10) {
        text.extend(line(random, 1, &device.numbers()));
    }
    for _ in 0..random.between(1, 40) {
        let call = any_call(random, &device);
        match random.once_in(8) {
            true => text.extend(spoilt(random, call)),
            false => text.extend(call),
        }
    }
    for group in 0..device.groups() as u32 {
        text.extend(line(random, 6, &[group]));
    }
    if random.once_in(5) {
        text.pop();
    }
    text
}

/// A device that the program takes: small, document 01's, or as large as it takes
/// (N 1,024; 8,192 spare entries).
fn any_device(random: &mut Random) -> Device {
    match random.below(6) {
        0 => full_device(random.between(3, 9), 64, random.below(4)),
        1 => Device::new([32, 256, 1024, 0]).expect("numbers inside their limits"),
        2 => Device::new([2048, 4, 1024, 0]).expect("numbers inside their limits"),
        _ => small_device(random),
    }
}

/// Any call, mostly one that is accepted.
fn any_call(random: &mut Random, device: &Device) -> Vec<u8> {
    let page = random.below(device.logical_pages + 1);
    let group = random.below(device.groups() as u32 + 1);
    match random.below(16) {
        0..=8 => {
            let mut pages = batch(random, device);
            pages.truncate(LONGEST);
            if random.once_in(12) {
                pages[0] = page;
            }
            if random.once_in(15) {
                pages.resize(random.below(LONGEST as u32 + 1) as usize, page);
            }
            line(random, 2, &pages)
        }
        9 => line(random, 3, &[page]),
        10 | 11 => line(random, 4, &[]),
        12 => line(random, 5, &[group]),
        13 => {
            // One past what the program takes, or past the limits of a device.
            let numbers = random.pick(&[
                [32, 256, 1025, 0],
                [33, 256, 1024, 0],
                [32, 256, 1024, 1],
                [2, 4, 1, 0],
                [3, 4, 5, 0],
                [9, 64, 256, 16],
                [99_999_999; 4],
                device.numbers(),
            ]);
            line(random, 1, &numbers)
        }
        14 => line(random, 3, &[99_999_999]),
        _ => line(random, 6, &[group]),
    }
}

/// A line of an operation and its numbers, right-justified, here and there with
/// leading zeros.
fn line(random: &mut Random, operation: u32, numbers: &[u32]) -> Vec<u8> {
    let mut text = match random.once_in(10) {
        true => format!("{operation:02}"),
        false => format!("{operation:>2}"),
    };
    for number in numbers {
        text += &match random.once_in(40) {
            true => format!("{number:08}"),
            false => format!("{number:>8}"),
        };
    }
    text.push('\n');
    text.into_bytes()
}

/// A line with something wrong, mostly so that it is no call any more.
fn spoilt(random: &mut Random, mut line: Vec<u8>) -> Vec<u8> {
    line.pop();
    let at = random.below(line.len() as u32 + 1) as usize;
    match random.below(10) {
        0 => line.truncate(at),
        1 => line.insert(at, random.pick(b" 07-+x\t\r\0\xff")),
        2 => line.push(random.pick(b" 0\r\t")),
        3 => line.extend(b"       1".repeat(random.between(1, 70) as usize)),
        4 => line.extend(b" ".repeat(random.pick(&[8, 500, 505, 5000]))),
        5 => line.clear(),
        6 => line[0] = random.pick(b"0123456789 -"),
        7 => line[1] = random.pick(b"0123456789 -"),
        _ => {
            let last = line.len() - 1;
            line[at.min(last)] = random.pick(b" 0123456789.:/");
        }
    }
    line.push(b'\n');
    line
}
