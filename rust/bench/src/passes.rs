//! A block's spare entries, written in one pass.

use std::hint::black_box;

use hedjosur_conformance::subjects::{Baseline, Proved, Subject};
use hedjosur_model::testing::{full_device, Random};

use crate::batches::INPUTS;
use crate::row;
use crate::timing::compare;

/// The pages of a block.
const BLOCK_PAGES: u32 = 256;

/// Times the pass, with the checks of its arguments, over blocks with so many of their
/// pages written, for several error bounds. Each input has a block of its own.
pub fn programming() {
    let whole = [0, 1, 4, 15].map(|bound| (BLOCK_PAGES, bound));
    for (pages, bound) in whole.into_iter().chain([(4, 1)]) {
        let device = full_device(INPUTS as u32, BLOCK_PAGES, bound);
        let all = device.entries_per_block();
        let inputs: Vec<Vec<u32>> = (0..INPUTS)
            .map(|seed| {
                let first = Random::new(seed).below(device.logical_pages - pages);
                (first..first + pages).collect()
            })
            .collect();
        let run = |subject: &'static dyn Subject| {
            let (device, inputs) = (&device, &inputs);
            move |area: &mut Vec<u32>| {
                for (block, written) in (0..).zip(inputs) {
                    subject.program(device, area, block, black_box(written), all);
                    black_box(&mut *area);
                }
            }
        };
        let input = format!("{pages} of {BLOCK_PAGES} pages, g {bound}");
        row("program", &input, || {
            compare(
                &mut vec![0; device.spare_length()],
                inputs.len(),
                |_| (),
                run(&Baseline),
                run(&Proved),
            )
        });
    }
}
