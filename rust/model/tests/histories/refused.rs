//! Refused calls, which change nothing.

use hedjosur_model::book::Heard;
use hedjosur_model::ops::{self, Refusal, WHY_BYTES};
use hedjosur_model::testing::{lists, World};

use crate::history::History;

impl History<'_> {
    /// A call that is refused for its arguments.
    pub fn refused_call(&mut self) {
        let device = self.device;
        let (logical_pages, block_pages) = (device.logical_pages, device.block_pages);
        let before = self.world.clone();
        let wrong = self.random.below(16);
        self.log.note(("refused call", wrong));
        let [mut plan, mut erased] = lists(&device);
        let mut out = vec![99; WHY_BYTES];
        let World { lent, area } = &mut self.world;
        let short = area.len() - 1;
        let number = |answer: Result<(), Refusal>| answer.expect_err("refused").number();
        let mut flush = |area: &mut [u32], batch: &[u32], plan: &mut [u32]| {
            number(ops::flush(lent, area, batch, plan).map(drop))
        };
        let (refusal, expected) = match wrong {
            0 => (flush(area, &[], &mut plan), 5),
            1 => (
                flush(area, &vec![0; block_pages as usize + 1], &mut plan),
                5,
            ),
            2 => (flush(area, &[0, logical_pages], &mut plan), 4),
            3 => (flush(area, &[0], &mut plan[1..]), 2),
            4 => (flush(&mut area[..short], &[0], &mut plan), 2),
            5 => (number(ops::lookup(lent, area, logical_pages).map(drop)), 4),
            6 => (number(ops::lookup(lent, &area[1..], 0).map(drop)), 2),
            7 => {
                let answer = ops::collection(lent, area, &mut plan[1..], &mut erased);
                (number(answer.map(drop)), 2)
            }
            8 => {
                let answer = ops::collection(lent, area, &mut plan, &mut erased[1..]);
                (number(answer.map(drop)), 2)
            }
            9 => {
                let group = device.groups() as u32;
                (number(ops::compaction(lent, group).map(drop)), 4)
            }
            10 => (number(ops::discard(lent, area, logical_pages)), 4),
            11 => (number(ops::discard(lent, &area[1..], 0)), 2),
            12 => (number(ops::why(lent, logical_pages, &mut out).map(drop)), 4),
            13 => (number(ops::why(lent, 0, &mut out[1..]).map(drop)), 2),
            14 => {
                let numbers = [device.blocks, block_pages, 0, device.bound];
                (number(ops::format(lent, area, numbers)), 1)
            }
            _ => {
                let numbers = [device.blocks + 1, block_pages, logical_pages, device.bound];
                (number(ops::format(lent, area, numbers)), 2)
            }
        };
        assert_eq!(refusal, expected);
        assert_eq!([plan, erased], lists(&device));
        assert!(out.iter().all(|&byte| byte == 99));
        self.refused(&before);
        self.check();
    }

    /// A refused call changed nothing, and the book hears nothing of it.
    pub fn refused(&mut self, before: &World) {
        assert!(self.world == *before, "a refused call changed something");
        self.book.hear(Heard::Other);
        self.events.refused += 1;
    }
}
