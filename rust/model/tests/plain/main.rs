//! Worked examples of the plain engine, and its refusals in their order.

mod examples;
mod refusals;

use hedjosur_model::ops::Flushed;
use hedjosur_model::plain::{self, Lent, State};

/// M 4, B 4, N 6, g 0.
const NUMBERS: [u32; 4] = [4, 4, 6, 0];

/// What is in a plan or an erased list where a call writes nothing.
const STAYS: u32 = 777_777;

/// A newly formatted device, whatever the state held before.
fn formatted() -> Lent {
    let mut lent = Lent::Held(State {
        numbers: [9; 4],
        counts: vec![3; 4],
        entries: vec![7; 6],
    });
    assert_eq!(plain::format(&mut lent, NUMBERS), Ok(()));
    lent
}

/// An accepted flush: its first page, its count and the whole plan.
fn flush(lent: &mut Lent, batch: &[u32]) -> (u32, u32, [u32; 4]) {
    let mut plan = [STAYS; 4];
    let Flushed { first, count } = plain::flush(lent, batch, &mut plan).expect("a flush");
    (first, count, plan)
}

/// Accepted discards.
fn discard(lent: &mut Lent, logical_pages: &[u32]) {
    for &logical_page in logical_pages {
        assert_eq!(plain::discard(lent, logical_page), Ok(()));
    }
}

/// Two flushes and two discards, which leave two blocks free.
fn two_blocks() -> Lent {
    let mut lent = formatted();
    flush(&mut lent, &[5, 0, 2, 5]);
    flush(&mut lent, &[2, 1]);
    discard(&mut lent, &[5, 3]);
    lent
}
