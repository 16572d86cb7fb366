//! What a call should answer, and what it does.

use std::collections::BTreeMap;
use std::fmt::Debug;

use hedjosur_model::ops::Refusal;

/// How often each answer came: 0 for an accepted call, else the refusal.
pub type Tally = BTreeMap<u32, usize>;

/// A condition and the refusal it brings.
pub type Condition = (u32, bool);

/// The first refusal, in the order given, whose condition holds; 0 if none does.
pub fn first_of(conditions: &[Condition]) -> u32 {
    conditions
        .iter()
        .find(|(_, holds)| *holds)
        .map_or(0, |&(number, _)| number)
}

/// The number of an answer's refusal, or 0.
fn number<T>(answer: &Result<T, Refusal>) -> u32 {
    answer.as_ref().err().map_or(0, |refusal| refusal.number())
}

/// The refusals that a test has to have met, besides acceptance.
pub fn assert_met(tally: &Tally, refusals: &[u32]) {
    for number in [0].iter().chain(refusals) {
        assert!(tally.contains_key(number), "never {number}: {tally:?}");
    }
    let known = |number: &u32| *number == 0 || refusals.contains(number);
    assert!(tally.keys().all(known), "unexpected: {tally:?}");
}

/// Makes one call and compares its answer with what was expected; a refused call
/// leaves `lent` as it was.
pub fn expect<L: Clone + PartialEq + Debug, T>(
    tally: &mut Tally,
    expected: u32,
    lent: &mut L,
    call: impl FnOnce(&mut L) -> Result<T, Refusal>,
) -> Option<T> {
    let before = lent.clone();
    let answer = call(lent);
    assert_eq!(number(&answer), expected);
    if answer.is_err() {
        assert_eq!(*lent, before, "a refused call changed something");
    }
    *tally.entry(expected).or_default() += 1;
    answer.ok()
}
