//! Refusals in their order: a call with any changes of what it is lent.

use std::fmt::Debug;

use hedjosur_model::ops::Refusal;
use hedjosur_model::testing::CallLog;

/// A change of what is lent, with the refusal that it brings about, if any.
pub(crate) type Change<L> = (Option<Refusal>, fn(&mut L));

/// A call with every choice of changes of what it is accepted with: it gives the refusal
/// of the first one chosen that brings about any.
pub(crate) fn check_order<L: Clone + Debug>(
    accepted: &L,
    changes: &[Change<L>],
    mut call: impl FnMut(&mut L, &mut CallLog) -> Option<Refusal>,
) {
    for choice in 0..1 << changes.len() {
        let chosen = (0..changes.len()).filter(|number| choice >> number & 1 == 1);
        let chosen: Vec<Change<L>> = chosen.map(|number| changes[number]).collect();
        let mut lent = accepted.clone();
        // The last comes first, so that it finds what is lent as it was.
        for (_, change) in chosen.iter().rev() {
            change(&mut lent);
        }
        let log = &mut CallLog::new(choice);
        log.note(&lent);
        let expected = chosen.iter().find_map(|(refusal, _)| *refusal);
        assert_eq!(call(&mut lent, log), expected);
    }
}
