//! What a test has to have met.

/// How often something interesting happened.
#[derive(Debug, Default)]
pub struct Events {
    pub second_victim: usize,
    pub second_victim_under_a_new_level: usize,
    pub vanished_level: usize,
    pub owner_gone_deep_down: usize,
    pub edge_prediction: usize,
    pub compaction_for_room: usize,
    pub collected: usize,
    pub nothing_to_gain: usize,
    pub flush_after_collection: usize,
    pub reformat: usize,
    pub agreed: usize,
    pub agreed_in_pages_alone: usize,
    pub disagreed: usize,
    pub not_written: usize,
    pub one_read: usize,
    pub two_reads: usize,
    pub refused: usize,
    pub discarded: usize,
    pub discarded_unwritten: usize,
    pub discarded_again: usize,
    pub discarded_before_a_repeat: usize,
    pub written_again: usize,
    pub spared_refusal_7: usize,
    pub nothing_to_copy: usize,
    pub told_none: usize,
    pub told_off_the_stride: usize,
    pub told_unowned: usize,
    pub told_owner: usize,
    pub told_hidden_owner: usize,
    pub told_member: usize,
    pub told_nothing: usize,
}

/// Asserts that each of the named events happened.
macro_rules! assert_happened {
    ($events:expr, $($event:ident),+ $(,)?) => {
        $(assert!($events.$event > 0, "never {}: {:?}", stringify!($event), $events);)+
    };
}

pub(crate) use assert_happened;
