//! The baseline against the model.

use hedjosur_conformance::subjects::Baseline;
use hedjosur_conformance::{
    agreement, arguments, batches, engines, groups, histories, marks, passes, why,
};

#[test]
fn sorting() {
    batches::check_sorting(&Baseline);
}

#[test]
fn learning() {
    batches::check_learning(&Baseline);
}

#[test]
fn programming() {
    passes::check_programming(&Baseline);
}

#[test]
fn soundness() {
    groups::check_soundness(&Baseline);
}

#[test]
fn finding() {
    groups::check_finding(&Baseline);
}

#[test]
fn insertion() {
    groups::check_insertion(&Baseline);
}

#[test]
fn compaction() {
    groups::check_compaction(&Baseline);
}

#[test]
fn steps() {
    groups::check_steps(&Baseline);
}

#[test]
fn cases() {
    histories::check_cases(&Baseline);
}

#[test]
fn random_histories() {
    histories::check_histories(&Baseline, 100);
}

#[test]
fn arbitrary_states() {
    arguments::check_arbitrary_states(&Baseline, 300);
}

#[test]
fn marks_that_hold_anything() {
    marks::check_marks(&Baseline);
}

#[test]
fn agreement_after_calls() {
    agreement::check_examples(&Baseline);
}

#[test]
fn agreement_of_pairs() {
    agreement::check_agreement(&Baseline, 1000);
}

#[test]
fn telling_why_in_cases() {
    why::check_cases(&Baseline);
}

#[test]
fn telling_why_of_all_levels() {
    why::check_full_buffer(&Baseline);
}

#[test]
fn telling_why_of_arbitrary_groups() {
    why::check_arbitrary_groups(&Baseline, 300);
}

#[test]
fn telling_why_refused_in_order() {
    why::check_orders(&Baseline);
}

#[test]
fn devices_of_one_length() {
    histories::check_shared_lengths(&Baseline);
}

#[test]
fn script() {
    histories::check_script(&Baseline);
}

#[test]
fn crowded_groups() {
    histories::check_crowded_groups(&Baseline);
}

#[test]
fn the_largest_device() {
    histories::check_largest_device(&Baseline);
}

#[test]
fn wrong_lengths() {
    arguments::check_wrong_lengths(&Baseline);
}

#[test]
fn numbers_at_their_limits() {
    arguments::check_limits(&Baseline);
}

#[test]
fn arguments_at_their_limits() {
    arguments::check_arguments(&Baseline);
}

#[test]
fn both_engines() {
    engines::check_engines(&Baseline, 500);
}

/// The plain engine.
mod plain {
    use hedjosur_conformance::plain::{arguments, histories, largest, refusals, sizes};
    use hedjosur_conformance::subjects::Baseline;

    #[test]
    fn cases() {
        histories::check_cases(&Baseline);
    }

    #[test]
    fn random_histories() {
        histories::check_histories(&Baseline, 200);
    }

    #[test]
    fn the_largest_device() {
        largest::check_largest_device(&Baseline);
    }

    #[test]
    fn devices_of_all_sizes() {
        sizes::check_sizes(&Baseline);
    }

    #[test]
    fn arbitrary_states() {
        arguments::check_arbitrary_states(&Baseline, 400);
    }

    #[test]
    fn wrong_lengths() {
        arguments::check_wrong_lengths(&Baseline);
    }

    #[test]
    fn numbers_at_their_limits() {
        arguments::check_limits(&Baseline);
    }

    #[test]
    fn arguments_at_their_limits() {
        arguments::check_arguments(&Baseline);
    }

    #[test]
    fn refusals_in_their_order() {
        refusals::check_orders(&Baseline);
    }
}
