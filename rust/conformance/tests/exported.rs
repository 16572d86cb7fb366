//! The proved calls against the model, through the static library and its
//! wrapper. Each check tells how many calls it made without a difference.

use hedjosur_conformance::subjects::Exported;
use hedjosur_conformance::{agreement, arguments, engines, histories, marks, why};

#[test]
fn cases() {
    histories::check_cases(&Exported);
}

#[test]
fn script() {
    histories::check_script(&Exported);
}

#[test]
fn random_histories() {
    histories::check_histories(&Exported, 2200);
}

#[test]
fn telling_why_in_cases() {
    why::check_cases(&Exported);
}

#[test]
fn telling_why_of_all_levels() {
    why::check_full_buffer(&Exported);
}

#[test]
fn telling_why_of_arbitrary_groups() {
    why::check_arbitrary_groups(&Exported, 2500);
}

#[test]
fn telling_why_refused_in_order() {
    why::check_orders(&Exported);
}

#[test]
fn devices_of_one_length() {
    histories::check_shared_lengths(&Exported);
}

#[test]
fn marks_that_hold_anything() {
    marks::check_marks(&Exported);
}

#[test]
fn agreement_after_calls() {
    agreement::check_examples(&Exported);
}

#[test]
fn agreement_of_pairs() {
    agreement::check_agreement(&Exported, 2000);
}

#[test]
fn crowded_groups() {
    histories::check_crowded_groups(&Exported);
}

#[test]
fn the_largest_device() {
    histories::check_largest_device(&Exported);
}

#[test]
fn arbitrary_states() {
    arguments::check_arbitrary_states(&Exported, 2800);
}

#[test]
fn wrong_lengths() {
    arguments::check_wrong_lengths(&Exported);
}

#[test]
fn numbers_at_their_limits() {
    arguments::check_limits(&Exported);
}

#[test]
fn arguments_at_their_limits() {
    arguments::check_arguments(&Exported);
}

#[test]
fn both_engines() {
    engines::check_engines(&Exported, 3500);
}

/// The plain engine.
mod plain {
    use hedjosur_conformance::plain::{arguments, histories, largest, refusals, sizes};
    use hedjosur_conformance::subjects::Exported;

    #[test]
    fn cases() {
        histories::check_cases(&Exported);
    }

    #[test]
    fn random_histories() {
        histories::check_histories(&Exported, 3000);
    }

    #[test]
    fn the_largest_device() {
        largest::check_largest_device(&Exported);
    }

    #[test]
    fn devices_of_all_sizes() {
        sizes::check_sizes(&Exported);
    }

    #[test]
    fn arbitrary_states() {
        arguments::check_arbitrary_states(&Exported, 12_000);
    }

    #[test]
    fn wrong_lengths() {
        arguments::check_wrong_lengths(&Exported);
    }

    #[test]
    fn numbers_at_their_limits() {
        arguments::check_limits(&Exported);
    }

    #[test]
    fn arguments_at_their_limits() {
        arguments::check_arguments(&Exported);
    }

    #[test]
    fn refusals_in_their_order() {
        refusals::check_orders(&Exported);
    }
}
