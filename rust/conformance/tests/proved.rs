//! The proved inner functions against the model, through their static library.

use hedjosur_conformance::subjects::Proved;
use hedjosur_conformance::{batches, groups, passes};

#[test]
fn sorting() {
    batches::check_sorting(&Proved);
}

#[test]
fn learning() {
    batches::check_learning(&Proved);
}

#[test]
fn programming() {
    passes::check_programming(&Proved);
}

#[test]
fn stopped_passes() {
    passes::check_stops(&Proved);
}

#[test]
fn arguments_of_passes() {
    passes::check_arguments();
}

#[test]
fn soundness() {
    groups::check_soundness(&Proved);
}

#[test]
fn finding() {
    groups::check_finding(&Proved);
}

#[test]
fn insertion() {
    groups::check_insertion(&Proved);
}

#[test]
fn compaction() {
    groups::check_compaction(&Proved);
}

#[test]
fn steps() {
    groups::check_steps(&Proved);
}
