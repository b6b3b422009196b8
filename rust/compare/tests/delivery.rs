//! The test of demand 3 passes the plain side, and refuses it with one rule
//! wrong.

mod wrong;

use compare::delivery::{half_space, run};
use compare::plain_side::Plain;
use compare::subject::Subject;
use wrong::*;

fn refused<S: Subject>() {
    let script = run::<S>(1, 20_000)
        .err()
        .expect("it is not as the plain run")
        .script;
    assert!(
        script.iter().any(|line| line.starts_with("in ")),
        "{script:#?}"
    );
}

#[test]
fn the_plain_side_is_as_the_plain_run() {
    let tally = run::<Plain>(1, 20_000)
        .map_err(|failure| failure.what)
        .expect("as the plain run");
    assert!(tally.calls >= 20_000 && tally.executed > 1_000 && tally.wrapped > 0);
}

#[test]
fn wrong_ones_are_refused() {
    refused::<Wrong<PadIsPayload>>();
    refused::<Wrong<AddsAgain>>();
    refused::<Wrong<DropsAll>>();
    refused::<Wrong<PlacesNothing>>();
    refused::<Wrong<TellsNothing>>();
}

/// Eight million calls, so only where they are fast.
#[test]
#[cfg_attr(debug_assertions, ignore)]
fn half_of_all_numbers_ahead_and_behind() {
    assert!(half_space::<Plain>().is_ok());
}
