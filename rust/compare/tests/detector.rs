//! The comparison finds an implementation with one rule wrong, and leaves a
//! few calls of the list that showed it.

mod wrong;

use compare::plain_side::Plain;
use compare::play::{play, Disagreement, Enough};
use compare::subject::Subject;
use wrong::*;

const ENOUGH: Enough = Enough {
    calls: 200_000,
    time: None,
};

/// The lines of the shrunk list.
fn found<S: Subject>() -> Vec<String> {
    match play::<S, Plain>(1, &ENOUGH) {
        Ok(_) => panic!("{} calls do not show it", ENOUGH.calls),
        Err(Disagreement { calls, .. }) => calls
            .iter()
            .map(|call| call.script().unwrap_or_default())
            .collect(),
    }
}

fn kinds(lines: &[String]) -> Vec<&str> {
    lines
        .iter()
        .filter_map(|line| line.split(' ').next())
        .collect()
}

#[test]
fn pad_as_payload_is_found() {
    let lines = found::<Wrong<PadIsPayload>>();
    assert!(lines.len() <= 5, "{lines:#?}");
    assert_eq!(kinds(&lines).last(), Some(&"in"));
}

#[test]
fn the_edge_of_the_half_space_is_found() {
    let lines = found::<Wrong<HalfIsBehind>>();
    assert!(lines.len() <= 4, "{lines:#?}");
    assert_eq!(kinds(&lines).last(), Some(&"in"));
}

#[test]
fn an_atomic_done_twice_is_found() {
    let mut lines = found::<Wrong<AddsAgain>>();
    lines.sort();
    assert_eq!(
        kinds(&lines),
        ["in", "in", "pair", "ready", "region"],
        "{lines:#?}"
    );
}

#[test]
fn a_byte_past_the_answer_is_found() {
    let lines = found::<Wrong<WritesPast>>();
    assert!(lines.len() <= 6, "{lines:#?}");
}

#[test]
fn useless_ones_are_found() {
    assert!(found::<Wrong<DropsAll>>().len() <= 6);
    assert!(found::<Wrong<PlacesNothing>>().len() <= 6);
    assert!(found::<Wrong<TellsNothing>>().len() <= 6);
}

#[test]
fn the_same_agrees_and_meets_every_answer() {
    let enough = Enough {
        calls: 50_000,
        time: None,
    };
    match play::<Plain, Plain>(1, &enough) {
        Ok(counts) => assert_eq!(counts.missing(), []),
        Err(disagreement) => panic!("{:?}", disagreement.difference),
    }
}
