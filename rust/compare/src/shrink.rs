//! Makes a list of calls short that two implementations answer differently.

use crate::call::Call;
use crate::duel::{Difference, Duel};
use crate::subject::*;

/// Runs a list from nothing: the first difference, with the call's place.
pub fn first_difference<A: Subject, B: Subject>(calls: &[Call]) -> Option<(usize, Difference)> {
    let mut duel = Duel::<A, B>::default();
    calls
        .iter()
        .enumerate()
        .find_map(|(place, call)| duel.call(call).err().map(|difference| (place, difference)))
}

/// The shortest list that dropping calls, and beginning later, leads to.
pub fn shrink<A: Subject, B: Subject>(mut calls: Vec<Call>) -> Vec<Call> {
    loop {
        let before = calls.len();
        calls = dropped::<A, B>(calls);
        calls = begun_later::<A, B>(calls);
        if calls.len() >= before {
            return shortened::<A, B>(calls);
        }
    }
}

/// Cuts what follows the difference off, if there is still one.
fn still<A: Subject, B: Subject>(mut calls: Vec<Call>) -> Option<Vec<Call>> {
    let (place, _) = first_difference::<A, B>(&calls)?;
    calls.truncate(place + 1);
    Some(calls)
}

/// Drops runs of calls, long ones first, as long as the two still differ.
fn dropped<A: Subject, B: Subject>(mut calls: Vec<Call>) -> Vec<Call> {
    let mut run = calls.len() / 2;
    while run > 0 {
        let mut at = 0;
        while at + run <= calls.len() {
            let mut fewer = calls.clone();
            fewer.drain(at..at + run);
            match still::<A, B>(fewer) {
                Some(fewer) => calls = fewer,
                None => at += run,
            }
        }
        run /= 2;
    }
    calls
}

/// Cuts the ends of packets off that the difference does not need.
fn shortened<A: Subject, B: Subject>(mut calls: Vec<Call>) -> Vec<Call> {
    for place in 0..calls.len() {
        let mut off = 2_048;
        while off >= 4 {
            let mut shorter = calls.clone();
            let cut = match shorter.get_mut(place) {
                Some(Call::Inbound { packet, .. }) if packet.len() >= 12 + off => {
                    packet.truncate(packet.len() - off);
                    still::<A, B>(shorter).filter(|shorter| shorter.len() == calls.len())
                }
                _ => None,
            };
            match cut {
                Some(shorter) => calls = shorter,
                None => off /= 2,
            }
        }
    }
    calls
}

/// A packet that was executed cannot be dropped by itself, since the numbers
/// after it count on it. So a pair is set up that expects what the old one
/// had come to, and gets the calls of its host at once.
fn begun_later<A: Subject, B: Subject>(calls: Vec<Call>) -> Vec<Call> {
    let mut duel = Duel::<A, B>::default();
    let mut setup = None;
    let mut host = Vec::new();
    let mut best = None;
    for (place, call) in calls.iter().enumerate() {
        if let (Some(setup), Some(view)) = (setup, duel.view()) {
            let setup = Setup {
                start: view.expected,
                ..setup
            };
            let mut later = vec![Call::SetUp(setup)];
            later.extend(host.iter().cloned());
            later.extend(calls[place..].iter().cloned());
            if later.len() < calls.len() {
                best = still::<A, B>(later).or(best);
            }
        }
        match call {
            Call::SetUp(made) => {
                setup = Some(*made);
                host.clear();
            }
            Call::Reset => host.clear(),
            Call::Inbound { .. } | Call::Next { .. } => {}
            _ if call.on_pair() => host.push(call.clone()),
            _ => {}
        }
        if duel.call(call).is_err() {
            break;
        }
    }
    best.unwrap_or(calls)
}
