//! Plays lists of calls until there are enough, or two answers differ.

use std::time::{Duration, Instant};

use crate::call::Call;
use crate::count::Counts;
use crate::duel::{Difference, Duel};
use crate::generate::Player;
use crate::random::seed_of;
use crate::shrink::{first_difference, shrink};
use crate::subject::*;

/// How long to go on.
pub struct Enough {
    pub calls: u64,
    pub time: Option<Duration>,
}

/// A list that is answered differently, as short as it could be made.
pub struct Disagreement {
    pub seed: u64,
    /// How many calls the list had before.
    pub length: usize,
    pub calls: Vec<Call>,
    pub difference: Difference,
}

/// Lists from the seeds that follow from `seed`.
pub fn play<A: Subject, B: Subject>(seed: u64, enough: &Enough) -> Result<Counts, Disagreement> {
    let begun = Instant::now();
    let mut counts = Counts::default();
    let mut list = 0;
    loop {
        let done = match enough.time {
            Some(time) => begun.elapsed() >= time,
            None => counts.total() >= enough.calls,
        };
        if done {
            return Ok(counts);
        }
        let own = seed_of(seed, list);
        if let Err(calls) = play_list::<A, B>(own, &mut counts) {
            let length = calls.len();
            let calls = shrink::<A, B>(calls);
            let (_, difference) =
                first_difference::<A, B>(&calls).expect("a list is only shrunk while it differs");
            return Err(Disagreement {
                seed: own,
                length,
                calls,
                difference,
            });
        }
        list += 1;
    }
}

/// One list; where the two differ, its calls up to there.
fn play_list<A: Subject, B: Subject>(seed: u64, counts: &mut Counts) -> Result<(), Vec<Call>> {
    let mut player = Player::new(seed, LIMIT);
    let mut duel = Duel::<A, B>::default();
    let mut calls = Vec::new();
    while calls.len() < player.calls() {
        let call = player.next(duel.view(), duel.memory());
        let answer = duel.call(&call);
        calls.push(call);
        let (Ok(answer), Some(call)) = (answer, calls.last()) else {
            return Err(calls);
        };
        counts.add(call, &answer);
        player.saw(call, &answer, duel.output());
    }
    Ok(())
}
