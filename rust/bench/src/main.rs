//! Times the proved library beside the plain one, in one run.
//!
//!     bench [--quick]
//!
//! Rounds of the two take turns, so that what disturbs one disturbs the other.
//! With `--quick` there are so few packets that the numbers say nothing.

#![forbid(unsafe_code)]

mod side;
mod traffic;

use side::{Ours, Plain};
use std::process::ExitCode;
use traffic::{round, Kind, BATCH};

fn main() -> ExitCode {
    let words: Vec<String> = std::env::args().skip(1).collect();
    let (rounds, batches) = match words.as_slice() {
        [] => (9, 62_500),
        [word] if word == "--quick" => (3, 125),
        _ => {
            eprintln!("usage: bench [--quick]");
            return ExitCode::from(2);
        }
    };
    println!(
        "{rounds} rounds of {} packets each, nanoseconds a packet",
        batches * BATCH
    );
    println!(
        "{:40} {:>9} {:>9} {:>9} {:>9} {:>7}",
        "", "ours", "(least)", "plain", "(least)", "ratio"
    );
    for kind in Kind::ALL {
        let (mut ours, mut plain) = (Vec::new(), Vec::new());
        for turn in 0..rounds {
            if turn % 2 == 0 {
                ours.push(round::<Ours>(kind, batches));
                plain.push(round::<Plain>(kind, batches));
            } else {
                plain.push(round::<Plain>(kind, batches));
                ours.push(round::<Ours>(kind, batches));
            }
        }
        let (ours, plain) = (median_and_least(ours), median_and_least(plain));
        println!(
            "{:40} {:9.1} {:9.1} {:9.1} {:9.1} {:7.2}",
            kind.name(),
            ours.0,
            ours.1,
            plain.0,
            plain.1,
            ours.0 / plain.0
        );
    }
    println!("ours and plain: the median of the rounds; ratio: of the medians, ours to plain");
    ExitCode::SUCCESS
}

fn median_and_least(mut each: Vec<f64>) -> (f64, f64) {
    each.sort_by(f64::total_cmp);
    (each[each.len() / 2], each[0])
}
