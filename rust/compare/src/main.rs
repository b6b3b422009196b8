//! Compares the proved library with the plain one, call by call.
//!
//!     compare [--seed N] [--calls N] [--seconds S]   both given the same calls
//!     compare --delivery [--seed N] [--calls N]      the proved one against a plain run of its streams
//!     compare --script LINES [--seed N]              a script of calls, for the drivers

use std::io::{self, BufWriter, Write};
use std::process::ExitCode;
use std::time::Duration;

use compare::call::Call;
use compare::count::NUMBERS;
use compare::delivery;
use compare::extremes::{all_memory, all_numbers};
use compare::plain_side::Plain;
use compare::play::{play, Disagreement, Enough};
use compare::script;
use compare::subject::Subject;
use compare::udalopek_side::Proved;

/// A run of so many calls has to meet every answer at least once.
const MANY: u64 = 50_000;

#[derive(Default)]
struct Options {
    seed: Option<u64>,
    calls: Option<u64>,
    seconds: Option<u64>,
    script: Option<u64>,
    delivery: bool,
}

fn options() -> Option<Options> {
    let mut options = Options::default();
    let mut words = std::env::args().skip(1);
    while let Some(word) = words.next() {
        let option = match word.as_str() {
            "--seed" => &mut options.seed,
            "--calls" => &mut options.calls,
            "--seconds" => &mut options.seconds,
            "--script" => &mut options.script,
            "--delivery" => {
                options.delivery = true;
                continue;
            }
            _ => return None,
        };
        *option = Some(words.next()?.parse().ok()?);
    }
    Some(options)
}

fn main() -> ExitCode {
    let Some(options) = options() else {
        eprintln!(
            "usage: compare [--seed N] [--calls N] [--seconds S]\n       \
             compare --delivery [--seed N] [--calls N]\n       \
             compare --script LINES [--seed N]"
        );
        return ExitCode::from(2);
    };
    let seed = options.seed.unwrap_or(1);
    let good = match options.script {
        Some(lines) => write_script(lines, seed),
        None if options.delivery => deliver(seed, options.calls.unwrap_or(200_000)),
        None => {
            let calls = options.calls.unwrap_or(3_000_000);
            let time = options.seconds.map(Duration::from_secs);
            side_by_side(seed, &Enough { calls, time })
        }
    };
    if good {
        ExitCode::SUCCESS
    } else {
        ExitCode::FAILURE
    }
}

fn write_script(lines: u64, seed: u64) -> bool {
    let mut output = BufWriter::new(io::stdout().lock());
    script::write(lines, seed, &mut output)
        .and_then(|()| output.flush())
        .is_ok()
}

fn side_by_side(seed: u64, enough: &Enough) -> bool {
    let counts = match play::<Proved, Plain>(seed, enough) {
        Ok(counts) => counts,
        Err(disagreement) => {
            report(seed, &disagreement);
            return false;
        }
    };
    for (what, agreed) in [
        ("all of memory", all_memory::<Proved, Plain>()),
        ("all numbers", all_numbers::<Proved, Plain>()),
    ] {
        match agreed {
            Ok(calls) => println!("{what}: {calls} calls agree"),
            Err(differs) => {
                println!("{what}: {differs}");
                return false;
            }
        }
    }
    counts.print();
    let missing = counts.missing();
    if !missing.is_empty() && counts.total() >= MANY {
        println!("no call was answered with {missing:?}");
        return false;
    }
    println!("{} calls agree", counts.total());
    counts.total() > 0
}

fn report(seed: u64, disagreement: &Disagreement) {
    let Disagreement {
        seed: list,
        length,
        calls,
        difference,
    } = disagreement;
    println!("seed {seed}: the list of seed {list} is answered differently, at call {length}");
    println!("{} calls are enough:", calls.len());
    for call in calls {
        match call {
            Call::WriteHeader { header, out } => println!("# write {header:?} into {out} bytes"),
            _ => println!("{}", call.script().unwrap_or_default()),
        }
    }
    println!("{}: {}", Proved::NAME, difference.answers[0]);
    println!("{}: {}", Plain::NAME, difference.answers[1]);
    println!("what differs: {}", difference.what);
}

fn deliver(seed: u64, calls: u64) -> bool {
    let tally = match delivery::run::<Proved>(seed, calls) {
        Ok(tally) => tally,
        Err(failure) => {
            println!("seed {seed}: not as the plain run: {}", failure.what);
            failure.script.iter().for_each(|line| println!("{line}"));
            return false;
        }
    };
    match delivery::half_space::<Proved>() {
        Ok(calls) => {
            println!("half of all numbers ahead and behind: {calls} calls as the plain run")
        }
        Err(what) => {
            println!("half of all numbers ahead and behind: {what}");
            return false;
        }
    }
    for number in NUMBERS {
        match tally.answers.of(number) {
            0 => {}
            count => println!("answer {number:2}: {count:9}"),
        }
    }
    println!(
        "{} packets, {} of them executed; {} completions; {} streams over the last PSN",
        tally.packets, tally.executed, tally.completions, tally.wrapped
    );
    println!(
        "{} streams, {} calls: as the plain run",
        tally.streams, tally.calls
    );
    true
}
