//! A lossy stream against a run of the same messages in order.

use plain::*;

use crate::common::*;

struct Message {
    request: Request,
    data: Vec<u8>,
}

fn message(random: &mut Random) -> Message {
    let length = random.pick(&[0, 1, 3, 4, 255, 256, 257, 512, 600, 1000]);
    let address = ADDRESS + random.below(1000);
    let aligned = ADDRESS + 8 * random.below(200);
    let immediate = random.one_in(2).then(|| random.next() as u32);
    let request = match random.below(6) {
        0 | 1 => Request::Send(immediate),
        2 => Request::Write {
            address,
            key: KEY,
            immediate,
        },
        3 => Request::Read {
            address,
            key: KEY,
            length: length as u32,
        },
        4 => Request::FetchAdd {
            address: aligned,
            key: KEY,
            add: random.next(),
        },
        _ => Request::CmpSwap {
            address: aligned,
            key: KEY,
            swap: random.next(),
            compare: 0,
        },
    };
    let carries = matches!(request, Request::Send(_) | Request::Write { .. });
    Message {
        request,
        data: if carries {
            random.bytes(length)
        } else {
            Vec::new()
        },
    }
}

/// The memory that the messages leave, and the completions, by plain copying.
fn in_order(messages: &[Message], memory: &mut [u8]) -> Vec<Completion> {
    let mut entries = 0u64;
    let mut completions = Vec::new();
    for Message { request, data } in messages {
        let mut complete = |immediate| {
            let entry = entries;
            entries += 1;
            completions.push(Completion {
                entry,
                bytes: data.len() as u64,
                immediate,
            });
            entry
        };
        let word =
            |memory: &[u8], at: usize| u64::from_le_bytes(memory[at..at + 8].try_into().unwrap());
        match *request {
            Request::Send(immediate) => {
                let at = place(complete(immediate)) as usize;
                memory[at..at + data.len()].copy_from_slice(data);
            }
            Request::Write {
                address, immediate, ..
            } => {
                let at = (address - ADDRESS) as usize;
                memory[at..at + data.len()].copy_from_slice(data);
                if immediate.is_some() {
                    complete(immediate);
                }
            }
            Request::Read { .. } => {}
            Request::FetchAdd { address, add, .. } => {
                let at = (address - ADDRESS) as usize;
                let sum = word(memory, at).wrapping_add(add);
                memory[at..at + 8].copy_from_slice(&sum.to_le_bytes());
            }
            Request::CmpSwap {
                address,
                swap,
                compare,
                ..
            } => {
                let at = (address - ADDRESS) as usize;
                if word(memory, at) == compare {
                    memory[at..at + 8].copy_from_slice(&swap.to_le_bytes());
                }
            }
        }
    }
    completions
}

fn place(entry: u64) -> u64 {
    2048 + entry % 3 * 512
}

#[test]
fn a_lossy_stream_is_executed_once_and_in_order() {
    for seed in 1..60 {
        let mut random = Random(seed * 0x9E37_79B9);
        let start = (random.below(40) as u32).wrapping_sub(20) & 0xFF_FFFF;
        let messages: Vec<_> = (0..60).map(|_| message(&mut random)).collect();
        let mut stream = Vec::new();
        let mut psn = start;
        for Message { request, data } in &messages {
            stream.extend(pieces(RC_LINE, *request, data, psn));
            psn = cut(RC_LINE, *request, data, psn, 0, &mut [0; 4128])
                .unwrap()
                .1;
        }

        let mut bench = Bench::ready(Setup { start, ..setup(RC) });
        let mut wanted = bench.memory.clone();
        let completions = in_order(&messages, &mut wanted);
        let mut got = Vec::new();
        let mut posted = 0;
        let mut next = 0;
        while next < stream.len() {
            if random.one_in(3) && bench.pair.waiting().len() < 16 {
                bench.post(posted, place(posted), 1024);
                posted += 1;
            }
            // Mostly the next packet, at times one behind or ahead.
            let index = if random.one_in(3) {
                (next + random.below(8) as usize)
                    .saturating_sub(4)
                    .min(stream.len() - 1)
            } else {
                next
            };
            let answer = bench.give(&stream[index]);
            got.extend(answer.completion);
            if index != next {
                assert!(matches!(answer.number, 4 | 5 | 16));
            } else if answer.number != 19 {
                assert!(answer.number <= 3);
                next += 1;
            }
            if random.one_in(2) {
                let busy = bench.pair.responses_pending() > 0;
                assert_eq!(bench.give(&stream[index]).number == 32, busy);
            }
            bench.drain();
        }
        assert_eq!(bench.memory, wanted);
        assert_eq!(got, completions);
        assert_eq!((bench.pair.expected(), bench.pair.msn()), (psn, 60));
    }
}
