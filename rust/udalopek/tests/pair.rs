//! A pair over its safe calls: what each answer changes, what is to be sent, and that refusals change nothing.
mod common;

use common::*;
use udalopek::{
    read_header, Answer, Completion, Entry, Extension, QueuePair, Refusal, Region, Request,
    Service, Setup, State,
};

const SEND: Request = Request::Send(None);

/// All that a host can see of a pair.
fn seen(pair: &QueuePair) -> String {
    format!("{pair:?}")
}

#[test]
fn a_send_takes_effect_once() {
    let mut host = Host::ready(setup());
    host.pair.post_entry(entry(0)).unwrap();
    let (got, outgoing) = host.take(&W12);
    assert_eq!(got.answer, Answer::Acknowledged);
    assert_eq!(outgoing, W12_ACK);
    let mut memory = pattern(MEMORY);
    memory[2048..2051].copy_from_slice(b"abc");
    assert_eq!(host.memory, memory);
    let completion = Completion {
        entry: 0,
        bytes: 3,
        immediate: None,
    };
    assert_eq!(got.completion, Some(completion));
    assert_eq!((host.pair.expected(), host.pair.msn()), (8, 1));

    // Another message's bytes under the old PSN are not stored either.
    host.pair.post_entry(entry(1)).unwrap();
    let before = seen(&host.pair);
    for duplicate in [W12.to_vec(), packet(Service::Rc, SEND, b"xyz", 7, 0)] {
        let (got, outgoing) = host.take(&duplicate);
        assert_eq!(got.answer, Answer::DuplicateAnswered);
        assert_eq!(got.completion, None);
        assert_eq!(outgoing, W12_ACK);
        assert_eq!(host.memory, memory);
        assert_eq!(seen(&host.pair), before);
    }
}

#[test]
fn a_send_of_two_packets_holds_its_entry() {
    let mut host = Host::ready(setup());
    let (first, second) = ((40, 1024, 400), (41, 2000, 1));
    for (number, offset, length) in [first, second] {
        let entry = Entry {
            number,
            offset,
            length,
        };
        host.pair.post_entry(entry).unwrap();
    }
    let message = &pattern(400)[100..];
    let immediate = Request::Send(Some(0xdeadbeef));
    assert_eq!(host.answer(immediate, message, 7, 0), Answer::Executed);
    assert_eq!(host.pair.open_message(), Some((0, 256)));
    assert!(host.pair.held());
    assert_eq!(host.pair.waiting(), [first, second]);
    assert_eq!((host.pair.expected(), host.pair.msn()), (8, 0));

    let got = host.hand(immediate, message, 7, 1);
    assert_eq!(got.answer, Answer::Acknowledged);
    let completion = Completion {
        entry: 40,
        bytes: 300,
        immediate: Some(0xdeadbeef),
    };
    assert_eq!(got.completion, Some(completion));
    assert_eq!(host.pair.open_message(), None);
    assert!(!host.pair.held());
    assert_eq!(host.pair.waiting(), [second]);
    let mut memory = pattern(MEMORY);
    memory[1024..1324].copy_from_slice(message);
    assert_eq!(host.memory, memory);
}

#[test]
fn a_write_goes_to_its_region() {
    let mut host = Host::ready(setup());
    host.pair.post_entry(entry(3)).unwrap();
    let message = &pattern(301)[1..];
    assert_eq!(host.answer(write(Some(9)), message, 7, 0), Answer::Executed);
    assert_eq!(host.pair.open_message(), Some((6, 256)));
    assert!(!host.pair.held());
    let got = host.hand(write(Some(9)), message, 7, 1);
    assert_eq!(got.answer, Answer::Acknowledged);
    let completion = Completion {
        entry: 3,
        bytes: 300,
        immediate: Some(9),
    };
    assert_eq!(got.completion, Some(completion));
    // A WRITE without an immediate takes no entry.
    host.pair.post_entry(entry(4)).unwrap();
    let got = host.hand(write(None), b"x", 9, 0);
    assert_eq!(got.answer, Answer::Acknowledged);
    assert_eq!(got.completion, None);
    assert_eq!(host.pair.waiting().len(), 1);
    let mut memory = pattern(MEMORY);
    memory[..300].copy_from_slice(message);
    memory[0] = b'x';
    assert_eq!(host.memory, memory);
    assert_eq!((host.pair.expected(), host.pair.msn()), (10, 2));
}

#[test]
fn a_read_is_answered_by_responses() {
    let mut host = Host::ready(setup());
    let (got, outgoing) = host.take(&packet(Service::Rc, read(600), b"", 7, 0));
    assert_eq!((got.answer, outgoing.len()), (Answer::ReadAccepted, 0));
    assert_eq!((host.pair.expected(), host.pair.msn()), (10, 1));
    assert_eq!(host.pair.responses_pending(), 3);

    let before = seen(&host.pair);
    let mut out = [0xee; 272];
    let early = host.pair.inbound(&mut host.memory, &W12, &mut out);
    assert_eq!(early, Err(Refusal::ReadUnfinished));
    let short = host.pair.next_response(&host.memory, &mut out[..271]);
    assert_eq!(short, Err(Refusal::OutputShort));
    let other = host.pair.next_response(&host.memory[1..], &mut out);
    assert_eq!(other, Err(Refusal::OutOfRange));
    assert_eq!((seen(&host.pair), out), (before, [0xee; 272]));

    // A removed region does not stop an answer that has begun.
    host.pair.remove_region(KEY).unwrap();
    let responses = host.drain();
    let mut joined: Vec<u8> = Vec::new();
    for (i, response) in responses.iter().enumerate() {
        let header = read_header(response).unwrap();
        assert_eq!(header.opcode, 13 + i as u8);
        assert_eq!(header.psn, 7 + i as u32);
        assert_eq!(header.dest, THEIRS);
        let acknowledged = Extension::Aeth {
            syndrome: 0x1f,
            msn: 1,
        };
        let (extension, headers) = match i {
            1 => (Extension::None, 12),
            _ => (acknowledged, 16),
        };
        assert_eq!(header.extension, extension);
        joined.extend(&response[headers..response.len() - usize::from(header.pad)]);
    }
    assert_eq!(responses.len(), 3);
    assert_eq!(joined, pattern(600));
    let none = host.pair.next_response(&host.memory, &mut out);
    assert_eq!(none, Err(Refusal::WrongState));
}

#[test]
fn an_atomic_is_not_executed_twice() {
    let mut host = Host::ready(setup());
    let word = |memory: &[u8]| u64::from_le_bytes(memory[..8].try_into().unwrap());
    host.memory[..8].copy_from_slice(&u64::MAX.to_le_bytes());
    let value_of = |outgoing: &[u8]| match read_header(outgoing).unwrap().extension {
        Extension::AethValue { value, .. } => value,
        other => panic!("{other:?}"),
    };
    let fetch = packet(Service::Rc, add(2), b"", 7, 0);
    let (got, outgoing) = host.take(&fetch);
    assert_eq!(got.answer, Answer::AtomicExecuted);
    assert_eq!((value_of(&outgoing), word(&host.memory)), (u64::MAX, 1));

    // Stored if equal, and not if not.
    for (psn, compare, after) in [(8, 1, 77), (9, 1, 77)] {
        let before = word(&host.memory);
        let request = Request::CmpSwap {
            address: ADDRESS,
            key: KEY,
            swap: 77,
            compare,
        };
        let (got, outgoing) = host.take(&packet(Service::Rc, request, b"", psn, 0));
        assert_eq!(got.answer, Answer::AtomicExecuted);
        assert_eq!((value_of(&outgoing), word(&host.memory)), (before, after));
    }
    assert_eq!(host.pair.saved(), [(7, u64::MAX), (8, 1), (9, 77)]);

    let before = seen(&host.pair);
    let (got, outgoing) = host.take(&fetch);
    assert_eq!(got.answer, Answer::DuplicateAnswered);
    assert_eq!((value_of(&outgoing), word(&host.memory)), (u64::MAX, 77));
    assert_eq!(seen(&host.pair), before);

    // A seventeenth replaces the oldest.
    for psn in 10..24 {
        assert_eq!(host.answer(add(1), b"", psn, 0), Answer::AtomicExecuted);
    }
    let saved = host.pair.saved();
    assert_eq!(saved.len(), 16);
    assert_eq!((saved[0], saved[15]), ((8, 1), (23, 90)));
    assert_eq!(host.take(&fetch).0.answer, Answer::Dropped);
}

#[test]
fn naks_say_what_is_wrong() {
    let syndrome_of = |outgoing: &[u8]| {
        let header = read_header(outgoing).unwrap();
        match header.extension {
            Extension::Aeth { syndrome, .. } => (syndrome, header.psn),
            other => panic!("{other:?}"),
        }
    };
    let timer = Setup {
        timer: 19,
        ..setup()
    };
    let mut host = Host::ready(timer);

    // Ahead: one NAK with the expected PSN, then none until that one is executed.
    let ahead = packet(Service::Rc, SEND, b"abc", 9, 0);
    let (got, outgoing) = host.take(&ahead);
    assert_eq!(got.answer, Answer::SequenceNak);
    assert_eq!(syndrome_of(&outgoing), (0x60, 7));
    assert!(host.pair.nak_mark());
    assert_eq!(host.take(&ahead).0.answer, Answer::Dropped);

    // No entry waits.
    let (got, outgoing) = host.take(&W12);
    assert_eq!(got.answer, Answer::NotReadyNak);
    assert_eq!(syndrome_of(&outgoing), (0x20 + 19, 7));
    host.pair.post_entry(entry(0)).unwrap();
    assert_eq!(host.take(&W12).0.answer, Answer::Acknowledged);
    assert!(!host.pair.nak_mark());

    let unknown = Request::Write {
        address: ADDRESS,
        key: KEY + 1,
        immediate: None,
    };
    let unaligned = Request::FetchAdd {
        address: ADDRESS + 4,
        key: KEY,
        add: 1,
    };
    let cases = [
        (unknown, &b"x"[..], Answer::AccessNak, 0x62),
        (unaligned, b"", Answer::InvalidRequestNak, 0x61),
    ];
    for (request, message, answer, syndrome) in cases {
        let mut host = Host::ready(setup());
        host.pair.post_entry(entry(0)).unwrap();
        let (got, outgoing) = host.take(&packet(Service::Rc, request, message, 7, 0));
        assert_eq!(got.answer, answer);
        assert_eq!(syndrome_of(&outgoing), (syndrome, 7));
        assert_eq!(host.pair.state(), State::Error);
        assert_eq!(host.memory, pattern(MEMORY));
        assert_eq!(host.pair.waiting().len(), 1);

        // In Error all packets are dropped, and no memory is given.
        assert_eq!(host.take(&W12).0.answer, Answer::Dropped);
        assert_eq!(host.pair.post_entry(entry(1)), Err(Refusal::WrongState));
        assert_eq!(host.pair.add_region(region()), Err(Refusal::WrongState));
        assert_eq!(host.pair.make_ready(), Err(Refusal::WrongState));
        host.pair.reset().unwrap();
        assert_eq!(host.pair.state(), State::Init);
        assert!(host.pair.waiting().is_empty() && host.pair.regions().is_empty());
        host.pair.post_entry(entry(0)).unwrap();
        host.pair.make_ready().unwrap();
        assert_eq!(host.take(&W12).0.answer, Answer::Acknowledged);
    }
}

#[test]
fn functions_and_rights_are_each_their_own() {
    let requests = [
        (SEND, &b"x"[..]),
        (write(None), b"x"),
        (read(1), b""),
        (add(1), b""),
    ];
    let done = [
        Answer::Acknowledged,
        Answer::Acknowledged,
        Answer::ReadAccepted,
        Answer::AtomicExecuted,
    ];
    for (asked, (request, message)) in requests.into_iter().enumerate() {
        for missing in 0..4 {
            let functions = Setup {
                send: missing != 0,
                write: missing != 1,
                read: missing != 2,
                atomic: missing != 3,
                ..setup()
            };
            let mut host = Host::ready(functions);
            host.pair.post_entry(entry(0)).unwrap();
            let answer = host.answer(request, message, 7, 0);
            let refused = Answer::InvalidRequestNak;
            assert_eq!(
                answer,
                if asked == missing {
                    refused
                } else {
                    done[asked]
                }
            );

            // A SEND needs no right.
            let rights = Region {
                write: missing != 1,
                read: missing != 2,
                atomic: missing != 3,
                ..region()
            };
            let mut host = Host::ready(setup());
            host.pair.remove_region(KEY).unwrap();
            host.pair.add_region(rights).unwrap();
            host.pair.post_entry(entry(0)).unwrap();
            let answer = host.answer(request, message, 7, 0);
            let refused = asked == missing && asked != 0;
            assert_eq!(
                answer,
                if refused {
                    Answer::AccessNak
                } else {
                    done[asked]
                }
            );
        }
    }
}

#[test]
fn packets_for_others_are_dropped() {
    let mut host = Host::ready(setup());
    host.pair.post_entry(entry(0)).unwrap();
    let before = seen(&host.pair);
    // No bytes, half a word, too long; then UC, a response, TVer, P_Key, DestQP, no service.
    let mut dropped = vec![Vec::new(), W12[..15].to_vec(), vec![0; 4132]];
    let bytes = [
        (0, 0x24),
        (0, 0x11),
        (1, 0x11),
        (2, 0x7e),
        (7, 0x13),
        (0, 0xe4),
    ];
    for (at, value) in bytes {
        let mut packet = W12.to_vec();
        packet[at] = value;
        dropped.push(packet);
    }
    for packet in dropped {
        let (got, outgoing) = host.take(&packet);
        assert_eq!((got.answer, outgoing.len()), (Answer::Dropped, 0));
        assert_eq!(seen(&host.pair), before);
        assert_eq!(host.memory, pattern(MEMORY));
    }
}

#[test]
fn an_unreliable_message_is_whole_or_not_told() {
    let uc = Setup {
        service: Service::Uc,
        ..setup()
    };
    let mut host = Host::ready(uc);
    let posted = Entry {
        number: 1,
        offset: 1024,
        length: 1000,
    };
    host.pair.post_entry(posted).unwrap();
    let message = &pattern(900)[200..];
    assert_eq!(host.answer(SEND, message, 100, 0), Answer::Executed);
    assert!(host.pair.held());
    // The Middle is lost.
    assert_eq!(host.answer(SEND, message, 100, 2), Answer::Abandoned);
    assert!(!host.pair.held());
    assert_eq!(host.pair.waiting(), [(1, 1024, 1000)]);
    assert_eq!(host.pair.msn(), 0);
    assert_eq!(host.answer(SEND, message, 100, 1), Answer::Dropped);
    // The next message comes whole.
    assert_eq!(host.answer(SEND, message, 200, 0), Answer::Executed);
    assert_eq!(host.answer(SEND, message, 200, 1), Answer::Executed);
    let got = host.hand(SEND, message, 200, 2);
    assert_eq!((got.answer, got.outgoing), (Answer::Executed, 0));
    let completion = Completion {
        entry: 1,
        bytes: 700,
        immediate: None,
    };
    assert_eq!(got.completion, Some(completion));
    assert_eq!(&host.memory[1024..1724], message);
    assert_eq!((host.pair.expected(), host.pair.msn()), (203, 1));
}

#[test]
fn psns_pass_through_zero() {
    let mut host = Host::ready(Setup {
        start: 0xff_ffff,
        ..setup()
    });
    for number in 0..3 {
        host.pair.post_entry(entry(number)).unwrap();
    }
    let late = packet(Service::Rc, SEND, b"late", 0xff_ffff, 0);
    assert_eq!(host.take(&late).0.answer, Answer::Acknowledged);
    assert_eq!(host.pair.expected(), 0);
    assert_eq!(host.take(&late).0.answer, Answer::DuplicateAnswered);
    assert_eq!(host.answer(SEND, b"ahead", 1, 0), Answer::SequenceNak);
    assert_eq!(host.answer(SEND, b"next", 0, 0), Answer::Acknowledged);
    assert_eq!((host.pair.expected(), host.pair.msn()), (1, 2));
}

#[test]
fn entries_are_used_in_order() {
    let mut host = Host::ready(setup());
    let mut posted = 0;
    for psn in 7..47 {
        while host.pair.post_entry(entry(posted % 16)).is_ok() {
            posted += 1;
        }
        let numbers: Vec<u64> = host.pair.waiting().iter().map(|row| row.0).collect();
        let first = u64::from(psn) - 7;
        let expected: Vec<u64> = (first..first + 16).map(|number| number % 16).collect();
        assert_eq!(numbers, expected);
        let got = host.hand(SEND, b"abc", psn, 0);
        assert_eq!(got.completion.unwrap().entry, first % 16);
    }
    assert_eq!(host.pair.waiting().len(), 15);
    host.pair.post_entry(entry(0)).unwrap();
    assert_eq!(host.pair.post_entry(entry(0)), Err(Refusal::TableFull));
}

#[test]
fn set_up_refuses_bad_numbers() {
    let bad = Refusal::BadNumber;
    let over = 1 << 24;
    let cases = [
        (Setup { pmtu: 0, ..setup() }, bad),
        (
            Setup {
                pmtu: 300,
                ..setup()
            },
            bad,
        ),
        (
            Setup {
                pmtu: usize::MAX,
                ..setup()
            },
            bad,
        ),
        (
            Setup {
                ours: over,
                ..setup()
            },
            bad,
        ),
        (
            Setup {
                theirs: over,
                ..setup()
            },
            bad,
        ),
        (
            Setup {
                start: over,
                ..setup()
            },
            bad,
        ),
        (
            Setup {
                pkey: 0x8000,
                ..setup()
            },
            bad,
        ),
        (
            Setup {
                timer: 32,
                ..setup()
            },
            bad,
        ),
        (
            Setup {
                memory: 1_048_577,
                ..setup()
            },
            Refusal::OutOfRange,
        ),
        (
            Setup {
                memory: usize::MAX,
                ..setup()
            },
            Refusal::OutOfRange,
        ),
    ];
    for (setup, refusal) in cases {
        assert_eq!(
            QueuePair::set_up(setup).map(|_| ()),
            Err(refusal),
            "{setup:?}"
        );
    }
    for memory in [0, 1, 1_048_576] {
        let pair = QueuePair::set_up(Setup { memory, ..setup() }).unwrap();
        assert_eq!(pair.state(), State::Init);
        assert_eq!((pair.expected(), pair.msn(), pair.nak_mark()), (7, 0, false));
        assert_eq!((pair.open_message(), pair.held()), (None, false));
    }
}

#[test]
fn regions_are_kept_by_key() {
    let mut pair = QueuePair::set_up(setup()).unwrap();
    let outside = [
        Region {
            length: 0,
            ..region()
        },
        Region {
            offset: 3073,
            ..region()
        },
        Region {
            offset: u64::MAX,
            ..region()
        },
        Region {
            length: u64::MAX,
            ..region()
        },
        Region {
            address: u64::MAX - 1023,
            ..region()
        },
    ];
    for region in outside {
        assert_eq!(pair.add_region(region), Err(Refusal::OutOfRange));
    }
    let mut regions = Vec::new();
    for key in 0..16 {
        let region = Region {
            key,
            read: key % 2 == 0,
            ..region()
        };
        pair.add_region(region).unwrap();
        regions.push(region);
    }
    assert_eq!(pair.regions(), regions);
    assert_eq!(
        pair.add_region(Region { key: 3, ..region() }),
        Err(Refusal::KeyInUse)
    );
    assert_eq!(pair.add_region(region()), Err(Refusal::TableFull));
    assert_eq!(pair.remove_region(16), Err(Refusal::NoSuchKey));
    assert_eq!(pair.regions(), regions);
    pair.remove_region(3).unwrap();
    assert_eq!(pair.remove_region(3), Err(Refusal::NoSuchKey));
    regions.remove(3);
    assert_eq!(pair.regions(), regions);
}

#[test]
fn refusals_change_nothing() {
    let mut host = Host::ready(setup());
    host.pair.post_entry(entry(0)).unwrap();
    let before = seen(&host.pair);
    let mut out = [0xee; 24];
    // 35 comes before 34.
    let short = host.pair.inbound(&mut [], &W12, &mut out[..23]);
    assert_eq!(short, Err(Refusal::OutputShort));
    let memory = &mut host.memory[..MEMORY - 1];
    let other = host.pair.inbound(memory, &W12, &mut out);
    assert_eq!(other, Err(Refusal::OutOfRange));
    assert_eq!(host.pair.make_ready(), Err(Refusal::WrongState));
    let outside = Entry {
        number: 9,
        offset: 4000,
        length: 97,
    };
    assert_eq!(host.pair.post_entry(outside), Err(Refusal::OutOfRange));
    let none = host.pair.next_response(&host.memory, &mut out);
    assert_eq!(none, Err(Refusal::WrongState));
    assert_eq!(seen(&host.pair), before);
    assert_eq!((out, host.memory), ([0xee; 24], pattern(MEMORY)));
}

#[test]
fn a_clone_goes_its_own_way() {
    let mut host = Host::ready(setup());
    host.pair.post_entry(entry(0)).unwrap();
    let before = host.pair.clone();
    host.take(&W12);
    assert_eq!((before.expected(), before.waiting().len()), (7, 1));
    assert_eq!((host.pair.expected(), host.pair.waiting().len()), (8, 0));
}

#[test]
fn answers_have_numbers_and_words() {
    assert_eq!(Answer::Abandoned.number(), 6);
    assert_eq!(Answer::NotReadyNak.number(), 19);
    assert_eq!(Refusal::ReadUnfinished.number(), 32);
    assert_eq!(Refusal::BadNumber.number(), 39);
    assert_eq!(State::Error.number(), 2);
    assert_eq!(Answer::Dropped.to_string(), "dropped");
    let refusal: Box<dyn std::error::Error> = Box::new(Refusal::KeyInUse);
    assert_eq!(refusal.to_string(), "the key is in use");
}
