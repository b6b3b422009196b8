//! Numbers in their ranges, set as no list of calls might have left them: at their limits, in another state, on the
//! other service. What becomes of them is by the rules for the pair that they say.
mod common;

use common::lent::{word, Lent, CLOSED, ERROR, INIT, LIMIT, READY, SPACE};
use common::wire::*;
use common::{region, setup, ADDRESS, KEY};
use udalopek::raw::WORDS;
use udalopek::{Region, Service, Setup};

const END: u64 = ADDRESS + 1024;
const MAX: u64 = u64::MAX;

/// The bytes of a response from a range of memory, and its headers: opcode, AETH's MSN unless it is a Middle, PSN.
fn response(lent: &Lent, opcode: u8, psn: u32, msn: u32, range: std::ops::Range<usize>) -> Vec<u8> {
    let mut bytes = acknowledge(0x1f, psn, msn);
    bytes[0] = opcode;
    if opcode == 14 {
        bytes.truncate(12);
    }
    let pad = (4 - range.len() % 4) % 4;
    bytes[1] = (pad as u8) << 4;
    bytes.extend(&lent.memory[range]);
    bytes.resize(bytes.len() + pad, 0);
    bytes
}

/// The next response is this one, the output after it is as it was, and one fewer is pending.
fn responds(lent: &mut Lent, bytes: &[u8]) {
    lent.out.fill(0xee);
    let pending = lent.words[word::PENDING];
    let mut expected = lent.with(&[(word::PENDING, pending - 1)]);
    expected.out[..bytes.len()].copy_from_slice(bytes);
    assert_eq!(lent.respond(), (0, bytes.len() as u64));
    assert_eq!(lent.out[..32], expected.out[..32]);
    assert!(*lent == expected);
}

#[test]
fn a_host_call_changes_nothing_but_what_is_its_own() {
    let busy = Lent::busy().with(&[(word::NAK_MARK, 1), (word::HEAD, 15), (word::COUNT, 3)]);

    let mut lent = busy.with(&[(word::STATE, INIT)]);
    let expected = lent.with(&[(word::STATE, READY)]);
    assert_eq!(lent.make_ready(), 0);
    assert!(lent == expected);

    let mut lent = busy.clone();
    let mut expected = busy.with(&[(word::COUNT, 4)]);
    expected.entries[2] = [77, 4096, 0];
    assert_eq!(lent.post(77, 4096, 0), 0);
    assert!(lent == expected);

    let mut expected = busy.clone();
    expected.regions[1] = [9, 6, 7, 8, 1, 0, 1];
    let region = Region {
        key: 9,
        address: 6,
        length: 7,
        offset: 8,
        write: true,
        read: false,
        atomic: true,
    };
    let mut lent = busy.clone();
    assert_eq!(lent.add(region), 0);
    assert!(lent == expected);

    assert_eq!(lent.remove(9), 0);
    assert!(lent == busy);

    // The numbers of the set-up stay, and all others are those of a new pair.
    let mut expected = busy.clone();
    expected.words[word::KIND..].fill(0);
    expected.words[word::KIND] = 255;
    expected.words[word::EXPECTED] = 99;
    expected.words[word::START] = 99;
    expected.regions = [[0; 7]; 16];
    for state in [INIT, READY, ERROR] {
        let mut lent = busy.with(&[(word::STATE, state), (word::START, 99)]);
        assert_eq!(lent.reset(), 0);
        assert_eq!(lent.words, expected.words);
        assert!(lent == expected);
        lent.keeps(36, Lent::next_response, "no READ is left");
        // No saved atomic, no region, no entry.
        assert_eq!(lent.make_ready(), 0);
        lent.leaves(5, &wire(FETCH_ADD, 7));
        lent.after(18, &wire(FETCH_ADD, 99));
        lent.after(19, &wire(SEND + ONLY, 99));
    }
}

#[test]
fn host_calls_are_refused_by_the_state_first() {
    let ready = Lent::ready(Service::Rc, 1);
    let error = ready.with(&[(word::STATE, ERROR)]);
    let none = Region {
        length: 0,
        ..region()
    };
    error.keeps(36, |lent| lent.add(none), "in Error");
    error.keeps(36, |lent| lent.add_region(KEY), "in Error");
    error.keeps(36, |lent| lent.post(1, 0, 4097), "in Error");
    error.keeps(36, Lent::make_ready, "in Error");
    ready.keeps(36, Lent::make_ready, "Ready");
    // Taking a key back is allowed in every state.
    for state in [INIT, READY, ERROR] {
        let lent = ready.with(&[(word::STATE, state)]);
        lent.keeps(37, |lent| lent.remove(KEY + 1), state);
        assert_eq!(lent.clone().remove_region(), 0);
    }
}

#[test]
fn entries_are_posted_and_taken_around_the_end_of_their_table() {
    for service in SERVICES {
        for head in [0, 13, 15] {
            let mut lent = Lent::ready(service, 0).with(&[(word::HEAD, head)]);
            for i in 0..16 {
                let at = (head as usize + i as usize) % 16;
                assert_eq!(lent.post(i / 2, 1100 + 100 * i, 600), 0);
                assert_eq!(lent.entries[at], [i / 2, 1100 + 100 * i, 600]);
                assert_eq!(lent.words[word::COUNT], i + 1);
            }
            // 34 before 33.
            lent.keeps(34, |lent| lent.post(9, 0, 4097), head);
            lent.keeps(33, Lent::post_entry, head);
            // Each is taken by another kind of message, in the order posted; a SEND holds it from First to Last.
            let mut psn = 7;
            for i in 0..16 {
                let ended = match i % 3 {
                    0 => wire(SEND + ONLY, psn).with(b"abc"),
                    1 => wire(WRITE + ONLY_IMM, psn).with(b"abc"),
                    _ => {
                        let first = wire(SEND + FIRST, psn).carrying(256).on(service);
                        lent = lent.after(executed(service), &first);
                        // On UC another First has the entry that the open SEND gives back.
                        if service == Service::Uc {
                            lent = lent.after(0, &first);
                        }
                        assert_eq!(lent.words[word::HEAD], (head + i) % 16);
                        // With the one held there are as many as before.
                        assert_eq!(lent.words[word::COUNT], 16 - i);
                        psn += 1;
                        wire(SEND + LAST, psn).with(b"abc")
                    }
                };
                let bytes = if i % 3 == 2 { 259 } else { 3 };
                let immediate = u64::from(i % 3 == 1);
                let (number, report) = lent.take(&ended.on(service).bytes());
                assert_eq!(number, executed(service));
                assert_eq!(report[1..], [1, i / 2, bytes, immediate, immediate]);
                assert_eq!(lent.words[word::HEAD], (head + i + 1) % 16);
                assert_eq!(lent.words[word::COUNT], 15 - i);
                psn += 1;
            }
        }
    }
}

#[test]
fn the_entry_that_an_open_send_holds_is_one_of_the_16() {
    for service in SERVICES {
        let open = Lent::ready(service, 1).with(&[(word::KIND, 0), (word::HEAD, 14)]);
        open.with(&[(word::COUNT, 16)])
            .keeps(33, Lent::post_entry, "16");
        let mut lent = open.with(&[(word::COUNT, 15)]);
        assert_eq!(lent.post_entry(), 0);
        assert_eq!(lent.words[word::COUNT], 16);
        assert_eq!(lent.entries[13], [5, 2048, 128]);
        lent.keeps(33, Lent::post_entry, "16 again");
    }
}

#[test]
fn answers_carry_numbers_at_their_limits() {
    let lent = Lent::ready(Service::Rc, 0).with(&[
        (word::SAVED_HEAD, 15),
        (word::SAVED_COUNT, 16),
        (word::HEAD, 15),
        (word::COUNT, 16),
        (word::START, 0xff_ffff),
        (word::TIMER, 31),
        (word::THEIRS, 0xff_ffff),
        (word::MSN, 0xff_ffff),
        (word::PKEY, 0x8001),
        (word::OURS, 0),
        (word::EXPECTED, 0xff_ffff),
    ]);
    let packet = |psn: u32| {
        let mut bytes = wire(SEND + ONLY, psn).bytes();
        bytes[2..8].copy_from_slice(&[0, 1, 0, 0, 0, 0]);
        bytes
    };
    let mut ahead = lent.clone();
    assert_eq!(ahead.take(&packet(0)), (16, [16, 0, 0, 0, 0, 0]));
    let nak = *b"\x11\0\x80\x01\0\xff\xff\xff\0\xff\xff\xff\x60\xff\xff\xff";
    let mut expected = lent.with(&[(word::NAK_MARK, 1)]);
    expected.out[..16].copy_from_slice(&nak);
    assert!(ahead == expected);

    let mut none = lent.with(&[(word::COUNT, 0)]);
    let mut expected = none.with(&[(word::NAK_MARK, 1)]);
    assert_eq!(none.take(&packet(0xff_ffff)), (19, [16, 0, 0, 0, 0, 0]));
    let nak = *b"\x11\0\x80\x01\0\xff\xff\xff\0\xff\xff\xff\x3f\xff\xff\xff";
    expected.out[..16].copy_from_slice(&nak);
    assert!(none == expected);
}

#[test]
fn after_its_last_number_the_msn_is_0() {
    let last = [(word::MSN, 0xff_ffff)];
    let ended = |lent: Lent, number, packet: Wire, outgoing: &[u8]| {
        let after = lent.with(&last).after(number, &packet);
        assert_eq!(after.words[word::MSN], 0, "{packet:?}");
        assert_eq!(after.out[..outgoing.len()], *outgoing, "{packet:?}");
        after
    };
    let lent = Lent::ready(Service::Rc, 3);
    let ack = acknowledge(0x1f, 7, 0);
    ended(lent.clone(), 1, wire(SEND + ONLY, 7), &ack);
    ended(lent.clone(), 1, wire(WRITE + ONLY, 7), &ack);
    let mut value = ack.clone();
    value[0] = 18;
    value.extend(lent.memory[..8].iter().rev());
    ended(lent.clone(), 3, wire(FETCH_ADD, 7), &value);
    ended(lent.clone(), 3, wire(CMP_SWAP, 7), &value);
    let mut read = ended(lent.clone(), 2, wire(READ, 7).length(257), b"");
    let first = response(&read, 13, 7, 0, 0..256);
    responds(&mut read, &first);
    let second = response(&read, 15, 8, 0, 256..257);
    responds(&mut read, &second);

    // Not at a First, and on the number before the last not to 0.
    let open = lent.with(&[(word::MSN, 0xff_fffe)]);
    let open = open.after(1, &wire(SEND + FIRST, 7).carrying(256));
    assert_eq!(open.words[word::MSN], 0xff_fffe);
    assert_eq!(open.out[..16], acknowledge(0x1f, 7, 0xff_fffe));
    let ended = open.after(1, &wire(SEND + LAST, 8).with(b"x"));
    assert_eq!(ended.words[word::MSN], 0xff_ffff);
    assert_eq!(ended.out[..16], acknowledge(0x1f, 8, 0xff_ffff));
    let ack = acknowledge(0x1f, 8, 0xff_ffff);
    ended.only_sets(&[], 4, &ack, &wire(SEND + ONLY, 7));

    // On UC, for the host alone.
    let uc = |opcode, psn| wire(opcode, psn).on(Service::Uc);
    let mut lent = Lent::ready(Service::Uc, 3).with(&[(word::MSN, 0xff_fffe)]);
    let steps = [
        (uc(SEND + FIRST, 7).carrying(256), 0, 0xff_fffe),
        (uc(SEND + FIRST, 7).carrying(256), 0, 0xff_fffe),
        (uc(SEND + LAST, 8).with(b"x"), 0, 0xff_ffff),
        (uc(WRITE + ONLY, 9), 0, 0),
        (uc(WRITE + ONLY, 9), 0, 1),
        (uc(SEND + MIDDLE, 10).carrying(256), 5, 1),
        (uc(SEND + ONLY, 8).pad(1), 5, 1),
    ];
    for (packet, number, msn) in steps {
        lent = lent.after(number, &packet);
        assert_eq!(lent.words[word::MSN], msn, "{packet:?}");
    }
}

#[test]
fn half_of_all_psns_are_ahead_and_the_others_duplicates() {
    let lent = Lent::ready(Service::Rc, 1);
    for expected in [0, 7, 8_388_607, 8_388_608, 16_777_215] {
        let lent = lent.with(&[(word::EXPECTED, expected.into())]);
        let at = |distance| wire(SEND + ONLY, (expected + distance) % SPACE);
        for distance in [1, 2, 8_388_607, 8_388_608] {
            let nak = acknowledge(0x60, expected, 0);
            let marked = lent.only_sets(&[(word::NAK_MARK, 1)], 16, &nak, &at(distance));
            marked.leaves(5, &at(distance));
        }
        for distance in [8_388_609, 8_388_610, 16_777_215] {
            let ack = acknowledge(0x1f, (expected + SPACE - 1) % SPACE, 0);
            lent.only_sets(&[], 4, &ack, &at(distance));
            // A duplicate does not clear the NAK mark.
            let marked = lent.with(&[(word::NAK_MARK, 1)]);
            marked.only_sets(&[], 4, &ack, &at(distance));
        }
        let after = lent.with(&[(word::NAK_MARK, 1)]).after(1, &at(0));
        let next = u64::from((expected + 1) % SPACE);
        assert_eq!(
            (after.words[word::EXPECTED], after.words[word::NAK_MARK]),
            (next, 0)
        );
    }
}

#[test]
fn a_read_that_comes_again_ends_before_the_expected_psn() {
    // How far behind, length, answer, responses.
    let cases = [
        (8_388_607, 1024, 4, 4),
        (8_388_608, 1024, 16, 0),
        (5, 1024, 4, 4),
        (4, 1024, 4, 4),
        (3, 1024, 5, 0),
        (4, 769, 4, 4),
        (3, 769, 5, 0),
        (3, 768, 4, 3),
        (2, 257, 4, 2),
        (1, 257, 5, 0),
        (1, 256, 4, 1),
        (1, 0, 4, 1),
    ];
    for expected in [8_388_700, 3, 0] {
        for (behind, length, number, responses) in cases {
            let set = [(word::EXPECTED, expected.into()), (word::MSN, 5)];
            let lent = Lent::ready(Service::Rc, 0).with(&set);
            let psn = (expected + SPACE - behind) % SPACE;
            let packet = wire(READ, psn).length(length);
            let nak = acknowledge(0x60, expected, 5);
            let begun = [
                (word::PENDING, responses),
                (word::READ_LENGTH, length.into()),
                (word::READ_PSN, psn.into()),
                (word::READ_MSN, 5),
            ];
            match number {
                16 => lent.only_sets(&[(word::NAK_MARK, 1)], 16, &nak, &packet),
                5 => lent.only_sets(&[], 5, b"", &packet),
                _ => lent.only_sets(&begun, 4, b"", &packet),
            };
        }
    }
}

#[test]
fn packets_are_dropped_unless_the_pair_is_ready() {
    let ready = Lent::ready(Service::Rc, 1);
    let mut malformed = wire(CMP_SWAP, 7).bytes();
    malformed.truncate(20);
    for state in [INIT, ERROR] {
        let lent = ready.with(&[(word::STATE, state)]);
        for opcode in (0..=12).chain(17..=31) {
            for psn in [6, 7, 8] {
                lent.leaves(5, &wire(opcode, psn).carrying(256));
            }
        }
        lent.keeps(5, |lent| lent.inbound(&malformed), state);
    }
    ready.keeps(5, |lent| lent.inbound(&malformed), READY);
    ready.after(1, &wire(SEND + ONLY, 7));

    // On UC what is open stays open.
    let uc = |opcode, psn| wire(opcode, psn).on(Service::Uc);
    let middle = uc(SEND + MIDDLE, 8).carrying(256);
    let open = Lent::ready(Service::Uc, 1).after(0, &uc(SEND + FIRST, 7).carrying(256));
    for state in [INIT, ERROR] {
        let lent = open.with(&[(word::STATE, state)]);
        lent.leaves(5, &middle);
        lent.leaves(5, &uc(SEND + ONLY, 8).with(b"abcd"));
        lent.leaves(5, &uc(SEND + LAST, 9).with(b"abcd"));
    }
    open.after(0, &middle);
}

#[test]
fn a_read_is_answered_in_every_state_from_memory_as_it_is_then() {
    let asked = Lent::ready(Service::Rc, 1).after(2, &wire(READ, 7).length(300));
    for state in [INIT, READY, ERROR] {
        let mut lent = asked.with(&[(word::STATE, state)]);
        lent.leaves(32, &wire(SEND + ONLY, 9));
        lent.memory[..300].fill(state as u8);
        let first = response(&lent, 13, 7, 1, 0..256);
        responds(&mut lent, &first);
        lent.memory[256..].fill(9);
        let last = response(&lent, 15, 8, 1, 256..300);
        responds(&mut lent, &last);
        lent.keeps(36, Lent::next_response, state);
    }
    // A WRITE in between, as if nothing were pending.
    let written = wire(WRITE + ONLY, 9).carrying(256).address(ADDRESS + 44);
    let between = asked.with(&[(word::PENDING, 0)]).after(1, &written);
    assert_eq!(between.memory[44..300], payload(256));
    let mut lent = between.with(&[(word::PENDING, 2)]);
    let first = response(&lent, 13, 7, 1, 0..256);
    responds(&mut lent, &first);
    let last = response(&lent, 15, 8, 1, 256..300);
    responds(&mut lent, &last);
}

#[test]
fn the_next_response_is_found_by_how_many_are_left() {
    let read = |pending, offset, length| {
        Lent::ready(Service::Rc, 0).with(&[
            (word::PENDING, pending),
            (word::READ_OFFSET, offset),
            (word::READ_LENGTH, length),
            (word::READ_PSN, 0xff_fffe),
            (word::READ_MSN, 0xff_ffff),
        ])
    };
    let msn = 0xff_ffff;
    // The second of three, and the third, whose PSN is past the last.
    let mut lent = read(2, 100, 600);
    lent.leaves(32, &wire(SEND + ONLY, 7));
    let middle = response(&lent, 14, 0xff_ffff, msn, 356..612);
    responds(&mut lent, &middle);
    let last = response(&lent, 15, 0, msn, 612..700);
    responds(&mut lent, &last);
    lent.keeps(36, Lent::next_response, "none is left");
    // No bytes, at the very end of memory; and all of memory.
    let mut lent = read(1, 4096, 0);
    let only = response(&lent, 16, 0xff_fffe, msn, 4096..4096);
    responds(&mut lent, &only);
    let mut lent = read(16, 0, 4096);
    let first = response(&lent, 13, 0xff_fffe, msn, 0..256);
    responds(&mut lent, &first);
    let mut lent = read(1, 0, 4096);
    let last = response(&lent, 15, 13, msn, 3840..4096);
    responds(&mut lent, &last);
}

/// A pair, a packet that it executes, and packets that fail a check of the request, each with its answer.
type Failing = (Lent, Wire, Vec<(Wire, u8)>);

/// With none open, with a SEND, with a WRITE.
fn failing() -> [Failing; 3] {
    let none = Lent::ready(Service::Rc, 2);
    let send = none.after(1, &wire(SEND + FIRST, 7).carrying(256));
    let write = none.after(1, &wire(WRITE + FIRST, 7).carrying(256).length(600));
    let of = |opcode| wire(opcode, 7);
    let only = |bytes, length| of(WRITE + ONLY).carrying(bytes).length(length);
    let first = |bytes, length| of(WRITE + FIRST).carrying(bytes).length(length);
    let atomic = |address| of(FETCH_ADD).address(address);

    // Out of sequence, reserved, a pad on a First, over the DMA limit whatever the key.
    let mut alone: Vec<(Wire, u8)> = Vec::new();
    for place in [MIDDLE, LAST, LAST_IMM] {
        alone.push((of(SEND + place).carrying(256), 17));
        alone.push((of(WRITE + place).carrying(256), 17));
    }
    alone.extend((21..=31).map(|opcode| (of(opcode), 17)));
    for pad in 1..=3 {
        alone.push((of(SEND + FIRST).carrying(260).pad(pad), 17));
        alone.push((first(260, 300).pad(pad).key(9), 17));
    }
    for length in [LIMIT + 1, u32::MAX] {
        alone.push((first(256, length).key(9), 17));
        alone.push((only(256, length).key(9), 17));
        alone.push((of(WRITE + ONLY_IMM).length(length).key(9), 17));
        alone.push((of(READ).length(length).key(9), 17));
    }
    // The key, at the limit too: unknown, without all the bytes, around 2^64; whatever the lengths.
    alone.extend([
        (first(256, LIMIT), 18),
        (only(256, LIMIT), 18),
        (of(READ).length(LIMIT), 18),
        (first(256, 1025), 18),
        (first(256, 300).address(END - 299), 18),
        (only(4, 5).key(9), 18),
        (first(4, 5).key(9), 18),
        (only(0, 1).pad(3).key(9), 18),
        (of(WRITE + ONLY_IMM).with(b"abcd").key(9), 18),
        (of(CMP_SWAP).key(9), 18),
        (atomic(END - 7), 18),
        (atomic(ADDRESS - 1), 18),
    ]);
    for address in [ADDRESS - 1, END - 3, END, 0, MAX, MAX - 3] {
        alone.push((only(4, 4).address(address), 18));
        alone.push((of(READ).length(4).address(address), 18));
    }
    for address in [ADDRESS - 8, END, MAX - 7, 0] {
        alone.push((atomic(address), 18));
    }
    // Lengths, and an atomic out of line inside its region.
    alone.extend([ADDRESS + 1, ADDRESS + 4, END - 9].map(|address| (atomic(address), 17)));
    alone.extend([0, 252, 260].map(|bytes| (of(SEND + FIRST).carrying(bytes), 17)));
    alone.extend([257, 260, 4096].map(|bytes| (of(SEND + ONLY).carrying(bytes), 17)));
    alone.extend([(0, 600), (252, 600), (260, 600)].map(|(b, n)| (first(b, n), 17)));
    alone.extend([0, 255, 256].map(|length| (first(256, length), 17)));
    let wrong = [(4, 3), (4, 5), (3, 4), (4, 0), (0, 1), (257, 257)];
    alone.extend(wrong.map(|(bytes, length)| (only(bytes, length), 17)));
    for opcode in [SEND + ONLY, SEND + ONLY_IMM, WRITE + ONLY, READ, CMP_SWAP] {
        alone.push((of(opcode).pad(1), 17));
    }
    alone.push((of(READ).carrying(4), 17));
    alone.push((of(FETCH_ADD).carrying(4), 17));

    // Over an open message all but its own Middles and Lasts; then those with lengths that do not fit: of the entry's
    // 600 bytes, and of the WRITE's, 344 are to come.
    let over = |own: std::ops::RangeInclusive<u8>| {
        let others = (0..=12).chain(19..=31).filter(move |n| !own.contains(n));
        others.map(|opcode| (wire(opcode, 8).carrying(256).length(300), 17))
    };
    let mut in_send: Vec<(Wire, u8)> = over(SEND + MIDDLE..=SEND + LAST_IMM).collect();
    let mut in_write: Vec<(Wire, u8)> = over(WRITE + MIDDLE..=WRITE + LAST_IMM).collect();
    for (kind, open) in [(SEND, &mut in_send), (WRITE, &mut in_write)] {
        for bytes in [0, 252, 260] {
            open.push((wire(kind + MIDDLE, 8).carrying(bytes), 17));
        }
        open.push((wire(kind + MIDDLE, 8).carrying(256).pad(1), 17));
        for bytes in [0, 257, 260] {
            open.push((wire(kind + LAST, 8).carrying(bytes), 17));
            open.push((wire(kind + LAST_IMM, 8).carrying(bytes), 17));
        }
        open.push((wire(kind + LAST, 8).pad(3), 17));
    }
    in_write.push((wire(WRITE + LAST, 8).carrying(256), 17));
    in_write.push((wire(WRITE + LAST_IMM, 8).carrying(88), 17));
    [
        (none, wire(SEND + ONLY, 7).with(b"abc"), alone),
        (send, wire(SEND + MIDDLE, 8).carrying(256), in_send),
        (write, wire(WRITE + MIDDLE, 8).carrying(256), in_write),
    ]
}

#[test]
fn an_error_changes_the_state_and_nothing_else() {
    for (pair, good, packets) in failing() {
        let psn = pair.words[word::EXPECTED] as u32;
        let saved = [(word::SAVED_HEAD, 9), (word::SAVED_COUNT, 4)];
        for mark in [0, 1] {
            let lent = pair.with(&[(word::NAK_MARK, mark), (word::MSN, 77)]);
            let lent = lent.with(&saved);
            for (packet, number) in &packets {
                let syndrome = if *number == 17 { 0x61 } else { 0x62 };
                let nak = acknowledge(syndrome, psn, 77);
                let error = [(word::STATE, ERROR)];
                let stopped = lent.only_sets(&error, *number, &nak, packet);
                stopped.leaves(5, &good);
                stopped.leaves(5, packet);
            }
            // The state alone stands in the way of what is good.
            lent.with(&[(word::STATE, ERROR)]).leaves(5, &good);
            lent.after(1, &good);
        }
    }
}

#[test]
fn an_open_write_whose_key_is_gone_is_18_and_stays_as_it_was() {
    let first = wire(WRITE + FIRST, 7).carrying(256).length(600);
    let middle = wire(WRITE + MIDDLE, 8).carrying(256);
    let open = Lent::ready(Service::Rc, 0).after(1, &first);
    // Removed; without the right; too short by a byte; further on.
    let rows = [
        [0; 7],
        [KEY.into(), ADDRESS, 600, 3000, 0, 1, 1],
        [KEY.into(), ADDRESS, 599, 3000, 1, 1, 1],
        [KEY.into(), ADDRESS + 257, 343, 3000, 1, 1, 1],
    ];
    for row in rows {
        let mut lent = open.clone();
        lent.regions[0] = row;
        let nak = acknowledge(0x62, 8, 0);
        let stopped = lent.only_sets(&[(word::STATE, ERROR)], 18, &nak, &middle);
        // Ready again, with the key at another offset: the rest goes there.
        let mut again = stopped.with(&[(word::STATE, READY)]);
        again.regions[0] = [KEY.into(), ADDRESS + 256, 344, 3000, 1, 0, 0];
        let after = again.after(1, &middle);
        let mut memory = open.memory.clone();
        memory[3000..3256].copy_from_slice(&payload(256));
        assert!(after.memory == memory);
    }
}

#[test]
fn a_function_that_is_off_is_17_and_duplicates_are_answered() {
    let functions = [
        (word::SEND, wire(SEND + ONLY, 7), wire(SEND + ONLY, 6), 4),
        (word::WRITE, wire(WRITE + ONLY, 7), wire(WRITE + ONLY, 6), 4),
        (word::READ, wire(READ, 7), wire(READ, 6), 5),
        (word::ATOMIC, wire(FETCH_ADD, 7), wire(FETCH_ADD, 6), 5),
        (word::ATOMIC, wire(CMP_SWAP, 7), wire(CMP_SWAP, 6), 5),
    ];
    // Before the entry and the key, which are not there.
    for lent in [Lent::ready(Service::Rc, 1), Lent::ready(Service::Rc, 0)] {
        for (function, packet, duplicate, number) in &functions {
            let off = lent.with(&[(*function, 0)]);
            let nak = acknowledge(0x61, 7, 0);
            off.only_sets(&[(word::STATE, ERROR)], 17, &nak, packet);
            let unknown = packet.clone().key(9).length(4);
            off.only_sets(&[(word::STATE, ERROR)], 17, &nak, &unknown);
            let ack = acknowledge(0x1f, 6, 0);
            let outgoing = if *number == 4 { &ack[..] } else { b"" };
            off.only_sets(&[], *number, outgoing, duplicate);
        }
    }
}

#[test]
fn a_missing_entry_sets_the_mark_and_nothing_else() {
    let timer = Setup {
        timer: 19,
        ..setup()
    };
    let mut lent = Lent::blank(WORDS);
    assert_eq!(lent.set_up_as(timer), 0);
    assert_eq!(lent.add_region(KEY), 0);
    assert_eq!(lent.make_ready(), 0);
    let open = lent.after(1, &wire(WRITE + FIRST, 7).carrying(256).length(260));
    let packets = [
        wire(SEND + FIRST, 7).carrying(256),
        wire(SEND + ONLY, 7).with(b"abc"),
        wire(SEND + ONLY_IMM, 7),
        wire(WRITE + ONLY_IMM, 7),
        // Key and lengths come later.
        wire(SEND + ONLY, 7).carrying(300),
        wire(SEND + ONLY, 7).pad(1),
        wire(WRITE + ONLY_IMM, 7).with(b"abcd").key(9),
        wire(WRITE + ONLY_IMM, 7).with(b"abcd").length(LIMIT),
    ];
    let last = wire(WRITE + LAST_IMM, 8).carrying(4);
    let cases = packets.map(|packet| (&lent, packet));
    for (lent, packet) in cases.into_iter().chain([(&open, last.clone())]) {
        let psn = lent.words[word::EXPECTED] as u32;
        let nak = acknowledge(0x20 + 19, psn, 0);
        let marked = lent.only_sets(&[(word::NAK_MARK, 1)], 19, &nak, &packet);
        // Again the same; and now what is ahead is quiet.
        marked.only_sets(&[], 19, &nak, &packet);
        marked.leaves(5, &wire(SEND + ONLY, psn + 1));
    }
    // Sequence, pad and DMA length come before.
    let nak = acknowledge(0x61, 7, 0);
    let sooner = [
        wire(SEND + LAST_IMM, 7).with(b"x"),
        wire(SEND + FIRST, 7).carrying(256).pad(1),
        wire(WRITE + ONLY_IMM, 7).length(LIMIT + 1),
    ];
    for packet in &sooner {
        lent.only_sets(&[(word::STATE, ERROR)], 17, &nak, packet);
    }
    // The WRITE goes on where it was.
    let mut open = open.with(&[(word::NAK_MARK, 1)]);
    assert_eq!(open.post(3, 3000, 0), 0);
    let (number, report) = open.take(&last.bytes());
    assert_eq!((number, report), (1, [16, 1, 3, 260, 1, 1]));
    assert_eq!(open.words[word::NAK_MARK], 0);
}

#[test]
fn a_packet_ahead_sets_the_mark_and_nothing_else() {
    let lent = Lent::ready(Service::Rc, 1);
    let nak = acknowledge(0x60, 7, 0);
    // Whatever it is.
    for opcode in (0..=12).chain(19..=31) {
        let packet = wire(opcode, 9).carrying(256).key(9).length(LIMIT + 1);
        let marked = lent.only_sets(&[(word::NAK_MARK, 1)], 16, &nak, &packet);
        marked.leaves(5, &packet);
    }
    // Each kind of executing clears it.
    let marked = lent.with(&[(word::NAK_MARK, 1)]);
    let executed = [
        (wire(SEND + FIRST, 7).carrying(256), 1),
        (wire(SEND + ONLY, 7), 1),
        (wire(WRITE + FIRST, 7).carrying(256).length(300), 1),
        (wire(WRITE + ONLY, 7), 1),
        (wire(READ, 7), 2),
        (wire(FETCH_ADD, 7), 3),
        (wire(CMP_SWAP, 7), 3),
    ];
    for (packet, number) in executed {
        assert_eq!(marked.after(number, &packet).words[word::NAK_MARK], 0);
    }
}

#[test]
fn bytes_placed_are_taken_as_they_stand() {
    let last = wire(SEND + LAST, 7).with(b"x");
    let ready = Lent::ready(Service::Rc, 1);
    let nak = acknowledge(0x61, 7, 0);
    // More than the entry has, or all of it.
    for stored in [600, 601, u64::from(LIMIT)] {
        let lent = ready.with(&[(word::KIND, 0), (word::STORED, stored)]);
        lent.only_sets(&[(word::STATE, ERROR)], 17, &nak, &last);
    }
    // No multiple of the PMTU.
    let mut lent = ready.with(&[(word::KIND, 0), (word::STORED, 599)]);
    let mut memory = lent.memory.clone();
    memory[1536 + 599] = b'x';
    assert_eq!(lent.take(&last.bytes()), (1, [16, 1, 11, 600, 0, 0]));
    assert!(lent.memory == memory);

    let open = |stored, length, address| {
        ready.with(&[
            (word::KIND, 6),
            (word::KEY, KEY.into()),
            (word::STORED, stored),
            (word::LENGTH, length),
            (word::ADDRESS, address),
        ])
    };
    // The last bytes of the region.
    let mut lent = open(10, 12, END - 12);
    let ended = wire(WRITE + LAST, 7).with(b"ab");
    let mut memory = lent.memory.clone();
    memory[1022..1024].copy_from_slice(b"ab");
    assert_eq!(lent.take(&ended.bytes()), (1, [16, 0, 0, 0, 0, 0]));
    assert!(lent.memory == memory);
    // Bytes to come past the region, and past the top of addresses.
    let nak = acknowledge(0x62, 7, 0);
    let ended = wire(WRITE + LAST, 7).carrying(11);
    for address in [END - 11, MAX - 1, MAX - 12] {
        let lent = open(1, 12, address);
        lent.only_sets(&[(word::STATE, ERROR)], 18, &nak, &ended);
    }
}

#[test]
fn an_open_message_whose_function_is_off_fails() {
    let cases = [
        (word::SEND, SEND, [(word::KIND, 0), (word::LENGTH, 0)]),
        (word::WRITE, WRITE, [(word::KIND, 6), (word::LENGTH, 300)]),
    ];
    for (function, kind, message) in cases {
        for place in [MIDDLE, LAST, LAST_IMM] {
            let packet = wire(kind + place, 7).carrying(256);
            let lent = Lent::ready(Service::Rc, 1).with(&message);
            let nak = acknowledge(0x61, 7, 0);
            let off = lent.with(&[(function, 0)]);
            off.only_sets(&[(word::STATE, ERROR)], 17, &nak, &packet);
            let lent = Lent::ready(Service::Uc, 1).with(&message);
            let off = lent.with(&[(function, 0)]);
            off.only_sets(&CLOSED, 6, b"", &packet.on(Service::Uc));
        }
    }
}

#[test]
fn a_read_pending_on_uc_is_answered_before_any_packet() {
    let uc = |opcode, psn| wire(opcode, psn).on(Service::Uc);
    let open = Lent::ready(Service::Uc, 2).after(0, &uc(SEND + FIRST, 7).carrying(256));
    let middle = uc(SEND + MIDDLE, 8).carrying(256);
    let mut lent = open.with(&[
        (word::PENDING, 1),
        (word::READ_LENGTH, 9),
        (word::READ_PSN, 3),
        (word::READ_MSN, 4),
    ]);
    lent.leaves(32, &middle);
    lent.leaves(32, &uc(SEND + FIRST, 8).carrying(256));
    lent.keeps(32, |lent| lent.inbound(b""), "no packet");
    lent.keeps(32, |lent| lent.inbound(&[0xff; 16]), "noise");
    // More than the READ has is out of range.
    lent.with(&[(word::PENDING, 2)]).leaves(34, &middle);
    // Its 9 bytes, behind BTH and AETH and before a pad.
    assert_eq!(lent.respond(), (0, 28));
    assert_eq!(lent.words[word::PENDING], 0);
    assert_eq!(lent.out[16..25], lent.memory[..9]);
    lent.keeps(36, Lent::next_response, "none is left");
    lent.after(0, &middle);
}

#[test]
fn on_uc_an_executed_packet_clears_a_mark_and_no_other_does() {
    let uc = |opcode, psn| wire(opcode, psn).on(Service::Uc);
    // Numbers that are of no use here stay as they are, whatever comes.
    let lent = Lent::ready(Service::Uc, 3).with(&[
        (word::NAK_MARK, 1),
        (word::READ_OFFSET, 5),
        (word::READ_LENGTH, 6),
        (word::READ_PSN, SPACE.into()),
        (word::READ_MSN, 8),
        (word::SAVED_HEAD, 9),
        (word::SAVED_COUNT, 4),
    ]);
    lent.leaves(5, &uc(SEND + MIDDLE, 7).carrying(256));
    lent.leaves(5, &uc(SEND + ONLY, 8).pad(1));
    let open = lent.after(0, &uc(SEND + FIRST, 9).carrying(256));
    let opened = [(word::EXPECTED, 10), (word::KIND, 0), (word::STORED, 256)];
    let expected = lent.with(&opened).with(&[(word::NAK_MARK, 0)]);
    assert_eq!(open.words, expected.words);
    // Abandoned: the NAK mark stays.
    let marked = open.with(&[(word::NAK_MARK, 1)]);
    marked.only_sets(&CLOSED, 6, b"", &uc(SEND + LAST, 11).with(b"x"));
    let ended = marked.after(0, &uc(WRITE + ONLY_IMM, 30).with(b"x"));
    let counted = [
        (word::EXPECTED, 31),
        (word::MSN, 1),
        (word::NAK_MARK, 0),
        (word::HEAD, 1),
        (word::COUNT, 2),
    ];
    let expected = lent.with(&counted);
    assert_eq!(ended.words, expected.words);
}

#[test]
fn numbers_of_no_message_are_kept_by_a_drop_and_set_anew_by_a_send_or_write() {
    let set = [
        (word::STORED, 3),
        (word::ADDRESS, MAX),
        (word::KEY, 4),
        (word::LENGTH, MAX),
    ];
    let opened = |kind, stored, address, key, length| {
        [
            (word::KIND, kind),
            (word::STORED, stored),
            (word::ADDRESS, address),
            (word::KEY, key),
            (word::LENGTH, length),
        ]
    };
    let key = u64::from(KEY);
    for service in SERVICES {
        let on = |opcode| wire(opcode, 7).on(service);
        let lent = Lent::ready(service, 1).with(&set);
        let message = |lent: &Lent| lent.words[word::KIND..=word::LENGTH].to_vec();
        let cases = [
            (on(SEND + FIRST).carrying(256), opened(0, 256, 0, 0, 0)),
            (
                on(WRITE + FIRST).carrying(256).length(300),
                opened(6, 256, ADDRESS, key, 300),
            ),
            (on(SEND + ONLY), CLOSED),
            (on(WRITE + ONLY).with(b"x"), CLOSED),
        ];
        for (packet, expected) in cases {
            let after = lent.after(executed(service), &packet);
            assert_eq!(
                message(&after),
                message(&lent.with(&expected)),
                "{packet:?}"
            );
        }
        if service == Service::Rc {
            let nak = acknowledge(0x61, 7, 0);
            lent.only_sets(&[(word::STATE, ERROR)], 17, &nak, &on(WRITE + LAST));
            // A READ or atomic opens and closes none.
            for (packet, number) in [(on(READ), 2), (on(FETCH_ADD), 3)] {
                assert_eq!(message(&lent.after(number, &packet)), message(&lent));
            }
        } else {
            lent.leaves(5, &on(WRITE + MIDDLE).carrying(256));
            lent.leaves(5, &on(WRITE + ONLY).pad(1));
        }
    }
}
