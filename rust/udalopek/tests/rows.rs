//! Rows of the tables that no call wrote: which packets look at them, when, and what counts of those that are in range.
mod common;

use common::lent::{word, Lent, CLOSED, ERROR, INIT, LIMIT};
use common::wire::*;
use common::{region, ADDRESS, KEY};
use udalopek::{Region, Service};

/// No such region: one byte more than memory has. No packet names it.
const LONG: [u64; 7] = [9, 0, 4097, 0, 1, 1, 1];

#[test]
fn a_regions_row_out_of_range_that_is_not_named_is_no_obstacle() {
    for service in SERVICES {
        let sound = Lent::ready(service, 1);
        let mut lent = sound.clone();
        lent.regions[15] = LONG;
        for opcode in 0..=255_u8 {
            let packet = wire(opcode, 7).carrying(256);
            let (mut with, mut without) = (lent.clone(), sound.clone());
            assert_eq!(with.take(&packet.bytes()), without.take(&packet.bytes()));
            without.regions[15] = LONG;
            assert!(with == without, "{opcode}");
        }
        for state in [INIT, ERROR] {
            let other = lent.with(&[(word::STATE, state)]);
            other.leaves(5, &wire(WRITE + ONLY, 7).on(service));
        }
        lent.keeps(38, |lent| lent.add_region(KEY), "in use");
        assert_eq!(lent.clone().add_region(KEY + 1), 0);
        assert_eq!(lent.clone().remove_region(), 0);
        lent.keeps(37, |lent| lent.remove(KEY + 1), "no such key");
    }
}

#[test]
fn reset_and_the_calls_that_are_lent_no_regions_look_at_no_row() {
    let mut lent = Lent::ready(Service::Rc, 1).with(&[(word::PENDING, 1), (word::STATE, INIT)]);
    lent.regions = [LONG; 16];
    assert_eq!(lent.post_entry(), 0);
    assert_eq!(lent.next_response(), 0);
    assert_eq!(lent.make_ready(), 0);
    assert_eq!(lent.regions, [LONG; 16]);
    assert_eq!(lent.reset(), 0);
    assert_eq!(lent.regions, [[0; 7]; 16]);
}

#[test]
fn a_row_out_of_range_that_is_named_holds_nothing() {
    // Too long, too far in memory, up to the top of addresses, a key over 32 bits.
    let damage = [
        (2, 4097),
        (2, u64::MAX),
        (3, 3073),
        (3, u64::MAX),
        (1, u64::MAX - 1023),
        (0, 1 << 32 | u64::from(KEY)),
    ];
    for service in SERVICES {
        let first = wire(WRITE + FIRST, 7).carrying(256).length(600).on(service);
        let only = wire(WRITE + ONLY, 7).with(b"x").on(service);
        let middle = wire(WRITE + MIDDLE, 8).carrying(256).on(service);
        let ready = Lent::ready(service, 0);
        let opened = ready.after(executed(service), &first);
        let access = |psn| acknowledge(0x62, psn, 0);
        let error = [(word::STATE, ERROR)];
        for (column, value) in damage {
            let mut lent = ready.clone();
            lent.regions[0][column] = value;
            let mut open = opened.clone();
            open.regions[0][column] = value;
            if service == Service::Rc {
                lent.only_sets(&error, 18, &access(7), &first);
                lent.only_sets(&error, 18, &access(7), &only);
                for opcode in [READ, FETCH_ADD, CMP_SWAP] {
                    let packet = wire(opcode, 7).length(8);
                    lent.only_sets(&error, 18, &access(7), &packet);
                }
                lent.leaves(5, &wire(READ, 6).length(8));
                open.only_sets(&error, 18, &access(8), &middle);
            } else {
                lent.leaves(5, &first);
                lent.leaves(5, &only);
                open.only_sets(&CLOSED, 6, b"", &middle);
            }
        }
    }
}

#[test]
fn a_region_at_the_very_limits_of_memory_and_addresses_is_used() {
    let top = u64::MAX - 4096;
    for service in SERVICES {
        let mut lent = Lent::ready(service, 0);
        let whole = Region {
            key: u32::MAX,
            address: top,
            length: 4096,
            ..region()
        };
        assert_eq!(lent.add(whole), 0);
        let row = lent.regions[1];
        assert_eq!(row, [u64::from(u32::MAX), top, 4096, 0, 1, 1, 1]);
        let to = |address| {
            let packet = wire(WRITE + ONLY, 7).with(b"z").key(u32::MAX);
            packet.address(address).on(service)
        };
        for (address, offset) in [(top, 0), (u64::MAX - 1, 4095)] {
            let after = lent.after(executed(service), &to(address));
            let mut memory = lent.memory.clone();
            memory[offset] = b'z';
            assert!(after.memory == memory);
        }
        for address in [top - 1, u64::MAX, 0] {
            let number = if service == Service::Rc { 18 } else { 5 };
            assert!(lent.after(number, &to(address)).memory == lent.memory);
        }
    }
}

#[test]
fn a_row_of_no_bytes_is_free_whatever_else_it_has() {
    for service in SERVICES {
        let sound = Lent::ready(service, 1);
        let write = wire(WRITE + ONLY, 7).with(b"x").on(service);
        for free in [
            [9, ADDRESS, 0, 0, 1, 1, 1],
            [9, u64::MAX, 0, 4097, 2, 3, u64::MAX],
        ] {
            let mut lent = sound.clone();
            lent.regions[1] = free;
            // It is no obstacle to others.
            lent.after(executed(service), &write);
            assert_eq!(lent.clone().remove_region(), 0);
            // It holds no byte, and has no key.
            let named = write.clone().key(9);
            lent.keeps(37, |lent| lent.remove(9), free);
            if service == Service::Rc {
                for packet in [
                    named,
                    wire(READ, 7).length(1).key(9),
                    wire(FETCH_ADD, 7).key(9),
                    wire(CMP_SWAP, 7).key(9),
                ] {
                    let nak = acknowledge(0x62, 7, 0);
                    lent.only_sets(&[(word::STATE, ERROR)], 18, &nak, &packet);
                }
                lent.leaves(5, &wire(READ, 6).length(1).key(9));
            } else {
                lent.leaves(5, &named);
            }
            assert_eq!(lent.add_region(9), 0);
            assert_eq!(lent.regions[1], [9, ADDRESS, 1024, 0, 1, 1, 1]);
        }
        // One with the key of a region behind it does not hide that region.
        let mut lent = sound.clone();
        lent.regions.swap(0, 4);
        lent.regions[0] = [KEY.into(), ADDRESS, 0, 0, 0, 0, 0];
        let after = lent.after(executed(service), &write);
        assert_eq!(after.memory[0], b'x');
        lent.keeps(38, |lent| lent.add_region(KEY), "in use");
    }
}

#[test]
fn of_two_rows_with_one_key_the_first_counts() {
    for service in SERVICES {
        let mut lent = Lent::ready(service, 0);
        lent.regions[3] = [KEY.into(), ADDRESS, 10, 2000, 1, 0, 0];
        lent.keeps(38, |lent| lent.add_region(KEY), "in use");
        let first = wire(WRITE + ONLY, 7).with(b"first").on(service);
        let mut memory = lent.memory.clone();
        memory[..5].copy_from_slice(b"first");
        lent = lent.after(executed(service), &first);
        assert!(lent.memory == memory);
        // A right, or bytes, that the second row alone would have.
        for (column, value) in [(4, 0), (2, 3), (1, ADDRESS + 1)] {
            let mut less = lent.clone();
            less.regions[0][column] = value;
            let packet = wire(WRITE + ONLY, 8).with(b"next").on(service);
            let number = if service == Service::Rc { 18 } else { 5 };
            assert!(less.after(number, &packet).memory == memory);
        }
        // Taken back, it leaves the second.
        assert_eq!(lent.remove_region(), 0);
        assert_eq!(lent.regions[0], [0; 7]);
        assert_eq!(lent.regions[3], [KEY.into(), ADDRESS, 10, 2000, 1, 0, 0]);
        let next = wire(WRITE + ONLY, 8).with(b"next").on(service);
        memory[2000..2004].copy_from_slice(b"next");
        lent = lent.after(executed(service), &next);
        assert!(lent.memory == memory);
        assert_eq!(lent.remove_region(), 0);
        lent.keeps(37, Lent::remove_region, "none left");
    }
}

/// Offset and length of entries that do not lie in 4,096 bytes, and of the last that do.
const OUTSIDE: [(u64, u64); 9] = [
    (65000, 300),
    (4000, 97),
    (4096, 1),
    (4097, 0),
    (0, 4097),
    (u64::MAX, 0),
    (u64::MAX, 1),
    (1, u64::MAX),
    (0, u64::MAX),
];
const INSIDE: [(u64, u64); 4] = [(4000, 96), (4095, 1), (4096, 0), (0, 4096)];

/// Ready; one entry waits at row 15, the next is at row 0.
fn waiting(service: Service, (offset, length): (u64, u64)) -> Lent {
    let mut lent = Lent::ready(service, 0);
    lent.entries[15] = [31, offset, length];
    lent.with(&[(word::HEAD, 15), (word::COUNT, 1)])
}

/// Packets that take an entry, with nothing wrong with them; then with something that is looked at after the entry, the
/// key or a length; then before it, the pad of a First or the DMA length.
fn takers(service: Service, psn: u32) -> [Vec<Wire>; 3] {
    let send = |place| wire(SEND + place, psn).on(service);
    let write = || wire(WRITE + ONLY_IMM, psn).on(service);
    [
        vec![
            send(FIRST).carrying(256),
            send(ONLY),
            send(ONLY).carrying(256),
            send(ONLY_IMM),
            write(),
            write().carrying(256),
        ],
        vec![
            send(FIRST),
            send(FIRST).carrying(260),
            send(ONLY).carrying(300),
            send(ONLY).pad(1),
            write().with(b"x").key(9),
            write().with(b"x").length(2),
        ],
        vec![
            send(FIRST).carrying(256).pad(1),
            write().length(LIMIT + 1),
            write().length(u32::MAX),
        ],
    ]
}

#[test]
fn an_entry_outside_memory_is_34_right_after_the_check_that_one_waits() {
    for row in OUTSIDE {
        let lent = waiting(Service::Rc, row);
        let [good, later, sooner] = takers(Service::Rc, 7);
        // None waits: 19 as ever.
        let none = lent.with(&[(word::COUNT, 0)]);
        for packet in [&good[..], &later].concat() {
            let nak = acknowledge(0x20, 7, 0);
            none.only_sets(&[(word::NAK_MARK, 1)], 19, &nak, &packet);
            lent.leaves(34, &packet);
        }
        // What comes before: pad and DMA length, and the packet's place, a reserved opcode, a function that is off.
        let nak = acknowledge(0x61, 7, 0);
        let places = [SEND + MIDDLE, SEND + LAST, WRITE + LAST_IMM, 21, 31];
        let places = places.map(|opcode| wire(opcode, 7).carrying(256));
        for packet in [&sooner[..], &places].concat() {
            lent.only_sets(&[(word::STATE, ERROR)], 17, &nak, &packet);
        }
        let off = lent.with(&[(word::SEND, 0), (word::WRITE, 0)]);
        for packet in good {
            off.only_sets(&[(word::STATE, ERROR)], 17, &nak, &packet);
        }
        // What takes no entry does not look at it: other requests, packets ahead and behind, and the row behind.
        lent.after(1, &wire(WRITE + ONLY, 7).with(b"x"));
        lent.after(1, &wire(WRITE + FIRST, 7).carrying(256).length(300));
        lent.after(2, &wire(READ, 7).length(1));
        lent.after(3, &wire(FETCH_ADD, 7));
        lent.after(4, &wire(SEND + ONLY, 6));
        lent.after(16, &wire(SEND + ONLY, 8));
        let mut behind = waiting(Service::Rc, (0, 600)).with(&[(word::COUNT, 2)]);
        behind.entries[0] = [32, row.0, row.1];
        let behind = behind.after(1, &wire(SEND + ONLY, 7));
        behind.leaves(34, &wire(SEND + ONLY, 8));

        // The entry that an open SEND holds, for each of its packets; lengths come later, the sequence before.
        let open = lent.with(&[(word::KIND, 0), (word::STORED, 1)]);
        for place in [MIDDLE, LAST, LAST_IMM] {
            for bytes in [0, 4, 256, 260] {
                open.leaves(34, &wire(SEND + place, 7).carrying(bytes));
            }
        }
        for opcode in [SEND + ONLY, SEND + FIRST, WRITE + LAST_IMM, READ] {
            let packet = wire(opcode, 7).carrying(256);
            open.only_sets(&[(word::STATE, ERROR)], 17, &nak, &packet);
        }
        // A WRITE that is open takes one at its end, if it has an immediate.
        let open = lent.after(1, &wire(WRITE + FIRST, 7).carrying(256).length(600));
        open.leaves(34, &wire(WRITE + LAST_IMM, 8).carrying(88));
        let open = open.after(1, &wire(WRITE + MIDDLE, 8).carrying(256));
        open.leaves(34, &wire(WRITE + LAST_IMM, 9).carrying(88));
        open.leaves(34, &wire(WRITE + LAST_IMM, 9).carrying(7));
        open.after(1, &wire(WRITE + LAST, 9).carrying(88));
    }
}

#[test]
fn an_entry_outside_memory_is_34_on_uc_and_what_was_open_stays_open() {
    let uc = |opcode, psn| wire(opcode, psn).on(Service::Uc);
    for row in OUTSIDE {
        let lent = waiting(Service::Uc, row);
        let [good, later, sooner] = takers(Service::Uc, 20);
        let takers = [&good[..], &later].concat();
        let none = lent.with(&[(word::COUNT, 0)]);
        for packet in &takers {
            none.leaves(5, packet);
            lent.leaves(34, packet);
        }
        for packet in &sooner {
            lent.leaves(5, packet);
        }
        lent.leaves(5, &uc(SEND + MIDDLE, 7).carrying(256));
        let off = lent.with(&[(word::SEND, 0), (word::WRITE, 0)]);
        for packet in &good {
            off.leaves(5, packet);
        }

        // Over an open WRITE.
        let open = lent.after(0, &uc(WRITE + FIRST, 7).carrying(256).length(600));
        for packet in &takers {
            open.leaves(34, packet);
        }
        for packet in &sooner {
            open.only_sets(&CLOSED, 6, b"", packet);
        }
        open.leaves(34, &uc(WRITE + LAST_IMM, 8).carrying(88));
        open.only_sets(&CLOSED, 6, b"", &uc(WRITE + LAST_IMM, 9).carrying(88));
        let open = open.after(0, &uc(WRITE + MIDDLE, 8).carrying(256));
        open.leaves(34, &uc(WRITE + LAST_IMM, 9).carrying(88));
        open.leaves(34, &uc(WRITE + LAST_IMM, 9).carrying(7));
        open.after(0, &uc(WRITE + LAST, 9).carrying(88));

        // Over an open SEND, which holds this very entry.
        let open = lent.with(&[(word::KIND, 0), (word::STORED, 256)]);
        for place in [MIDDLE, LAST, LAST_IMM] {
            for bytes in [0, 4, 256, 260] {
                open.leaves(34, &uc(SEND + place, 7).carrying(bytes));
            }
        }
        for packet in &takers {
            open.leaves(34, packet);
        }
        let wrong = [
            uc(SEND + MIDDLE, 8).carrying(256),
            uc(WRITE + MIDDLE, 7).carrying(256),
            uc(SEND + MIDDLE, 7).carrying(256).pad(1),
        ];
        for packet in [&sooner[..], &wrong].concat() {
            open.only_sets(&CLOSED, 6, b"", &packet);
        }
        open.after(0, &uc(WRITE + ONLY, 20).with(b"x"));
        open.after(0, &uc(WRITE + FIRST, 20).carrying(256).length(600));
        let off = open.with(&[(word::SEND, 0)]);
        let middle = uc(SEND + MIDDLE, 7).carrying(256);
        off.only_sets(&CLOSED, 6, b"", &middle);
    }
}

#[test]
fn an_entry_at_the_very_end_of_memory_is_taken() {
    for service in SERVICES {
        for (offset, length) in INSIDE {
            let lent = waiting(service, (offset, length));
            let whole = length.min(256) as usize;
            let packet = wire(SEND + ONLY, 7).carrying(whole).on(service);
            let mut after = lent.clone();
            let (number, report) = after.take(&packet.bytes());
            assert_eq!(number, executed(service));
            assert_eq!(report[1..], [1, 31, whole as u64, 0, 0]);
            let mut memory = lent.memory.clone();
            let at = offset as usize;
            memory[at..at + whole].copy_from_slice(&payload(whole));
            assert!(after.memory == memory);
            assert_eq!((after.words[word::HEAD], after.words[word::COUNT]), (0, 0));
        }
    }
}

/// What answers an atomic that is retransmitted.
fn saved_answer(psn: u32, msn: u32, value: u64) -> Vec<u8> {
    let mut bytes = acknowledge(0x1f, psn, msn);
    bytes[0] = 18;
    bytes.extend(value.to_be_bytes());
    bytes
}

#[test]
fn of_the_saved_atomics_the_newest_with_the_psn_counts() {
    let duplicate = |psn| wire(FETCH_ADD, psn);
    let mut lent = Lent::ready(Service::Rc, 0);
    lent.saved[..4].copy_from_slice(&[[4, 44], [5, u64::MAX], [5, 0x77], [3, 0]]);
    // Rows that are not counted are nobody's.
    lent.leaves(5, &duplicate(5));
    for (count, value) in [(2, u64::MAX), (3, 0x77), (4, 0x77)] {
        let kept = lent.with(&[(word::SAVED_COUNT, count)]);
        kept.only_sets(&[], 4, &saved_answer(5, 0, value), &duplicate(5));
        kept.only_sets(&[], 4, &saved_answer(4, 0, 44), &duplicate(4));
        kept.leaves(5, &duplicate(6));
    }
    // Around the end of the table, which is full: row 15 is the oldest, row 14 the newest.
    let mut full = lent.with(&[(word::SAVED_HEAD, 15), (word::SAVED_COUNT, 16)]);
    full.saved[15] = [6, 1];
    full.only_sets(&[], 4, &saved_answer(6, 0, 1), &duplicate(6));
    full.saved[14] = [6, 2];
    full.only_sets(&[], 4, &saved_answer(6, 0, 2), &duplicate(6));
    // One more replaces the oldest.
    let old = u64::from_le_bytes(full.memory[..8].try_into().unwrap());
    let after = full.after(3, &duplicate(7));
    let mut saved = full.saved;
    saved[15] = [7, old];
    assert_eq!(after.saved, saved);
    let ring = (
        after.words[word::SAVED_HEAD],
        after.words[word::SAVED_COUNT],
    );
    assert_eq!(ring, (0, 16));
}

#[test]
fn a_saved_psn_over_24_bits_is_matched_by_no_packet() {
    let mut lent = Lent::ready(Service::Rc, 0).with(&[(word::SAVED_COUNT, 16)]);
    for psn in [1 << 24 | 5, 1 << 32 | 5, u64::MAX] {
        lent.saved = [[psn, 1]; 16];
        for psn in [5, 6, 0xff_ffff] {
            lent.leaves(5, &wire(CMP_SWAP, psn));
        }
    }
    lent.saved[9] = [5, 3];
    lent.only_sets(&[], 4, &saved_answer(5, 0, 3), &wire(CMP_SWAP, 5));
}
