//! Each number of a pair just in and just out of its range, in every call that is lent the words, in every state and on
//! both services. What is refused changes nothing.
mod common;

use common::lent::{self, word, Lent, ERROR, INIT, READY};
use common::wire::{wire, ONLY, ONLY_IMM, READ, SEND, SERVICES, WRITE};
use common::KEY;
use udalopek::Service;

const LIMIT: u64 = lent::LIMIT as u64;
const SPACE: u64 = lent::SPACE as u64;
const MAX: u64 = u64::MAX;

/// Where numbers stand.
#[derive(Clone, Copy, Debug, PartialEq)]
enum Fit {
    /// In their ranges.
    Sound,
    /// Out of them: 34 at its turn in the order of a call.
    Unsound,
    /// One is over the range of its word: 34 at the same turn. What comes before it is read modulo that range.
    Wide,
}
use Fit::*;

type Case<'a> = (&'a [(usize, u64)], Fit);

/// One case a value of a single word.
fn each(word: usize, sound: &[u64], unsound: &[u64], wide: &[u64]) {
    for (values, fit) in [(sound, Sound), (unsound, Unsound), (wide, Wide)] {
        for &value in values {
            tried((&[(word, value)], fit));
        }
    }
}

/// The numbers of a case, set in a pair of each service and state, with and without a READ that is being answered.
fn tried((set, fit): Case) {
    for service in SERVICES {
        let ready = Lent::ready(service, 1);
        for state in [INIT, READY, ERROR] {
            for pending in [0, 1] {
                let mut lent = ready.with(&[
                    (word::STATE, state),
                    (word::PENDING, pending),
                    (word::READ_LENGTH, 600),
                ]);
                lent = lent.with(set);
                // Memory of the length that the words say, so that this is not what is refused.
                let memory = lent.words[word::MEMORY];
                if memory < SPACE {
                    lent.memory.resize(memory as usize, 0);
                }
                // Room for responses of a PMTU that is none.
                lent.out.resize(16 + 8192, 0xee);
                answered(&lent, fit, &(set, service, state, pending));
            }
        }
    }
}

/// Every call on the words answers as the orders of checks have it. What a call does when done is for other tests.
fn answered(lent: &Lent, fit: Fit, case: &impl std::fmt::Debug) {
    // The state is read modulo 256, before the words are refused.
    let state = lent.words[word::STATE] % 256;
    let pending = lent.words[word::PENDING] != 0;
    let full = lent.words[word::COUNT] == 16;
    let check = |earlier: &[(bool, u8)], later: &[(bool, u8)], call: &dyn Fn(&mut Lent) -> u8| {
        let order = [earlier, &[(fit != Sound, 34)], later].concat();
        match order.iter().find(|(holds, _)| *holds) {
            Some(&(_, number)) => lent.keeps(number, call, case),
            None => assert_eq!(call(&mut lent.clone()), 0, "{case:?}"),
        }
    };
    check(&[(state != INIT, 36)], &[], &Lent::make_ready);
    check(&[(state == ERROR, 36)], &[(full, 33)], &Lent::post_entry);
    check(&[(state == ERROR, 36)], &[], &|lent| {
        lent.add_region(KEY + 1)
    });
    // Remove region looks at no word.
    let mut removed = lent.clone();
    assert_eq!(removed.remove_region(), 0, "{case:?}");
    assert_eq!(removed.words, lent.words, "{case:?}");
    if lent.may_be_reset() {
        assert_eq!(lent.clone().reset(), 0, "{case:?}");
    } else {
        lent.keeps(34, Lent::reset, case);
    }

    // An empty packet is dropped where nothing refuses it; refusals come before any look at a packet.
    let later = [(pending, 32), (true, 5)];
    check(&[], &later, &|lent| lent.inbound(b""));
    let packets = [
        wire(SEND + ONLY, 7),
        wire(WRITE + ONLY_IMM, 7),
        wire(READ, 7),
    ];
    for packet in packets {
        let number = match fit {
            Sound if pending => 32,
            Sound => continue,
            Unsound | Wide => 34,
        };
        lent.keeps(number, |lent| lent.inbound(&packet.bytes()), case);
    }
    let mut short = lent.clone();
    short.out.truncate(23);
    short.keeps(35, |lent| lent.inbound(b""), case);

    // A response needs room for 16 bytes and a PMTU, whatever its length.
    let room = u128::from(lent.words[word::PMTU]) + 16;
    let none = (!pending, 36);
    let little = (room > lent.out.len() as u128, 35);
    check(&[none, little], &[], &Lent::next_response);
    if !little.0 {
        let mut short = lent.clone();
        short.out.truncate(room as usize - 1);
        let number = if pending { 35 } else { 36 };
        short.keeps(number, Lent::next_response, case);
    }
}

#[test]
fn set_up_numbers_are_those_that_set_up_accepts() {
    each(
        word::PMTU,
        &[256, 512, 1024, 2048, 4096],
        &[0, 1, 128, 255, 257, 1000, 4095, 4097, 8192, MAX],
        &[],
    );
    each(word::MEMORY, &[4096, LIMIT], &[LIMIT + 1, MAX], &[]);
    each(word::SERVICE, &[0, 1], &[2, 255], &[256, 257, MAX]);
    each(word::TIMER, &[0, 31], &[32, 255], &[256, MAX]);
    each(
        word::PKEY,
        &[1, 0x7fff, 0x8001, 0xffff],
        &[0, 0x8000],
        &[1 << 16, (1 << 16) + 1, MAX],
    );
    for number in [word::OURS, word::THEIRS, word::START] {
        let over = [SPACE, SPACE + 0x12, u32::MAX.into()];
        each(
            number,
            &[0, SPACE - 1],
            &over,
            &[1 << 32, (1 << 32) + 0x12, MAX],
        );
    }
    for function in [word::SEND, word::WRITE, word::READ, word::ATOMIC] {
        each(function, &[0, 1], &[], &[2, 256, MAX]);
    }
}

#[test]
fn expected_psn_and_msn_have_24_bits() {
    for number in [word::EXPECTED, word::MSN] {
        let over = [SPACE, SPACE + 7, u32::MAX.into()];
        each(
            number,
            &[0, SPACE - 1],
            &over,
            &[1 << 32, (1 << 32) + 7, MAX],
        );
    }
}

#[test]
fn the_state_is_one_of_three_and_the_mark_a_flag() {
    each(word::STATE, &[0, 1, 2], &[3, 255], &[256, 257, MAX]);
    each(word::NAK_MARK, &[0, 1], &[], &[2, MAX]);
}

#[test]
fn a_table_has_16_rows() {
    for head in [word::HEAD, word::SAVED_HEAD] {
        each(head, &[0, 1, 15], &[16, 17, MAX], &[]);
    }
    for count in [word::COUNT, word::SAVED_COUNT] {
        each(count, &[0, 1, 15, 16], &[17, MAX], &[]);
    }
    let most = [
        (word::HEAD, 15),
        (word::COUNT, 16),
        (word::SAVED_HEAD, 15),
        (word::SAVED_COUNT, 16),
    ];
    tried((&most, Sound));
}

#[test]
fn an_open_message_is_a_send_or_a_write() {
    for kind in [1, 5, 7, 12, 254] {
        tried((&[(word::KIND, kind), (word::LENGTH, 1)], Unsound));
    }
    // The low 8 bits are those of none, a SEND and a WRITE.
    for kind in [256 + 255, 256, 256 + 6, MAX] {
        tried((&[(word::KIND, kind), (word::LENGTH, 1)], Wide));
    }
}

#[test]
fn an_open_send_holds_an_entry_and_has_placed_at_most_the_limit() {
    let cases = [
        (1, 0, Sound),
        (1, 1, Sound),
        (16, 256, Sound),
        (0, 0, Unsound),
        (0, 256, Unsound),
        (1, LIMIT, Sound),
        (1, LIMIT + 1, Unsound),
        (1, MAX, Unsound),
    ];
    for (count, stored, fit) in cases {
        let set = [
            (word::KIND, 0),
            (word::COUNT, count),
            (word::STORED, stored),
            // These are a WRITE's.
            (word::ADDRESS, MAX),
            (word::LENGTH, MAX),
        ];
        tried((&set, fit));
    }
}

#[test]
fn an_open_write_has_bytes_to_come_within_the_limit_and_below_the_top() {
    let cases = [
        (0, 0, 0, Unsound),
        (0, 1, 0, Sound),
        (1, 1, 0, Unsound),
        (255, 256, 0, Sound),
        (256, 256, 0, Unsound),
        (257, 256, 0, Unsound),
        (0, LIMIT, 0, Sound),
        (LIMIT - 1, LIMIT, 0, Sound),
        (LIMIT, LIMIT, 0, Unsound),
        (0, LIMIT + 1, 0, Unsound),
        (LIMIT, LIMIT + 1, 0, Unsound),
        (0, MAX, 0, Unsound),
        (MAX, 0, 0, Unsound),
        (MAX, MAX, 0, Unsound),
        // The next byte has an address, if the ones after it have none.
        (0, 2, MAX, Sound),
        (1, 2, MAX - 1, Sound),
        (1, 2, MAX, Unsound),
        (256, 300, MAX - 256, Sound),
        (256, 300, MAX - 255, Unsound),
    ];
    for (stored, length, address, fit) in cases {
        let set = [
            (word::KIND, 6),
            (word::STORED, stored),
            (word::LENGTH, length),
            (word::ADDRESS, address),
            // A WRITE holds no entry.
            (word::COUNT, 0),
        ];
        tried((&set, fit));
        let keyed = [&set[..], &[(word::KEY, u32::MAX.into())]].concat();
        tried((&keyed, fit));
        let wide = [&set[..], &[(word::KEY, 1 << 32)]].concat();
        tried((&wide, Wide));
    }
}

#[test]
fn a_read_answer_lies_in_memory_with_no_more_responses_than_it_has() {
    // Responses still to be taken, offset, length; the PMTU is 256.
    let cases = [
        (1, 0, 0, Sound),
        (2, 0, 0, Unsound),
        (1, 0, 256, Sound),
        (2, 0, 256, Unsound),
        (2, 0, 257, Sound),
        (3, 0, 513, Sound),
        (4, 0, 513, Unsound),
        (1, 0, 4096, Sound),
        (16, 0, 4096, Sound),
        (17, 0, 4096, Unsound),
        (1, 0, 4097, Unsound),
        (1, 1, 4096, Unsound),
        (1, 1, 4095, Sound),
        (1, 4095, 1, Sound),
        (1, 4096, 0, Sound),
        (1, 4096, 1, Unsound),
        (1, 4097, 0, Unsound),
        (1, MAX, 0, Unsound),
        (1, MAX, 1, Unsound),
        (1, 1, MAX, Unsound),
        (MAX, 0, MAX, Unsound),
        (MAX, 0, 600, Unsound),
    ];
    for (pending, offset, length, fit) in cases {
        tried((
            &[
                (word::PENDING, pending),
                (word::READ_OFFSET, offset),
                (word::READ_LENGTH, length),
            ],
            fit,
        ));
    }
    for number in [word::READ_PSN, word::READ_MSN] {
        for (value, fit) in [
            (0, Sound),
            (SPACE - 1, Sound),
            (SPACE, Unsound),
            (u32::MAX.into(), Unsound),
            (1 << 32, Wide),
            (MAX, Wide),
        ] {
            tried((&[(word::PENDING, 1), (number, value)], fit));
        }
    }
}

#[test]
fn numbers_of_no_message_and_of_no_read_have_no_bounds_but_their_widths() {
    let message = [
        (word::STORED, MAX),
        (word::ADDRESS, MAX),
        (word::KEY, u32::MAX.into()),
        (word::LENGTH, MAX),
    ];
    tried((&message, Sound));
    tried((&[(word::KEY, 1 << 32)], Wide));
    let read = [
        (word::PENDING, 0),
        (word::READ_OFFSET, MAX),
        (word::READ_LENGTH, MAX),
        (word::READ_PSN, u32::MAX.into()),
        (word::READ_MSN, u32::MAX.into()),
    ];
    tried((&read, Sound));
    tried((&[(word::PENDING, 0), (word::READ_PSN, 1 << 32)], Wide));
    tried((&[(word::PENDING, 0), (word::READ_MSN, 1 << 32)], Wide));
}

#[test]
fn memory_of_another_length_is_34_beside_numbers_out_of_range() {
    for set in [&[][..], &[(word::SAVED_COUNT, 17)]] {
        let lent = Lent::ready(Service::Rc, 1).with(set);
        for length in [0, 4095, 4097] {
            let mut other = lent.clone();
            other.memory.resize(length, 0);
            other.keeps(34, |lent| lent.inbound(b""), length);
            other.words[word::PENDING] = 1;
            other.keeps(34, |lent| lent.inbound(b""), length);
            other.keeps(34, Lent::next_response, length);
        }
    }
}
