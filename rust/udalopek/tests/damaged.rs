//! Words and tables that no call wrote are refused, and nothing that was lent changes.
mod common;

use common::lent::{word, Lent};
use common::{pattern, write, KEY};
use udalopek::raw::WORDS;
use udalopek::Request;

const SEND: Request = Request::Send(None);

/// The end of the WRITE that is open in a busy pair.
fn end_write(lent: &mut Lent) -> u8 {
    lent.hand(write(None), &pattern(300), 11, 1)
}

/// For each word values that no call could have written to it: one just over its bound, or the nearest that has no
/// meaning; one over the width of its field, where that is under 64 bits; the largest.
fn damage() -> Vec<(usize, u64)> {
    let number = 1 << 24;
    let bounds = [
        (word::PMTU, 300),
        (word::MEMORY, 1_048_577),
        (word::OURS, number),
        (word::THEIRS, number),
        (word::START, number),
        (word::PKEY, 0x8000),
        (word::SERVICE, 2),
        (word::TIMER, 32),
        (word::SEND, 2),
        (word::WRITE, 2),
        (word::READ, 2),
        (word::ATOMIC, 2),
        (word::KIND, 1),
        (word::STORED, 300),             // all of its bytes, and yet open
        (word::ADDRESS, u64::MAX - 255), // that of the next byte would be 2^64
        (word::KEY, 1 << 32),
        (word::LENGTH, 256), // no more than is stored
        (word::LENGTH, 1_048_577),
        (word::HEAD, 16),
        (word::COUNT, 17),
        (word::PENDING, 4),              // more than the READ has
        (word::READ_OFFSET, 4096 - 599), // 600 bytes from there on are not in memory
        (word::READ_LENGTH, 4097),
        (word::READ_PSN, number),
        (word::READ_MSN, number),
        (word::SAVED_HEAD, 16),
        (word::SAVED_COUNT, 17),
        (word::EXPECTED, number),
        (word::MSN, number),
        (word::STATE, 3),
        (word::NAK_MARK, 2),
    ];
    let wide = [
        (word::OURS, 32),
        (word::THEIRS, 32),
        (word::START, 32),
        (word::PKEY, 16),
        (word::SERVICE, 8),
        (word::TIMER, 8),
        (word::KIND, 8),
        (word::READ_PSN, 32),
        (word::READ_MSN, 32),
        (word::EXPECTED, 32),
        (word::MSN, 32),
        (word::STATE, 8),
    ];
    let past = wide.map(|(word, bits)| (word, 1 << bits));
    let most = (0..WORDS).map(|word| (word, u64::MAX));
    bounds.into_iter().chain(past).chain(most).collect()
}

/// Each damage in turn is refused as `refusal` says, and nothing changes. The sound pair is not refused so.
fn refused(
    sound: &Lent,
    accepted: u8,
    call: impl Fn(&mut Lent) -> u8,
    refusal: impl Fn(usize, u64) -> Option<u8>,
) {
    assert_eq!(call(&mut sound.clone()), accepted);
    for (word, value) in damage() {
        let Some(number) = refusal(word, value) else {
            continue;
        };
        let mut lent = sound.with(&[(word, value)]);
        // Memory of the length that the words say, so that this is not what is refused.
        if word == word::MEMORY && value < 1 << 24 {
            lent.memory.resize(value as usize, 0);
        }
        lent.keeps(number, &call, (word, value));
    }
}

const OUT_OF_RANGE: fn(usize, u64) -> Option<u8> = |_, _| Some(34);

#[test]
fn a_packet_to_damaged_words() {
    // Sound words get 32, which comes after 34.
    refused(&Lent::busy(), 32, end_write, OUT_OF_RANGE);
}

#[test]
fn a_packet_to_damaged_words_that_would_be_executed() {
    // With no response pending the words of the READ say nothing, so that only their widths are bounds.
    let mut sound = Lent::busy();
    sound.drain();
    refused(&sound, 1, end_write, |word, value| match word {
        word::READ_OFFSET | word::READ_LENGTH => None,
        word::READ_PSN | word::READ_MSN if value < 1 << 32 => None,
        _ => Some(34),
    });
}

#[test]
fn a_response_of_damaged_words() {
    // An output under 16 + PMTU is looked at first.
    refused(
        &Lent::busy(),
        0,
        Lent::next_response,
        |word, value| match word {
            word::PMTU if value == u64::MAX => Some(35),
            _ => Some(34),
        },
    );
}

#[test]
fn damaged_words_are_not_made_ready() {
    // In Init no message is open; but what make_ready looks at does not depend on the state, once it is Init.
    let mut sound = Lent::busy();
    sound.words[word::STATE] = 0;
    refused(&sound, 0, Lent::make_ready, |word, value| match word {
        // Read modulo 256, and looked at first.
        word::STATE if value % 256 != 0 => Some(36),
        _ => Some(34),
    });
}

#[test]
fn damaged_words_take_no_entry() {
    refused(&Lent::busy(), 0, Lent::post_entry, OUT_OF_RANGE);
}

#[test]
fn damaged_words_take_no_region() {
    refused(
        &Lent::busy(),
        0,
        |lent| lent.add_region(KEY + 1),
        OUT_OF_RANGE,
    );
}

#[test]
fn damaged_set_up_numbers_and_words_out_of_range_are_not_reset() {
    let sound = Lent::busy();
    refused(&sound, 0, Lent::reset, |word, value| {
        (!sound.with(&[(word, value)]).may_be_reset()).then_some(34)
    });
}

#[test]
fn reset_mends_every_other_word() {
    let sound = Lent::busy();
    let mut fresh = sound.clone();
    assert_eq!(fresh.reset(), 0);
    let mut mended = 0;
    for (word, value) in damage() {
        let mut lent = sound.with(&[(word, value)]);
        if lent.may_be_reset() {
            assert_eq!(lent.reset(), 0, "{word}: {value}");
            assert!(lent == fresh, "{word}: {value}");
            mended += 1;
        }
    }
    assert!(mended > 10);
}

#[test]
fn remove_region_looks_at_no_word_of_the_pair() {
    let sound = Lent::busy();
    for (word, value) in damage() {
        let mut lent = sound.with(&[(word, value)]);
        let mut expected = lent.clone();
        expected.regions[0] = [0; 7];
        assert_eq!(lent.remove_region(), 0, "{word}: {value}");
        assert!(lent == expected, "{word}: {value}");
    }
}

#[test]
fn words_of_another_length() {
    type Call = fn(&mut Lent) -> u8;
    let calls: [(&str, Call); 8] = [
        ("set_up", Lent::set_up),
        ("reset", Lent::reset),
        ("make_ready", Lent::make_ready),
        ("add_region", |lent| lent.add_region(KEY + 1)),
        ("remove_region", Lent::remove_region),
        ("post_entry", Lent::post_entry),
        ("inbound", |lent| lent.hand(SEND, b"abc", 12, 0)),
        ("next_response", Lent::next_response),
    ];
    for (name, call) in calls {
        for words in [0, 29, 31] {
            let mut lent = Lent::busy();
            lent.words.resize(words, 0);
            lent.keeps(34, call, (name, words));
        }
    }
}

#[test]
fn a_row_of_regions_that_nothing_names_is_not_looked_at() {
    let mut sound = Lent::busy();
    sound.drain();
    for row in [
        [1 << 32, 0, 8, 0, 1, 1, 1],
        [9, u64::MAX - 7, 8, 0, 1, 1, 1],
        [9, 0, 4097, 0, 1, 1, 1],
        [9, 0, u64::MAX, 0, 1, 1, 1],
        [9, 0, 8, 4089, 1, 1, 1],
        [9, 0, 8, 0, 2, 3, u64::MAX],
        [u64::MAX; 7],
    ] {
        let mut lent = sound.clone();
        lent.regions[15] = row;
        assert_eq!(end_write(&mut lent.clone()), 1, "{row:?}");
        assert_eq!(lent.clone().add_region(KEY + 1), 0, "{row:?}");
        assert_eq!(lent.clone().remove_region(), 0, "{row:?}");
    }
}

#[test]
fn rows_of_entries_that_no_call_wrote() {
    // The entry that a SEND would take: 128 bytes from byte 2,048 on. Of each number the last that is in range, and the
    // next.
    let mut sound = Lent::busy();
    sound.drain();
    assert_eq!(end_write(&mut sound), 1);
    let send = |lent: &mut Lent| lent.hand(SEND, b"abc", 13, 0);
    let columns = [
        (1, 4096 - 128, 4096 - 127),
        (1, 4096 - 128, u64::MAX),
        (2, 2048, 2049),
        (2, 2048, u64::MAX),
    ];
    for (column, last, next) in columns {
        let mut lent = sound.clone();
        lent.entries[0][column] = last;
        assert_eq!(send(&mut lent.clone()), 1, "{column}: {last}");
        lent.entries[0][column] = next;
        lent.keeps(34, send, (column, next));
    }
}

#[test]
fn set_up_takes_words_and_tables_as_they_come() {
    let mut lent = Lent::blank(WORDS);
    assert_eq!(lent.set_up(), 0);
    assert_eq!(lent.regions, [[0; 7]; 16]);
    assert_eq!(lent.make_ready(), 0);
    assert_eq!(lent.hand(SEND, b"abc", 7, 0), 19);
}
