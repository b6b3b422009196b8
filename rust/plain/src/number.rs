//! Limits and the arithmetic of 24-bit numbers ("Numbers").

/// The largest PSN, MSN or queue pair number.
pub const LAST: u32 = 0xFF_FFFF;
/// The farthest distance that still counts as ahead.
const HALF: u32 = 0x80_0000;
/// Most bytes of lent memory, of a DMA length and of a message.
pub const LIMIT: usize = 1 << 20;
/// Rows of the tables of regions, entries and saved atomics.
pub const ROWS: usize = 16;

/// Where a PSN stands towards the expected one ("RC responder").
#[derive(Clone, Copy, Debug, PartialEq, Eq)]
pub enum Standing {
    Expected,
    Ahead,
    Duplicate,
}

/// The number `count` after this one, modulo 2^24.
#[inline]
pub fn after(number: u32, count: u32) -> u32 {
    number.wrapping_add(count) & LAST
}

/// The number before this one, modulo 2^24.
#[inline]
pub fn before(number: u32) -> u32 {
    number.wrapping_sub(1) & LAST
}

/// How far `to` lies after `from`, modulo 2^24.
#[inline]
pub fn distance(from: u32, to: u32) -> u32 {
    to.wrapping_sub(from) & LAST
}

#[inline]
pub fn standing(expected: u32, psn: u32) -> Standing {
    match distance(expected, psn) {
        0 => Standing::Expected,
        1..=HALF => Standing::Ahead,
        _ => Standing::Duplicate,
    }
}

pub fn is_pmtu(pmtu: usize) -> bool {
    matches!(pmtu, 256 | 512 | 1024 | 2048 | 4096)
}

/// Packets of a message of this length: 1 for none, else rounded up.
#[inline]
pub fn packets(length: usize, pmtu: usize) -> usize {
    length.div_ceil(pmtu).max(1)
}

/// The least count that makes a payload a multiple of 4.
#[inline]
pub fn pad(length: usize) -> usize {
    length.wrapping_neg() & 3
}

#[cfg(test)]
mod tests {
    use super::*;

    #[test]
    fn w1_to_w4() {
        assert_eq!(standing(0, 16_777_215), Standing::Duplicate);
        assert_eq!(standing(0, 8_388_608), Standing::Ahead);
        assert_eq!(standing(0, 8_388_609), Standing::Duplicate);
        assert_eq!(standing(16_777_215, 0), Standing::Ahead);
        assert_eq!(distance(16_777_215, 0), 1);
        assert_eq!(standing(16_777_215, 16_777_215), Standing::Expected);
    }

    #[test]
    fn counts() {
        assert_eq!(packets(0, 256), 1);
        assert_eq!(packets(256, 256), 1);
        assert_eq!(packets(257, 256), 2);
        assert_eq!(packets(LIMIT, 256), 4096);
        assert_eq!((pad(0), pad(1), pad(2), pad(3), pad(4)), (0, 3, 2, 1, 0));
    }
}
