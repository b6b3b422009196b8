//! The calls of the library on bare words and tables, in the order of parameters of `include/udalopek.h`. Any words may
//! be handed in: those out of range are refused. For tests of just that; [`crate::QueuePair`] keeps its own.
//!
//! This is the only place with unsafe code. The header asks three things of a caller, and each is met in the same way
//! everywhere: no pointer is null, since it comes from a slice or an array, empty or not; it points to as many elements
//! as the library takes there to be, since a slice's length goes beside it and an array has the length of its type;
//! what is written overlaps nothing else, since it is borrowed by `&mut` and everything is borrowed until the call is
//! back. The library keeps no pointer.
#![allow(unsafe_code)]
#![allow(clippy::too_many_arguments)]

use crate::ffi;

/// How many words a pair has.
pub const WORDS: usize = 30;

/// A row: key, address, length, offset, write, read, atomic. Length 0: the row is free.
pub type Regions = [[u64; 7]; 16];

/// A row: number, offset, length.
pub type Entries = [[u64; 3]; 16];

/// A row: PSN, value.
pub type Saved = [[u64; 2]; 16];

#[inline]
pub fn set_up(
    pair: &mut [u64],
    regions: &mut Regions,
    service: u8,
    pmtu: usize,
    ours: u32,
    theirs: u32,
    pkey: u16,
    start: u32,
    timer: u8,
    send: bool,
    write: bool,
    read: bool,
    atomic: bool,
    memory: usize,
) -> u8 {
    // SAFETY: `pair` is a slice with its length, `regions` 16 rows; each is borrowed by `&mut`.
    unsafe {
        ffi::udalopek_set_up(
            pair.as_mut_ptr(),
            pair.len(),
            regions.as_mut_ptr(),
            service,
            pmtu,
            ours,
            theirs,
            pkey,
            start,
            timer,
            send,
            write,
            read,
            atomic,
            memory,
        )
    }
}

#[inline]
pub fn reset(pair: &mut [u64], regions: &mut Regions) -> u8 {
    // SAFETY: `pair` is a slice with its length, `regions` 16 rows; each is borrowed by `&mut`.
    unsafe { ffi::udalopek_reset(pair.as_mut_ptr(), pair.len(), regions.as_mut_ptr()) }
}

#[inline]
pub fn make_ready(pair: &mut [u64]) -> u8 {
    // SAFETY: `pair` is a slice with its length, borrowed by `&mut`.
    unsafe { ffi::udalopek_make_ready(pair.as_mut_ptr(), pair.len()) }
}

#[inline]
pub fn add_region(
    pair: &[u64],
    regions: &mut Regions,
    key: u32,
    address: u64,
    length: u64,
    offset: u64,
    write: bool,
    read: bool,
    atomic: bool,
) -> u8 {
    // SAFETY: `pair` is a slice with its length, only read; `regions` 16 rows, borrowed by `&mut`.
    unsafe {
        ffi::udalopek_add_region(
            pair.as_ptr(),
            pair.len(),
            regions.as_mut_ptr(),
            key,
            address,
            length,
            offset,
            write,
            read,
            atomic,
        )
    }
}

#[inline]
pub fn remove_region(pair: &[u64], regions: &mut Regions, key: u32) -> u8 {
    // SAFETY: `pair` is a slice with its length, only read; `regions` 16 rows, borrowed by `&mut`.
    unsafe { ffi::udalopek_remove_region(pair.as_ptr(), pair.len(), regions.as_mut_ptr(), key) }
}

#[inline]
pub fn post_entry(
    pair: &mut [u64],
    entries: &mut Entries,
    number: u64,
    offset: u64,
    length: u64,
) -> u8 {
    // SAFETY: `pair` is a slice with its length, `entries` 16 rows; each is borrowed by `&mut`.
    unsafe {
        ffi::udalopek_post_entry(
            pair.as_mut_ptr(),
            pair.len(),
            entries.as_mut_ptr(),
            number,
            offset,
            length,
        )
    }
}

#[inline]
pub fn inbound(
    pair: &mut [u64],
    regions: &Regions,
    entries: &Entries,
    saved: &mut Saved,
    memory: &mut [u8],
    packet: &[u8],
    out: &mut [u8],
    report: &mut [u64; 6],
) -> u8 {
    // SAFETY: `pair`, `memory`, `packet` and `out` are slices with their lengths; the tables have 16 rows and `report`
    // 6 words. `pair`, `saved`, `memory`, `out` and `report` are borrowed by `&mut`, and the others are only read.
    unsafe {
        ffi::udalopek_inbound(
            pair.as_mut_ptr(),
            pair.len(),
            regions.as_ptr(),
            entries.as_ptr(),
            saved.as_mut_ptr(),
            memory.as_mut_ptr(),
            memory.len(),
            packet.as_ptr(),
            packet.len(),
            out.as_mut_ptr(),
            out.len(),
            report.as_mut_ptr(),
        )
    }
}

#[inline]
pub fn next_response(pair: &mut [u64], memory: &[u8], out: &mut [u8], report: &mut [u64; 1]) -> u8 {
    // SAFETY: `pair`, `memory` and `out` are slices with their lengths, `report` one word. `pair`, `out` and `report`
    // are borrowed by `&mut`, and `memory` is only read.
    unsafe {
        ffi::udalopek_next_response(
            pair.as_mut_ptr(),
            pair.len(),
            memory.as_ptr(),
            memory.len(),
            out.as_mut_ptr(),
            out.len(),
            report.as_mut_ptr(),
        )
    }
}

#[inline]
pub fn read_header(
    packet: &[u8],
    bth: &mut [u64; 11],
    extension: &mut [u64; 10],
    report: &mut [u64; 1],
) -> u8 {
    // SAFETY: `packet` is a slice with its length, only read; `bth` and `extension` are arrays of the lengths that the
    // header names, `report` one word, each borrowed by `&mut`.
    unsafe {
        ffi::udalopek_read_header(
            packet.as_ptr(),
            packet.len(),
            bth.as_mut_ptr(),
            extension.as_mut_ptr(),
            report.as_mut_ptr(),
        )
    }
}

#[inline]
pub fn write_header(
    bth: &[u64; 11],
    extension: &[u64; 10],
    out: &mut [u8],
    report: &mut [u64; 1],
) -> u8 {
    // SAFETY: `bth` and `extension` are arrays of the lengths that the header names, only read; `out` is a slice with
    // its length, `report` one word, each borrowed by `&mut`.
    unsafe {
        ffi::udalopek_write_header(
            bth.as_ptr(),
            extension.as_ptr(),
            out.as_mut_ptr(),
            out.len(),
            report.as_mut_ptr(),
        )
    }
}

#[inline]
pub fn cut(
    service: u8,
    pmtu: usize,
    pkey: u16,
    dest: u32,
    psn: u32,
    index: usize,
    kind: u8,
    address: u64,
    key: u32,
    length: u32,
    swap: u64,
    compare: u64,
    immediate: u32,
    message: &[u8],
    out: &mut [u8],
    report: &mut [u64; 2],
) -> u8 {
    // SAFETY: `message` and `out` are slices with their lengths, `report` two words. `out` and `report` are borrowed by
    // `&mut`, and `message` is only read.
    unsafe {
        ffi::udalopek_cut(
            service,
            pmtu,
            pkey,
            dest,
            psn,
            index,
            kind,
            address,
            key,
            length,
            swap,
            compare,
            immediate,
            message.as_ptr(),
            message.len(),
            out.as_mut_ptr(),
            out.len(),
            report.as_mut_ptr(),
        )
    }
}
