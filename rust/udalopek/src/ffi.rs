//! The functions of `include/udalopek.h`, one for one. Only [`crate::raw`] calls them.

extern "C" {
    pub fn udalopek_set_up(
        pair: *mut u64,
        pair_words: usize,
        regions: *mut [u64; 7],
        service: u8,
        pmtu: usize,
        ours: u32,
        theirs: u32,
        pkey: u16,
        start: u32,
        timer: u8,
        send: bool,
        write: bool,
        read: bool,
        atomic: bool,
        memory: usize,
    ) -> u8;

    pub fn udalopek_reset(pair: *mut u64, pair_words: usize, regions: *mut [u64; 7]) -> u8;

    pub fn udalopek_make_ready(pair: *mut u64, pair_words: usize) -> u8;

    pub fn udalopek_add_region(
        pair: *const u64,
        pair_words: usize,
        regions: *mut [u64; 7],
        key: u32,
        address: u64,
        length: u64,
        offset: u64,
        write: bool,
        read: bool,
        atomic: bool,
    ) -> u8;

    pub fn udalopek_remove_region(
        pair: *const u64,
        pair_words: usize,
        regions: *mut [u64; 7],
        key: u32,
    ) -> u8;

    pub fn udalopek_post_entry(
        pair: *mut u64,
        pair_words: usize,
        entries: *mut [u64; 3],
        number: u64,
        offset: u64,
        length: u64,
    ) -> u8;

    pub fn udalopek_inbound(
        pair: *mut u64,
        pair_words: usize,
        regions: *const [u64; 7],
        entries: *const [u64; 3],
        saved: *mut [u64; 2],
        memory: *mut u8,
        memory_length: usize,
        packet: *const u8,
        packet_length: usize,
        out: *mut u8,
        out_length: usize,
        report: *mut u64,
    ) -> u8;

    pub fn udalopek_next_response(
        pair: *mut u64,
        pair_words: usize,
        memory: *const u8,
        memory_length: usize,
        out: *mut u8,
        out_length: usize,
        report: *mut u64,
    ) -> u8;

    pub fn udalopek_read_header(
        packet: *const u8,
        packet_length: usize,
        bth: *mut u64,
        extension: *mut u64,
        report: *mut u64,
    ) -> u8;

    pub fn udalopek_write_header(
        bth: *const u64,
        extension: *const u64,
        out: *mut u8,
        out_length: usize,
        report: *mut u64,
    ) -> u8;

    pub fn udalopek_cut(
        service: u8,
        pmtu: usize,
        pkey: u16,
        dest: u32,
        psn: u32,
        index: usize,
        kind: u8,
        address: u64,
        key: u32,
        length: u32,
        swap: u64,
        compare: u64,
        immediate: u32,
        message: *const u8,
        message_length: usize,
        out: *mut u8,
        out_length: usize,
        report: *mut u64,
    ) -> u8;
}
