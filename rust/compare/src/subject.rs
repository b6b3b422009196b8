//! What is asked of an implementation. The values are those of `plain`; the
//! other side's adapter turns its own into them.

pub use plain::{
    Completion, Connection, Entry, Extension, Header, Inbound, Region, Request, Setup,
};

pub const RC: u8 = plain::RC;
pub const UC: u8 = plain::UC;
/// The limit of memory, DMA length and message.
pub const LIMIT: usize = 1 << 20;
pub const PMTUS: [usize; 5] = [256, 512, 1024, 2048, 4096];

/// All that a pair keeps, but the numbers of its set-up, which a reset shows.
#[derive(Clone, Debug, PartialEq, Eq)]
pub struct View {
    pub expected: u32,
    pub msn: u32,
    /// 0 Init, 1 Ready, 2 Error.
    pub state: u8,
    pub marked: bool,
    pub pending: usize,
    /// Entries not completed, the held one first: number, offset, length.
    pub waiting: Vec<(u64, u64, u64)>,
    pub held: bool,
    /// By key, since the rules give regions no order.
    pub regions: Vec<Region>,
    pub saved: Vec<(u32, u64)>,
    /// 0 SEND or 6 WRITE, and the bytes stored.
    pub open: Option<(u8, u64)>,
    /// An open WRITE's address, R_Key and DMA length.
    pub write: Option<(u64, u32, u64)>,
    /// What is left of a READ: offset of the next bytes, how many, next PSN, MSN.
    pub read: Option<(Option<u64>, u64, u32, u32)>,
}

/// The numbers of a pair that can be had without a list.
#[derive(Clone, Copy, Debug, PartialEq, Eq)]
pub struct Counts {
    pub expected: u32,
    pub msn: u32,
    pub pending: usize,
}

pub trait Subject: Sized {
    const NAME: &'static str;

    fn set_up(setup: Setup) -> Result<Self, u8>;
    fn add_region(&mut self, region: Region) -> u8;
    fn remove_region(&mut self, key: u32) -> u8;
    fn post_entry(&mut self, entry: Entry) -> u8;
    fn make_ready(&mut self) -> u8;
    fn reset(&mut self) -> u8;
    fn inbound(&mut self, memory: &mut [u8], packet: &[u8], out: &mut [u8]) -> Inbound;
    fn next_response(&mut self, memory: &[u8], out: &mut [u8]) -> (u8, usize);
    fn view(&self) -> View;
    fn counts(&self) -> Counts;

    fn read_header(packet: &[u8]) -> Result<Header, u8>;
    fn write_header(header: &Header, out: &mut [u8]) -> Result<usize, u8>;
    fn cut(
        connection: Connection,
        request: Request,
        message: &[u8],
        first: u32,
        index: usize,
        out: &mut [u8],
    ) -> Result<(usize, u32), u8>;
}
