//! The adapter of the `plain` crate.

use crate::subject::*;

#[derive(Clone)]
pub struct Plain(plain::QueuePair);

impl Subject for Plain {
    const NAME: &'static str = "plain";

    fn set_up(setup: Setup) -> Result<Plain, u8> {
        plain::QueuePair::set_up(setup).map(Plain)
    }

    fn add_region(&mut self, region: Region) -> u8 {
        self.0.add_region(region)
    }

    fn remove_region(&mut self, key: u32) -> u8 {
        self.0.remove_region(key)
    }

    fn post_entry(&mut self, entry: Entry) -> u8 {
        self.0.post_entry(entry)
    }

    fn make_ready(&mut self) -> u8 {
        self.0.make_ready()
    }

    fn reset(&mut self) -> u8 {
        self.0.reset()
    }

    fn inbound(&mut self, memory: &mut [u8], packet: &[u8], out: &mut [u8]) -> Inbound {
        self.0.inbound(memory, packet, out)
    }

    fn next_response(&mut self, memory: &[u8], out: &mut [u8]) -> (u8, usize) {
        self.0.next_response(memory, out)
    }

    fn view(&self) -> View {
        let mut regions = self.0.regions();
        regions.sort_by_key(|region| region.key);
        View {
            expected: self.0.expected(),
            msn: self.0.msn(),
            state: self.0.state(),
            marked: self.0.marked(),
            pending: self.0.responses_pending(),
            waiting: self.0.waiting(),
            held: self.0.held(),
            regions,
            saved: self.0.saved(),
            open: self.0.open_message(),
            write: self.0.open_write(),
            read: self.0.read_answer(),
        }
    }

    fn counts(&self) -> Counts {
        Counts {
            expected: self.0.expected(),
            msn: self.0.msn(),
            pending: self.0.responses_pending(),
        }
    }

    fn read_header(packet: &[u8]) -> Result<Header, u8> {
        plain::read_header(packet)
    }

    fn write_header(header: &Header, out: &mut [u8]) -> Result<usize, u8> {
        plain::write_header(header, out)
    }

    fn cut(
        connection: Connection,
        request: Request,
        message: &[u8],
        first: u32,
        index: usize,
        out: &mut [u8],
    ) -> Result<(usize, u32), u8> {
        plain::cut(connection, request, message, first, index, out)
    }
}
