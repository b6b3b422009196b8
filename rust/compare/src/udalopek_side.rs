//! The adapter of the `udalopek` crate: its enums and errors as the numbers
//! they stand for.

use crate::subject::*;
use udalopek::{Refusal, Service};

#[derive(Clone)]
pub struct Proved(udalopek::QueuePair);

fn service(number: u8) -> Service {
    match number {
        RC => Service::Rc,
        UC => Service::Uc,
        _ => unreachable!("set-ups and cuts are made for RC and UC alone"),
    }
}

fn number(done: Result<(), Refusal>) -> u8 {
    done.err().map_or(0, Refusal::number)
}

impl Subject for Proved {
    const NAME: &'static str = "udalopek";

    fn set_up(setup: Setup) -> Result<Proved, u8> {
        let setup = udalopek::Setup {
            service: service(setup.service),
            pmtu: setup.pmtu,
            ours: setup.ours,
            theirs: setup.theirs,
            pkey: setup.pkey,
            start: setup.start,
            timer: setup.timer,
            send: setup.send,
            write: setup.write,
            read: setup.read,
            atomic: setup.atomic,
            memory: setup.memory,
        };
        udalopek::QueuePair::set_up(setup)
            .map(Proved)
            .map_err(Refusal::number)
    }

    fn add_region(&mut self, region: Region) -> u8 {
        number(self.0.add_region(udalopek::Region {
            key: region.key,
            address: region.address,
            length: region.length,
            offset: region.offset,
            write: region.write,
            read: region.read,
            atomic: region.atomic,
        }))
    }

    fn remove_region(&mut self, key: u32) -> u8 {
        number(self.0.remove_region(key))
    }

    fn post_entry(&mut self, entry: Entry) -> u8 {
        number(self.0.post_entry(udalopek::Entry {
            number: entry.number,
            offset: entry.offset,
            length: entry.length,
        }))
    }

    fn make_ready(&mut self) -> u8 {
        number(self.0.make_ready())
    }

    fn reset(&mut self) -> u8 {
        number(self.0.reset())
    }

    fn inbound(&mut self, memory: &mut [u8], packet: &[u8], out: &mut [u8]) -> Inbound {
        match self.0.inbound(memory, packet, out) {
            Ok(got) => Inbound {
                number: got.answer.number(),
                sent: got.outgoing,
                completion: got.completion.map(|done| Completion {
                    entry: done.entry,
                    bytes: done.bytes,
                    immediate: done.immediate,
                }),
            },
            Err(refusal) => Inbound {
                number: refusal.number(),
                sent: 0,
                completion: None,
            },
        }
    }

    fn next_response(&mut self, memory: &[u8], out: &mut [u8]) -> (u8, usize) {
        match self.0.next_response(memory, out) {
            Ok(outgoing) => (0, outgoing),
            Err(refusal) => (refusal.number(), 0),
        }
    }

    fn view(&self) -> View {
        let mut regions: Vec<Region> = self.0.regions().into_iter().map(region).collect();
        regions.sort_by_key(|region| region.key);
        View {
            expected: self.0.expected(),
            msn: self.0.msn(),
            state: self.0.state().number(),
            marked: self.0.nak_mark(),
            pending: self.0.responses_pending(),
            waiting: self.0.waiting(),
            held: self.0.held(),
            regions,
            saved: self.0.saved(),
            open: self.0.open_message(),
            write: self.0.open_write(),
            read: self.0.read_answer(),
        }
    }

    fn counts(&self) -> Counts {
        Counts {
            expected: self.0.expected(),
            msn: self.0.msn(),
            pending: self.0.responses_pending(),
        }
    }

    fn read_header(packet: &[u8]) -> Result<Header, u8> {
        let header = udalopek::read_header(packet)?;
        Ok(Header {
            opcode: header.opcode,
            se: header.se,
            migreq: header.migreq,
            pad: header.pad,
            tver: header.tver,
            pkey: header.pkey,
            reserved8: header.reserved8,
            dest: header.dest,
            ackreq: header.ackreq,
            reserved7: header.reserved7,
            psn: header.psn,
            extension: extension_from(header.extension),
        })
    }

    fn write_header(header: &Header, out: &mut [u8]) -> Result<usize, u8> {
        let header = udalopek::Header {
            opcode: header.opcode,
            se: header.se,
            migreq: header.migreq,
            pad: header.pad,
            tver: header.tver,
            pkey: header.pkey,
            reserved8: header.reserved8,
            dest: header.dest,
            ackreq: header.ackreq,
            reserved7: header.reserved7,
            psn: header.psn,
            extension: extension_to(header.extension),
        };
        udalopek::write_header(&header, out).map_err(Refusal::number)
    }

    fn cut(
        connection: Connection,
        request: Request,
        message: &[u8],
        first: u32,
        index: usize,
        out: &mut [u8],
    ) -> Result<(usize, u32), u8> {
        let connection = udalopek::Connection {
            service: service(connection.service),
            pmtu: connection.pmtu,
            pkey: connection.pkey,
            dest: connection.dest,
        };
        let request = match request {
            Request::Send(immediate) => udalopek::Request::Send(immediate),
            Request::Write {
                address,
                key,
                immediate,
            } => udalopek::Request::Write {
                address,
                key,
                immediate,
            },
            Request::Read {
                address,
                key,
                length,
            } => udalopek::Request::Read {
                address,
                key,
                length,
            },
            Request::CmpSwap {
                address,
                key,
                swap,
                compare,
            } => udalopek::Request::CmpSwap {
                address,
                key,
                swap,
                compare,
            },
            Request::FetchAdd { address, key, add } => {
                udalopek::Request::FetchAdd { address, key, add }
            }
        };
        udalopek::cut(connection, request, message, first, index, out).map_err(Refusal::number)
    }
}

fn region(region: udalopek::Region) -> Region {
    Region {
        key: region.key,
        address: region.address,
        length: region.length,
        offset: region.offset,
        write: region.write,
        read: region.read,
        atomic: region.atomic,
    }
}

fn extension_from(extension: udalopek::Extension) -> Extension {
    use udalopek::Extension as Theirs;
    match extension {
        Theirs::None => Extension::None,
        Theirs::Reth {
            address,
            key,
            length,
        } => Extension::Reth {
            address,
            key,
            length,
        },
        Theirs::RethImmediate {
            address,
            key,
            length,
            immediate,
        } => Extension::RethImmediate {
            address,
            key,
            length,
            immediate,
        },
        Theirs::Immediate(immediate) => Extension::Immediate(immediate),
        Theirs::Atomic {
            address,
            key,
            swap,
            compare,
        } => Extension::Atomic {
            address,
            key,
            swap,
            compare,
        },
        Theirs::Aeth { syndrome, msn } => Extension::Aeth { syndrome, msn },
        Theirs::AethValue {
            syndrome,
            msn,
            value,
        } => Extension::AethValue {
            syndrome,
            msn,
            value,
        },
    }
}

fn extension_to(extension: Extension) -> udalopek::Extension {
    use udalopek::Extension as Theirs;
    match extension {
        Extension::None => Theirs::None,
        Extension::Reth {
            address,
            key,
            length,
        } => Theirs::Reth {
            address,
            key,
            length,
        },
        Extension::RethImmediate {
            address,
            key,
            length,
            immediate,
        } => Theirs::RethImmediate {
            address,
            key,
            length,
            immediate,
        },
        Extension::Immediate(immediate) => Theirs::Immediate(immediate),
        Extension::Atomic {
            address,
            key,
            swap,
            compare,
        } => Theirs::Atomic {
            address,
            key,
            swap,
            compare,
        },
        Extension::Aeth { syndrome, msn } => Theirs::Aeth { syndrome, msn },
        Extension::AethValue {
            syndrome,
            msn,
            value,
        } => Theirs::AethValue {
            syndrome,
            msn,
            value,
        },
    }
}
