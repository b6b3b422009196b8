//! Packets byte by byte, so that they may be such as no message is cut into.
use super::*;

// Kinds of request, by their first opcode, and the places of a packet in a SEND or WRITE.
pub const SEND: u8 = 0;
pub const WRITE: u8 = 6;
pub const READ: u8 = 12;
pub const CMP_SWAP: u8 = 19;
pub const FETCH_ADD: u8 = 20;
pub const FIRST: u8 = 0;
pub const MIDDLE: u8 = 1;
pub const LAST: u8 = 2;
pub const LAST_IMM: u8 = 3;
pub const ONLY: u8 = 4;
pub const ONLY_IMM: u8 = 5;

pub const SERVICES: [Service; 2] = [Service::Rc, Service::Uc];

/// A request to our pair, with AckReq. An atomic's operands and an immediate are 1.
#[derive(Clone, Debug)]
pub struct Wire {
    opcode: u8,
    psn: u32,
    address: u64,
    key: u32,
    length: Option<u32>,
    pad: Option<u8>,
    payload: Vec<u8>,
}

/// So many bytes, which memory does not have at a multiple of 256.
pub fn payload(bytes: usize) -> Vec<u8> {
    pattern(bytes + 1).split_off(1)
}

/// Names the region of the tests from its start on.
pub fn wire(opcode: u8, psn: u32) -> Wire {
    Wire {
        opcode,
        psn,
        address: ADDRESS,
        key: KEY,
        length: None,
        pad: None,
        payload: Vec::new(),
    }
}

impl Wire {
    pub fn carrying(self, bytes: usize) -> Wire {
        self.with(&payload(bytes))
    }

    pub fn with(mut self, payload: &[u8]) -> Wire {
        self.payload = payload.to_vec();
        self
    }

    /// The DMA length, where it is not the payload's.
    pub fn length(mut self, length: u32) -> Wire {
        self.length = Some(length);
        self
    }

    /// The PadCnt, where it is not the payload's; the payload is then taken as it is.
    pub fn pad(mut self, pad: u8) -> Wire {
        self.pad = Some(pad);
        self
    }

    pub fn key(mut self, key: u32) -> Wire {
        self.key = key;
        self
    }

    pub fn address(mut self, address: u64) -> Wire {
        self.address = address;
        self
    }

    /// The same request on the service.
    pub fn on(mut self, service: Service) -> Wire {
        self.opcode = self.opcode % 32 + 32 * service.number();
        self
    }

    pub fn bytes(&self) -> Vec<u8> {
        let low = self.opcode % 32;
        let rest = self.payload.len() % 4;
        let pad = self.pad.unwrap_or((4 - rest as u8) % 4);
        let mut bytes = vec![self.opcode, pad << 4];
        bytes.extend(PKEY.to_be_bytes());
        bytes.extend(OURS.to_be_bytes());
        bytes.extend((1 << 31 | self.psn).to_be_bytes());
        if [6, 10, 11, 12, 19, 20].contains(&low) {
            bytes.extend(self.address.to_be_bytes());
            bytes.extend(self.key.to_be_bytes());
        }
        if [6, 10, 11, 12].contains(&low) {
            let length = self.length.unwrap_or(self.payload.len() as u32);
            bytes.extend(length.to_be_bytes());
        }
        if [19, 20].contains(&low) {
            bytes.extend([1_u64.to_be_bytes(), 1_u64.to_be_bytes()].concat());
        }
        if [3, 5, 9, 11].contains(&low) {
            bytes.extend(1_u32.to_be_bytes());
        }
        bytes.extend(&self.payload);
        if self.pad.is_none() {
            bytes.resize(bytes.len() + usize::from(pad), 0);
        }
        bytes
    }
}

/// The answer to a SEND or WRITE with AckReq that is executed.
pub fn executed(service: Service) -> u8 {
    match service {
        Service::Rc => 1,
        Service::Uc => 0,
    }
}

/// An acknowledgement to the other side.
pub fn acknowledge(syndrome: u8, psn: u32, msn: u32) -> Vec<u8> {
    let mut bytes = vec![17, 0];
    bytes.extend(PKEY.to_be_bytes());
    bytes.extend(THEIRS.to_be_bytes());
    bytes.extend(psn.to_be_bytes());
    bytes.extend((u32::from(syndrome) << 24 | msn).to_be_bytes());
    bytes
}
