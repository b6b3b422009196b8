//! What an opcode says ("Headers"): bits 7 to 5 are the service, bits 4 to 0
//! choose a row of one table.

use crate::{RC, UC};

/// Bits 4 to 0 of the opcodes that the responder and cut write.
pub const SEND: u8 = 0;
pub const WRITE: u8 = 6;
pub const READ: u8 = 12;
pub const READ_FIRST: u8 = 13;
pub const READ_MIDDLE: u8 = 14;
pub const READ_LAST: u8 = 15;
pub const READ_ONLY: u8 = 16;
pub const ACKNOWLEDGE: u8 = 17;
pub const ATOMIC_ACKNOWLEDGE: u8 = 18;
pub const CMP_SWAP: u8 = 19;
pub const FETCH_ADD: u8 = 20;

/// The last opcode that UC knows.
const LAST_UC: u8 = 11;

/// What a packet is for.
#[derive(Clone, Copy, Debug, PartialEq, Eq)]
pub enum Function {
    Send,
    Write,
    Read,
    Atomic,
    Response,
    Reserved,
}

/// A packet's part of its message.
#[derive(Clone, Copy, Debug, PartialEq, Eq)]
pub enum Part {
    First,
    Middle,
    Last,
    Only,
}

/// The shape of what follows the BTH.
#[derive(Clone, Copy, Debug, PartialEq, Eq)]
pub enum Form {
    None,
    Reth,
    RethImmediate,
    Immediate,
    Atomic,
    Aeth,
    AethValue,
}

impl Form {
    #[inline]
    pub const fn bytes(self) -> usize {
        match self {
            Form::None => 0,
            Form::Immediate | Form::Aeth => 4,
            Form::AethValue => 12,
            Form::Reth => 16,
            Form::RethImmediate => 20,
            Form::Atomic => 28,
        }
    }
}

/// All that the responder asks of an opcode.
#[derive(Clone, Copy, Debug, PartialEq, Eq)]
pub struct Class {
    pub function: Function,
    pub part: Part,
    pub form: Form,
    /// Bytes of the extension headers, those of the form.
    pub bytes: u8,
}

const fn row(function: Function, part: Part, form: Form) -> Class {
    Class {
        function,
        part,
        form,
        bytes: form.bytes() as u8,
    }
}

const RESERVED: Class = row(Function::Reserved, Part::Only, Form::None);

static CLASSES: [Class; 32] = {
    use Function::{Atomic, Read, Response, Send, Write};
    use Part::{First, Last, Middle, Only};
    let mut rows = [RESERVED; 32];
    rows[0] = row(Send, First, Form::None);
    rows[1] = row(Send, Middle, Form::None);
    rows[2] = row(Send, Last, Form::None);
    rows[3] = row(Send, Last, Form::Immediate);
    rows[4] = row(Send, Only, Form::None);
    rows[5] = row(Send, Only, Form::Immediate);
    rows[6] = row(Write, First, Form::Reth);
    rows[7] = row(Write, Middle, Form::None);
    rows[8] = row(Write, Last, Form::None);
    rows[9] = row(Write, Last, Form::Immediate);
    rows[10] = row(Write, Only, Form::Reth);
    rows[11] = row(Write, Only, Form::RethImmediate);
    rows[12] = row(Read, Only, Form::Reth);
    rows[13] = row(Response, First, Form::Aeth);
    rows[14] = row(Response, Middle, Form::None);
    rows[15] = row(Response, Last, Form::Aeth);
    rows[16] = row(Response, Only, Form::Aeth);
    rows[17] = row(Response, Only, Form::Aeth);
    rows[18] = row(Response, Only, Form::AethValue);
    rows[19] = row(Atomic, Only, Form::Atomic);
    rows[20] = row(Atomic, Only, Form::Atomic);
    rows
};

impl Class {
    /// The row of an opcode; nothing for a service not RC or UC.
    #[inline]
    pub fn of(opcode: u8) -> Option<Class> {
        let low = opcode & 31;
        match opcode >> 5 {
            UC if low > LAST_UC => Some(RESERVED),
            RC | UC => Some(CLASSES[usize::from(low)]),
            _ => None,
        }
    }
}

#[cfg(test)]
mod tests {
    use super::*;

    /// The table against the paper's sentences, on every opcode.
    #[test]
    fn every_opcode() {
        for opcode in 0..=u8::MAX {
            let (service, low) = (opcode >> 5, opcode & 31);
            let Some(class) = Class::of(opcode) else {
                assert!(service != RC && service != UC);
                continue;
            };
            assert!(service == RC || service == UC);
            let known = low <= if service == RC { FETCH_ADD } else { LAST_UC };
            let function = match low {
                _ if !known => Function::Reserved,
                0..=5 => Function::Send,
                6..=11 => Function::Write,
                12 => Function::Read,
                13..=18 => Function::Response,
                _ => Function::Atomic,
            };
            assert_eq!(class.function, function, "{opcode}");
            if matches!(function, Function::Send | Function::Write) {
                let part = [
                    Part::First,
                    Part::Middle,
                    Part::Last,
                    Part::Last,
                    Part::Only,
                    Part::Only,
                ];
                assert_eq!(class.part, part[usize::from(low % 6)], "{opcode}");
            } else if function != Function::Response {
                assert_eq!(class.part, Part::Only, "{opcode}");
            }
            let has = |lows: &[u8]| usize::from(known && lows.contains(&low));
            let bytes = 16 * has(&[6, 10, 11, 12])
                + 28 * has(&[19, 20])
                + 4 * has(&[3, 5, 9, 11])
                + 4 * has(&[13, 15, 16, 17, 18])
                + 8 * has(&[18]);
            assert_eq!(usize::from(class.bytes), bytes, "{opcode}");
            assert_eq!(class.form.bytes(), bytes, "{opcode}");
        }
    }
}
