//! What the programs read: records of a 2-byte big-endian length and a packet.

use std::io::{self, Write};

/// Splits the first record off: its packet and what follows it.
fn split(input: &[u8]) -> Option<(&[u8], &[u8])> {
    let (length, rest) = input.split_first_chunk::<2>()?;
    rest.split_at_checked(usize::from(u16::from_be_bytes(*length)))
}

/// Has `print` say of each whole record, numbered from 1, what the program
/// says of a packet. A record that breaks off, even half a length, is the last
/// and prints `cut`; the number of whole records ends every output.
pub(crate) fn for_each<W: Write>(
    mut input: &[u8],
    output: &mut W,
    mut print: impl FnMut(&mut W, u64, &[u8]) -> io::Result<()>,
) -> io::Result<()> {
    let mut whole = 0;
    while !input.is_empty() {
        let Some((packet, rest)) = split(input) else {
            writeln!(output, "cut")?;
            break;
        };
        input = rest;
        whole += 1;
        print(output, whole, packet)?;
    }
    writeln!(output, "end {whole}")
}
