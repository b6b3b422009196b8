//! One implementation with its pair and its memory, driven by calls.

use std::panic::{catch_unwind, AssertUnwindSafe};

use crate::call::{Answer, Call, Detail};
use crate::subject::*;

pub struct Side<S> {
    pair: Option<S>,
    memory: Vec<u8>,
}

/// Memory as a script has it after a set-up.
pub fn fresh_memory(length: usize) -> Vec<u8> {
    (0..length).map(|i| (31 * i + 7) as u8).collect()
}

impl<S: Subject> Default for Side<S> {
    fn default() -> Side<S> {
        Side {
            pair: None,
            memory: Vec::new(),
        }
    }
}

impl<S: Subject> Side<S> {
    pub fn memory(&self) -> &[u8] {
        &self.memory
    }

    /// Nothing where there is no pair, or where looking at it panics.
    pub fn view(&self) -> Option<View> {
        let pair = self.pair.as_ref()?;
        catch_unwind(AssertUnwindSafe(|| pair.view())).ok()
    }

    /// A panic is an answer too, so that it is compared and shrunk like one.
    pub fn run(&mut self, call: &Call, out: &mut [u8]) -> Answer {
        catch_unwind(AssertUnwindSafe(|| self.answer(call, out))).unwrap_or(Answer::new(
            u8::MAX,
            0,
            Detail::Panicked,
        ))
    }

    fn answer(&mut self, call: &Call, out: &mut [u8]) -> Answer {
        match call {
            Call::SetUp(setup) => self.set_up(*setup),
            Call::ReadHeader(packet) => read_and_write_back::<S>(packet, out),
            Call::WriteHeader { header, .. } => match S::write_header(header, out) {
                Ok(outgoing) => Answer::new(0, outgoing, Detail::Nothing),
                Err(number) => Answer::new(number, 0, Detail::Nothing),
            },
            Call::Cut(cut) => {
                match S::cut(
                    cut.connection,
                    cut.request,
                    &cut.message,
                    cut.first,
                    cut.index,
                    out,
                ) {
                    Ok((outgoing, next)) => Answer::new(0, outgoing, Detail::NextPsn(next)),
                    Err(number) => Answer::new(number, 0, Detail::Nothing),
                }
            }
            _ => match &mut self.pair {
                Some(pair) => on_pair(pair, &mut self.memory, call, out),
                None => Answer::new(u8::MAX, 0, Detail::NoPair),
            },
        }
    }

    fn set_up(&mut self, setup: Setup) -> Answer {
        let made = S::set_up(setup);
        let number = made.as_ref().err().copied().unwrap_or(0);
        self.memory = fresh_memory(if made.is_ok() { setup.memory } else { 0 });
        self.pair = made.ok();
        Answer::new(number, 0, Detail::Nothing)
    }
}

fn on_pair<S: Subject>(pair: &mut S, memory: &mut [u8], call: &Call, out: &mut [u8]) -> Answer {
    let number = match call {
        Call::AddRegion(region) => pair.add_region(*region),
        Call::RemoveRegion(key) => pair.remove_region(*key),
        Call::Post(entry) => pair.post_entry(*entry),
        Call::MakeReady => pair.make_ready(),
        Call::Reset => pair.reset(),
        Call::Inbound {
            memory: length,
            packet,
            ..
        } => {
            return lend(memory, *length, |memory| {
                let got = pair.inbound(memory, packet, out);
                let detail = got.completion.map_or(Detail::Nothing, Detail::Completion);
                Answer::new(got.number, got.sent, detail)
            });
        }
        Call::Next { memory: length, .. } => {
            return lend(memory, *length, |memory| {
                let (number, outgoing) = pair.next_response(memory, out);
                Answer::new(number, outgoing, Detail::Nothing)
            });
        }
        _ => unreachable!("the other calls are on no pair"),
    };
    Answer::new(number, 0, Detail::Nothing)
}

/// Lends the pair's memory, or zeros where another length is asked for.
fn lend(memory: &mut [u8], length: usize, call: impl FnOnce(&mut [u8]) -> Answer) -> Answer {
    if length == memory.len() {
        return call(memory);
    }
    let mut other = vec![0; length];
    let answer = call(&mut other);
    if other.iter().all(|byte| *byte == 0) {
        answer
    } else {
        Answer {
            detail: Detail::Spoiled,
            ..answer
        }
    }
}

/// The number is 5 with the check that failed, or that of writing back.
fn read_and_write_back<S: Subject>(packet: &[u8], out: &mut [u8]) -> Answer {
    match S::read_header(packet) {
        Err(check) => Answer::new(5, 0, Detail::Check(check)),
        Ok(header) => match S::write_header(&header, out) {
            Ok(outgoing) => Answer::new(0, outgoing, Detail::Header(header)),
            Err(number) => Answer::new(number, 0, Detail::Header(header)),
        },
    }
}
