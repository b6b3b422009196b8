//! Two implementations given the same calls, compared after each.

use crate::call::{answer_line, Answer, Call, Detail};
use crate::side::{fresh_memory, Side};
use crate::subject::*;

pub struct Duel<A, B> {
    left: Side<A>,
    right: Side<B>,
    outs: [Vec<u8>; 2],
    /// What outputs hold before a call.
    pattern: Vec<u8>,
    /// View and memory after the last call, the same on both sides.
    view: Option<View>,
    memory: Vec<u8>,
}

/// What differs, and both answers as a script would have them.
#[derive(Debug)]
pub struct Difference {
    pub what: String,
    pub answers: [String; 2],
}

impl<A: Subject, B: Subject> Default for Duel<A, B> {
    fn default() -> Duel<A, B> {
        Duel {
            left: Side::default(),
            right: Side::default(),
            outs: [Vec::new(), Vec::new()],
            pattern: Vec::new(),
            view: None,
            memory: Vec::new(),
        }
    }
}

impl<A: Subject, B: Subject> Duel<A, B> {
    pub fn view(&self) -> Option<&View> {
        self.view.as_ref()
    }

    pub fn memory(&self) -> &[u8] {
        &self.memory
    }

    /// The output of the last call.
    pub fn output(&self) -> &[u8] {
        &self.outs[0]
    }

    pub fn call(&mut self, call: &Call) -> Result<Answer, Difference> {
        self.prepare(call.output());
        let left = self.left.run(call, &mut self.outs[0]);
        let right = self.right.run(call, &mut self.outs[1]);
        match self.difference(call, left, right) {
            None => Ok(left),
            Some(what) => {
                let answers = [
                    line(call, &left, &self.outs[0], &self.left),
                    line(call, &right, &self.outs[1], &self.right),
                ];
                Err(Difference { what, answers })
            }
        }
    }

    fn prepare(&mut self, length: usize) {
        while self.pattern.len() < length {
            self.pattern.push((37 * self.pattern.len() + 11) as u8);
        }
        for out in &mut self.outs {
            out.clear();
            out.extend_from_slice(&self.pattern[..length]);
        }
    }

    /// Says what differs, if anything, and takes the new view and memory over.
    fn difference(&mut self, call: &Call, left: Answer, right: Answer) -> Option<String> {
        if left != right {
            return Some(format!("answers: {left:?}, {right:?}"));
        }
        if let Detail::Panicked | Detail::Spoiled = left.detail {
            return Some(format!("both answer {left:?}"));
        }
        if self.outs[0] != self.outs[1] {
            let at = self.outs[0]
                .iter()
                .zip(&self.outs[1])
                .position(|(a, b)| a != b);
            return Some(format!("outputs, first at byte {at:?}"));
        }
        if self.outs[0].get(left.outgoing..) != self.pattern.get(left.outgoing..self.outs[0].len())
        {
            return Some("output past the packet written is changed".to_string());
        }
        if let (Call::ReadHeader(packet), Detail::Header(_)) = (call, left.detail) {
            if left.number != 0 || !packet.starts_with(&self.outs[0][..left.outgoing]) {
                return Some("a header written back is another".to_string());
            }
        }
        if call.on_pair() {
            self.difference_of_state(call, left.number)
        } else {
            None
        }
    }

    fn difference_of_state(&mut self, call: &Call, number: u8) -> Option<String> {
        let view = self.left.view();
        let other = self.right.view();
        if view != other {
            return Some(format!("states:\n  {view:?}\n  {other:?}"));
        }
        if let Call::SetUp(setup) = call {
            self.memory = fresh_memory(if number == 0 { setup.memory } else { 0 });
        }
        if let Some(what) = self.difference_of_memory(call, number) {
            return Some(what);
        }
        let refused = number >= 32 && !matches!(call, Call::SetUp(_));
        if (number == 5 || refused) && view != self.view {
            return Some(format!(
                "a drop or refusal changes:\n  {:?}\n  {view:?}",
                self.view
            ));
        }
        self.view = view;
        None
    }

    /// Only packets that are executed may change memory.
    fn difference_of_memory(&mut self, call: &Call, number: u8) -> Option<String> {
        let (left, right) = (self.left.memory(), self.right.memory());
        if let (Call::Inbound { .. }, 0 | 1 | 3) = (call, number) {
            if left != right {
                let at = left.iter().zip(right).position(|(a, b)| a != b);
                return Some(format!("memory, first at byte {at:?}"));
            }
            self.memory.copy_from_slice(left);
        } else if left != self.memory || right != self.memory {
            return Some("memory is changed by a call that executes no packet".to_string());
        }
        None
    }
}

fn line<S: Subject>(call: &Call, answer: &Answer, out: &[u8], side: &Side<S>) -> String {
    answer_line(call, answer, out, side.view().as_ref(), side.memory())
}
