//! What a side is: something that takes calls and whose whole state can be read and laid.

use crate::call::{Call, Sizes};
use state::{State, Touched};

/// What a call answers. A refusal has document 01's number and values.
#[derive(Clone, PartialEq, Eq, Debug)]
pub enum Answer {
    Nothing,
    Number(u64),
    Signed(i64),
    Flag(bool),
    Numbers(Vec<u64>),
    Refused { number: u8, values: Vec<u64> },
    /// The code broke off: no answer of either side on document 01's domain.
    Panicked,
}

/// Datagrams end to end, and the length of each.
#[derive(Clone, PartialEq, Eq, Debug, Default)]
pub struct Datagrams {
    pub bytes: Vec<u8>,
    pub lengths: Vec<usize>,
}

impl Datagrams {
    pub fn push(&mut self, datagram: &[u8]) {
        self.bytes.extend_from_slice(datagram);
        self.lengths.push(datagram.len());
    }

    pub fn clear(&mut self) {
        self.bytes.clear();
        self.lengths.clear();
    }

    pub fn is_empty(&self) -> bool {
        self.lengths.is_empty()
    }

    pub fn iter(&self) -> impl Iterator<Item = &[u8]> + '_ {
        let mut at = 0;
        self.lengths.iter().map(move |len| {
            at += len;
            &self.bytes[at - len..at]
        })
    }
}

/// All that a call shows: its answer, the pushes it skipped, what it sent, the caller's buffer afterwards, and what it wrote into
/// lent memory that should have stayed. `moved` says that segments have gone to other places there, with their payloads.
#[derive(Clone, PartialEq, Eq, Debug)]
pub struct Outcome {
    pub answer: Answer,
    pub skipped: u32,
    pub datagrams: Datagrams,
    pub buffer: Vec<u8>,
    pub stray: Option<String>,
    pub moved: bool,
}

impl Outcome {
    pub fn new() -> Outcome {
        Outcome {
            answer: Answer::Nothing,
            skipped: 0,
            datagrams: Datagrams::default(),
            buffer: Vec::new(),
            stray: None,
            moved: false,
        }
    }

    /// Makes it new again, keeping the memory.
    pub fn clear(&mut self) {
        self.answer = Answer::Nothing;
        self.skipped = 0;
        self.datagrams.clear();
        self.buffer.clear();
        self.stray = None;
        self.moved = false;
    }

    pub fn refused(&self) -> bool {
        match self.answer {
            Answer::Refused { .. } => true,
            _ => false,
        }
    }
}

impl Default for Outcome {
    fn default() -> Outcome {
        Outcome::new()
    }
}

pub trait Side {
    fn name(&self) -> &'static str;

    /// Whether this side has the call of that name yet.
    fn has(&self, name: &str) -> bool;

    /// Whether it keeps every number of a segment, also those that nothing reads again.
    fn keeps_all(&self) -> bool;

    /// Makes the call, which is handed these bytes.
    fn make(&mut self, call: &Call, bytes: &[u8], out: &mut Outcome);

    fn apply(&mut self, call: &Call, out: &mut Outcome) {
        let mut bytes = Vec::new();
        call.put_bytes(&mut bytes);
        self.make(call, &bytes, out)
    }

    /// The whole state.
    fn read(&self, into: &mut State);

    /// The same without the payloads, of which the lengths are told; and without the lists that the last call could not change, which
    /// are there already.
    fn read_numbers(&self, into: &mut State, touched: Touched);

    /// Whether this side's state is that one, but for the payloads and for what it does not keep; of the lists those that are touched
    /// are looked at.
    fn agrees(&mut self, s: &State, touched: Touched) -> bool;

    /// All payloads: queue and held, in flight and waiting.
    fn payloads(&self) -> Box<dyn Iterator<Item = &[u8]> + '_>;

    /// The payload of the received segment with this number, in the queue or held.
    fn stored(&self, sn: u32) -> Option<&[u8]>;

    /// The payload of a segment that waits to be sent, by its index in the queue.
    fn waiting(&self, i: usize) -> Option<&[u8]>;

    /// What is wrong with the memory that this side is lent, in words; with the rooms of the payloads only if that is asked.
    fn look_over(&mut self, _rooms: bool) -> Option<String> {
        None
    }

    fn lay(&mut self, state: &State, sizes: Sizes);
}
