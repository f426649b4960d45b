//! What a row is made of, and how one stretch of it runs.

use crate::clock::Timed;
use crate::side::{give_up, Call, Side, Sizes};
use crate::wire::{datagram_of, CONV, KIB, TELL};
use std::time::{Duration, Instant};

/// Of every block, in milliseconds.
pub const INTERVAL: u32 = 10;
/// A block with nothing to do.
pub const NONE: Sizes = Sizes { queued: 0, in_flight: 0, held: 0, readable: 0, acks: 0, datagrams: 0, bytes: 0 };
/// The calls that every row makes its blocks by; a side that lacks one runs no row.
const MAKING: &[Call] = &[Call::New, Call::SetNodelay, Call::SetWndsize];

/// The blocks of one side that a row calls, and what it calls them with.
pub struct Stand<S> {
    pub blocks: Vec<S>,
    pub window: u16,
    pub now: u32,
    pub message: Vec<u8>,
    pub into: Vec<u8>,
    /// The input of a row that times one. Its numbers are raised after each stretch, as a block's are.
    pub datagram: Vec<u8>,
    /// A tell whose una says that everything in flight has arrived.
    pub arrived: Vec<u8>,
    /// The number that the peer gives next, in a row that is prepared by many pushes.
    pub next: u32,
    /// What the last call answered.
    pub answer: usize,
}

/// What is called, and in which state. One run of the timed calls, with what is done before and after it, is a stretch.
pub struct Row<S> {
    pub name: &'static str,
    /// The calls that must be the side's own besides those of `MAKING`: those that it times, and those that it is prepared by. But a
    /// flush or an update that prepares it may be made by another.
    pub needs: &'static [Call],
    pub blocks: usize,
    pub window: u16,
    /// The send window and the peer's, where they are not the window.
    pub flight: u16,
    /// The slots to receive and as many to send, lent to a side whose memory is fixed; 0 is for twice the window to receive, and
    /// the window to send.
    pub slots: usize,
    /// How many calls one run makes, over all blocks; of a loopback, how many messages it carries.
    pub calls: usize,
    /// What each block holds before a run and after it, and what the last call answers.
    pub before: Sizes,
    pub after: Sizes,
    pub answer: usize,
    /// Done once.
    pub start: fn(&mut Stand<S>),
    /// Done before each run: brings the blocks to the state in which the calls are timed.
    pub prepare: fn(&mut Stand<S>),
    /// The timed calls.
    pub run: fn(&mut Stand<S>),
    /// Done after each run: clears away what it left, so that the next finds the same state.
    pub settle: fn(&mut Stand<S>),
}

/// A row that does nothing, for the others to fill in.
pub fn blank<S: Side>() -> Row<S> {
    Row {
        name: "",
        needs: &[],
        blocks: 1,
        window: 128,
        flight: 0,
        slots: 0,
        calls: 1,
        before: NONE,
        after: NONE,
        answer: 0,
        start: |_| {},
        prepare: |_| {},
        run: |_| {},
        settle: |_| {},
    }
}

/// A row with its blocks made.
struct Ready<S> {
    row: Row<S>,
    stand: Stand<S>,
}

impl<S: Side> Row<S> {
    /// The row, ready to be timed; none if the side lacks a call that it needs.
    pub fn ready(self) -> Option<Box<dyn Timed>> {
        if !S::has(MAKING) || !S::has(self.needs) {
            return None;
        }
        let mut stand = self.stand();
        (self.start)(&mut stand);
        stand.forget();
        Some(Box::new(Ready { row: self, stand }))
    }

    fn stand(&self) -> Stand<S> {
        Stand {
            blocks: (0..self.blocks).map(|_| self.block()).collect(),
            window: self.window,
            now: 0,
            message: (0..KIB).map(|i| i as u8).collect(),
            into: vec![0; 2 * KIB],
            datagram: Vec::new(),
            arrived: datagram_of(TELL, 0, self.flight(), &[]),
            next: 0,
            answer: 0,
        }
    }

    fn flight(&self) -> u16 {
        if self.flight == 0 {
            self.window
        } else {
            self.flight
        }
    }

    /// No congestion window, so that the windows alone say what may be in flight; and updated once.
    fn block(&self) -> S {
        let window = self.window as usize;
        let slots = if self.slots == 0 { [2 * window, window] } else { [self.slots; 2] };
        let mut block = S::new(CONV, self.window, slots);
        block.set_nodelay(true, INTERVAL as i32, 2, true);
        block.set_wndsize(self.flight(), self.window);
        block.update(0);
        block
    }
}

impl<S: Side> Stand<S> {
    fn forget(&mut self) {
        self.blocks.iter_mut().for_each(S::forget);
    }

    fn expect(&mut self, row: &str, when: &str, want: Sizes) {
        for block in &mut self.blocks {
            let is = block.sizes();
            if is != want {
                give_up(&format!("row {}: {} the calls a block is at {:?}, and should be at {:?}", row, when, is, want));
            }
        }
    }
}

impl<S: Side> Timed for Ready<S> {
    fn check(&mut self) {
        let (row, stand) = (&self.row, &mut self.stand);
        (row.prepare)(stand);
        stand.expect(row.name, "before", row.before);
        (row.run)(stand);
        stand.expect(row.name, "after", row.after);
        if stand.answer != row.answer {
            give_up(&format!("row {}: the last call answered {}, and should answer {}", row.name, stand.answer, row.answer));
        }
        (row.settle)(stand);
        stand.forget();
    }

    fn stretch(&mut self) -> Duration {
        (self.row.prepare)(&mut self.stand);
        let from = Instant::now();
        (self.row.run)(&mut self.stand);
        let took = from.elapsed();
        (self.row.settle)(&mut self.stand);
        self.stand.forget();
        took
    }

    fn calls(&self) -> usize {
        self.row.calls
    }
}
