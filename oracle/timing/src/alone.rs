//! Ours alone: the tests for 15, one of which every call that is handed memory makes, and calls that do little else.

use crate::clock::{opaque, Timed};
use crate::side::give_up;
use driver::call::Sizes;
use port::exports;
use port::memory::{Memory, Shape};
use state::{Segment, State};
use std::time::{Duration, Instant};

const SLOTS: usize = 1024;
const CALLS: usize = 64;
const PAYLOAD: usize = 1376;

type Run = fn(&mut Memory) -> u32;

/// The rows, without those that the port lacks the calls for.
pub fn all() -> Vec<(&'static str, Box<dyn Timed>)> {
    let mut rows: Vec<(&'static str, Box<dyn Timed>)> = Vec::new();
    let mut row = |has: bool, name: &'static str, used: usize, run: Run, answer: u32| {
        if has && exports::has("new") {
            rows.push((name, Box::new(Alone { memory: lent(used), used, run, answer })));
        }
    };
    let tests = exports::HAS_TESTS;
    row(tests, "ours-receive-test-idle", 0, |m| exports::receive_test(m), 0);
    row(tests, "ours-receive-test-512", 512, |m| exports::receive_test(m), 0);
    row(tests, "ours-send-test-idle", 0, |m| exports::send_test(m), 0);
    row(tests, "ours-send-test-512", 512, |m| exports::send_test(m), 0);
    row(exports::has("set_interval"), "ours-set-interval", 0, |m| exports::set_interval(m, opaque(10)), 0);
    row(exports::has("recv"), "ours-recv-empty", 0, recv, 5);
    rows
}

fn recv(m: &mut Memory) -> u32 {
    exports::recv(m, &mut [0; 4], &mut 0)
}

/// A block with so many slots of each side in use, half of them behind the wrap: queued, and in flight.
fn lent(used: usize) -> Memory {
    let mut m = Memory::new(Sizes { receive: SLOTS, send: SLOTS, acks: 128 });
    if exports::new(&mut m, 1, false) != 0 {
        give_up("the port refused a new block");
    }
    let mut s = State::default();
    m.read(&mut s);
    let segment = |sn| Segment { sn, ..Segment::holding(vec![7; PAYLOAD]) };
    s.largest = 512;
    s.rcv_wnd = 512;
    s.rcv_nxt = used as u32;
    s.snd_nxt = used as u32;
    s.rcv_queue = (0..used as u32).map(segment).collect();
    s.snd_buf = s.rcv_queue.clone();
    let start = (SLOTS - used / 2) % SLOTS;
    m.lay_as(&s, &Shape { rcv_start: start, snd_start: start, ..Shape::plain(&s) });
    m
}

/// A call that leaves the block as it is, or nearly so.
struct Alone {
    memory: Memory,
    used: usize,
    run: Run,
    answer: u32,
}

impl Timed for Alone {
    fn check(&mut self) {
        let mut bad = vec![self.memory.clone()];
        bad[0].words[0] = 64;
        if self.used > 0 {
            // the last that a test looks at
            let mut m = self.memory.clone();
            *m.received(self.used - 1) = 0;
            *m.mark(self.used - 1) = 0;
            bad.push(m);
        }
        if (self.run)(&mut self.memory) != self.answer || bad.iter_mut().any(|m| (self.run)(m) != 15) {
            give_up("a call of ours alone does not answer what it should");
        }
    }

    fn stretch(&mut self) -> Duration {
        let from = Instant::now();
        for _ in 0..CALLS {
            opaque((self.run)(&mut self.memory));
        }
        from.elapsed()
    }

    fn calls(&self) -> usize {
        CALLS
    }
}
