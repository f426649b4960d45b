//! What the rows run on: blocks that the Rust has brought to a state, in lent memory, alone or beside the Rust's own.

use crate::exports;
use crate::memory::{Memory, Shape};
use crate::watch::watched;
use driver::call::{datagram, Call, Fill, Header, Piece, Sizes, ACK, PUSH};
use driver::random::Random;
use driver::side::{Outcome, Side};
use driver::Judge;
use state::State;

pub fn same<T: PartialEq + std::fmt::Debug>(what: &str, got: T, wanted: T) -> Result<(), String> {
    if got == wanted {
        Ok(())
    } else {
        Err(format!("{} is {:?} and should be {:?}", what, got, wanted))
    }
}

pub const SMALL: Sizes = Sizes { receive: 256, send: 128, acks: 128 };
pub const LARGE: Sizes = Sizes { receive: 1024, send: 128, acks: 4096 };
pub const PAYLOAD: &[u8] = b"payload";

/// The memory of a block that the Rust has made and brought to a state by these calls.
pub fn after(sizes: Sizes, calls: &[Call]) -> Memory {
    reached(sizes, false, calls).1
}

/// That block, and its memory.
pub fn reached(sizes: Sizes, stream: bool, calls: &[Call]) -> (Judge, Memory) {
    let mut judge = Judge::default();
    let mut out = Outcome::new();
    judge.apply(&Call::Start { conv: 1, stream, rcv: 0, snd: 0, sizes }, &mut out);
    for call in calls {
        judge.apply(call, &mut out);
    }
    let m = over_wrap(&judge, sizes);
    (judge, m)
}

/// The memory of the state of a block, without gaps, and each ring over its wrap; one with nothing in use starts at place 0, as the
/// port would leave it.
pub fn over_wrap(judge: &Judge, sizes: Sizes) -> Memory {
    let s = state(judge);
    let start = |slots: usize, used: usize| if used > 0 { slots - used.min(5) } else { 0 };
    let rcv_start = start(sizes.receive, s.rcv_queue.len() + s.rcv_buf.len());
    let snd_start = start(sizes.send, s.snd_buf.len() + s.snd_queue.len());
    shaped(judge, sizes, &Shape { rcv_start, snd_start, ..Shape::plain(&s) })
}

pub fn state(judge: &Judge) -> State {
    let mut s = State::default();
    judge.read(&mut s);
    s
}

/// The memory of the state of a block in this shape.
pub fn shaped(judge: &Judge, sizes: Sizes, shape: &Shape) -> Memory {
    let mut m = Memory::new(sizes);
    m.lay_as(&state(judge), shape);
    m
}

/// The memory of that block, in so many shapes.
pub fn shapes(judge: &Judge, sizes: Sizes, count: u64) -> Vec<Memory> {
    let s = state(judge);
    (0..count).map(|seed| shaped(judge, sizes, &Shape::random(&mut Random::new(seed), &s, sizes))).collect()
}

/// A segment that leaves the send side alone, unless it is an ack.
pub fn piece(cmd: u8, sn: u32, len: usize) -> Piece {
    Piece::Segment(Header { conv: 1, cmd, frg: 0, wnd: 128, ts: 9, sn, una: 0, len: None }, Fill { len, seed: sn as u8 })
}

/// A push with this frg.
pub fn fragment(sn: u32, frg: u8) -> Call {
    Call::Input(vec![Piece::Segment(Header { conv: 1, cmd: PUSH, frg, wnd: 128, ts: 9, sn, una: 0, len: None }, Fill { len: 2, seed: 1 })])
}

pub fn pushes(numbers: impl Iterator<Item = u32>) -> Vec<Call> {
    numbers.map(|sn| Call::Input(vec![piece(PUSH, sn, 2)])).collect()
}

/// So many messages of this length, each with bytes of its own.
pub fn messages(count: usize, len: usize) -> impl Iterator<Item = Call> {
    (0..count).map(move |i| Call::Send(Fill { len, seed: i as u8 }))
}

/// One-byte messages, so many in flight and so many waiting, and no limit by congestion.
pub fn sends(flying: usize, waiting: usize) -> Vec<Call> {
    let mut calls = vec![Call::SetNodelay(true, 10, 0, true), Call::Update(10)];
    calls.extend(messages(flying, 1));
    calls.push(Call::Flush);
    calls.extend(messages(waiting, 1));
    calls
}

/// Numbers 0 to 4 in flight, 3 waiting; 0, 1, 2 queued, 4, 6 and 7 held, and their acks.
pub fn block(sizes: Sizes) -> Memory {
    after(sizes, &busy_calls())
}

pub fn busy_calls() -> Vec<Call> {
    let mut calls = sends(5, 3);
    calls.extend(pushes([0, 1, 2, 4, 6, 7].iter().copied()));
    calls
}

/// An input: its number, the values and the pushes skipped.
pub fn input(m: &mut Memory, pieces: &[Piece]) -> (u32, [usize; 2], u32) {
    let (mut values, mut skipped) = ([77; 2], 77);
    let number = exports::input(m, &datagram(pieces), &mut values, &mut skipped);
    (number, values, skipped)
}

/// A send: its number, and the bytes queued, 77 where they were left.
pub fn send(m: &mut Memory, len: usize) -> (u32, usize) {
    let mut queued = 77;
    let data: Vec<u8> = Fill { len, seed: 5 }.bytes().collect();
    (exports::send(m, &data, &mut queued), queued)
}

/// Makes a call on the memory, by name: its number, and whether the places of its answers are as beside 15.
pub fn call(name: &str, m: &mut Memory) -> (u32, bool) {
    let mut length = 77;
    let mut buffer = [5; 3000];
    let number = match name {
        "recv" => exports::recv(m, &mut buffer, &mut length),
        "peeksize" => exports::peeksize(m, &mut length),
        "move_buf" => exports::move_buf(m),
        "set_wndsize" => exports::set_wndsize(m, 64, 128),
        "send" => exports::send(m, PAYLOAD, &mut length),
        "receive_test" => exports::receive_test(m),
        "send_test" => exports::send_test(m),
        _ => {
            let (number, values, skipped) = input(m, &[piece(PUSH, 3, 7), piece(ACK, 1, 0)]);
            return (number, values == [0, 0] && skipped == 0);
        }
    };
    (number, length == 77 && buffer.iter().all(|b| *b == 5))
}

/// The call, made by `run`, changes nothing in the memory.
pub fn stays<T>(what: &str, m: &Memory, run: impl FnOnce(&mut Memory) -> T) -> Result<T, String> {
    let mut now = m.clone();
    let answer = run(&mut now);
    same(&format!("{}: that all is as it was", what), now == *m, true)?;
    Ok(answer)
}

/// What the memory holds is what the Rust's block is.
pub fn agrees(what: &str, m: &Memory, judge: &Judge) -> Result<(), String> {
    let (mut ours, mut theirs) = (State::default(), State::default());
    m.read(&mut ours);
    judge.read(&mut theirs);
    theirs.forget_unread();
    match theirs.differences(&ours).first() {
        Some((name, x, y)) => Err(format!("{}: {} is {} and should be {}", what, name, y, x)),
        None => Ok(()),
    }
}

/// A block on both sides.
pub struct Both {
    pub judge: Judge,
    pub m: Memory,
}

impl Both {
    pub fn new((judge, m): (Judge, Memory)) -> Both {
        Both { judge, m }
    }

    /// Makes the call on both, and the answers, the buffers and then the blocks are the same. What the port has no call for is made
    /// by the Rust alone, and the segments stay in their slots.
    pub fn step(&mut self, call: &Call) -> Result<(), String> {
        let (mut ours, mut theirs) = (Outcome::new(), Outcome::new());
        self.judge.apply(call, &mut theirs);
        if exports::has(call.name()) {
            watched(&mut self.m, call, &mut ours);
            same(&format!("what {} shows", call), (ours.answer, ours.buffer, ours.stray), (theirs.answer, theirs.buffer, None))?;
        } else {
            self.m.lay(&state(&self.judge), true);
        }
        agrees(&format!("after {}", call), &self.m, &self.judge)
    }

    pub fn steps(&mut self, calls: &[Call]) -> Result<(), String> {
        calls.iter().try_for_each(|call| self.step(call))
    }

    /// A send that gets 12, all as it was.
    pub fn full(&self, len: usize) -> Result<(), String> {
        same(&format!("the answer of {}", len), stays("12", &self.m, |m| send(m, len))?, (12, 77))
    }

    /// Start, reach, segments in flight, segments that wait.
    pub fn ring(&self) -> (usize, usize, usize, usize) {
        let ring = self.m.snd_ring();
        (ring.places.start, ring.reach, ring.flying, ring.unsent)
    }
}

pub fn with(p: Piece, change: impl Fn(&mut Header)) -> Piece {
    match p {
        Piece::Segment(mut h, fill) => {
            change(&mut h);
            Piece::Segment(h, fill)
        }
        raw => raw,
    }
}
