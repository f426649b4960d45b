//! Gaps in flight, and rings that go round.

use super::ground::*;
use crate::memory::Shape;
use driver::call::{Call, Fill, Piece, ACK, PUSH, TELL};
use driver::side::Side;
use driver::Judge;

/// A block of P = 128 with mss 26 and so many segments in flight and waiting, of which the last has 1 byte; without gaps, and the
/// ring from this place on.
fn in_flight(stream: bool, flying: usize, waiting: usize, start: usize) -> Both {
    let mut calls = vec![Call::SetMtu(50), Call::SetNodelay(true, 10, 0, true), Call::SetWndsize(1024, 0), Call::Update(10)];
    calls.extend(messages(flying, 26));
    calls.push(Call::Flush);
    if waiting > 0 {
        calls.extend(messages(waiting - 1, 26));
        calls.push(message(1));
    }
    let (judge, _) = reached(SMALL, stream, &calls);
    let m = shaped(&judge, SMALL, &Shape { snd_start: start, ..Shape::plain(&state(&judge)) });
    Both::new((judge, m))
}

/// Acks of a peer with a wide window.
fn ack(numbers: impl Iterator<Item = u32>) -> Vec<Call> {
    let all: Vec<Piece> = numbers.map(|sn| with(piece(ACK, sn, 0), |h| h.wnd = 1024)).collect();
    all.chunks(62).map(|some| Call::Input(some.to_vec())).collect()
}

fn message(len: usize) -> Call {
    Call::Send(Fill { len, seed: 9 })
}

/// 0 stays, and of those behind it `left` at the back; the others are acked, and leave gaps.
fn stuck(stream: bool, flying: usize, waiting: usize, left: usize) -> Result<Both, String> {
    let mut both = in_flight(stream, flying, waiting, 77);
    both.steps(&ack(1..(flying - left) as u32))?;
    same("the ring", both.ring(), (77, flying, 1 + left, waiting))?;
    Ok(both)
}

pub fn one_by_one() -> Result<(), String> {
    for left in [0, 1, 5, 126].iter() {
        let mut both = stuck(false, 128, 0, *left)?;
        for k in 1..=127 - left {
            both.step(&message(1))?;
            same("reach and segments that wait", (both.ring().1, both.ring().3), (1 + left, k))?;
        }
        both.full(1)?;
        both.full(0)?;
        // and again, once what waited is in flight and every other one is acked
        both.step(&Call::Flush)?;
        same("segments in flight and waiting", (both.ring().2, both.ring().3), (128, 0))?;
        both.steps(&ack((128..255 - *left as u32).step_by(2)))?;
        let free = 128 - both.ring().2;
        same("how many are free", free, (128 - left) / 2)?;
        for call in messages(free, 3) {
            both.step(&call)?;
        }
        both.full(1)?;
    }
    Ok(())
}

pub fn at_once() -> Result<(), String> {
    for (flying, waiting, left) in [(128, 0, 1), (100, 28, 1), (100, 28, 60), (100, 20, 3), (127, 1, 0)].iter() {
        let free = 128 - 1 - left - waiting;
        let mut both = stuck(false, *flying, *waiting, *left)?;
        both.full(free * 26 + 1)?;
        both.step(&message(free * 26))?;
        both.full(0)?;
        // in a stream 25 bytes join the last that waits
        let joins = if *waiting > 0 { 25 } else { 0 };
        let mut both = stuck(true, *flying, *waiting, *left)?;
        both.full(joins + free * 26 + 1)?;
        both.step(&message(joins + free * 26))?;
        both.full(1)?;
    }
    Ok(())
}

pub fn anywhere() -> Result<(), String> {
    for (flying, waiting) in [(1, 0), (2, 3), (40, 0), (60, 40), (127, 0), (100, 28), (0, 100)].iter() {
        let free = 128 - flying - waiting;
        let both = in_flight(false, *flying, *waiting, 0);
        for m in shapes(&both.judge, SMALL, 12) {
            let mut judge = Judge::default();
            judge.lay(&state(&both.judge), SMALL);
            let mut both = Both::new((judge, m));
            if free < 127 {
                both.full(free * 26 + 1)?;
            }
            if free > 1 {
                both.step(&message((free - 2) * 26 + 3))?;
            }
            if free > 0 {
                both.step(&message(3))?;
            }
            both.full(0)?;
            // and the segments stand in their order
            both.step(&Call::Flush)?;
            both.steps(&ack(0..128))?;
            same("what is left", both.ring(), (0, 0, 0, 0))?;
        }
    }
    Ok(())
}

pub fn left() -> Result<(), String> {
    // 28 places behind, and gaps at 98 of 100
    let mut both = stuck(false, 100, 0, 1)?;
    both.full(127 * 26)?;
    for k in 1..=28 {
        both.step(&message(1))?;
        same("the ring", both.ring(), (77, 100, 2, k))?;
    }
    both.full(99 * 26)?;
    both.step(&message(1))?;
    same("the ring", both.ring(), ((77 + 98) % 128, 2, 2, 29))
}

fn one_push(sn: u32) -> Call {
    Call::Input(vec![piece(PUSH, sn, 1 + sn as usize % 5)])
}

pub fn receive_round() -> Result<(), String> {
    let (judge, _) = reached(SMALL, false, &pushes(0..1));
    let m = shaped(&judge, SMALL, &Shape::plain(&state(&judge)));
    let mut both = Both::new((judge, m));
    let (mut starts, mut sn) = (Vec::new(), 1);
    while sn < 700 {
        // two that are held, the one before them, and all but the last are read
        both.steps(&[one_push(sn + 2), one_push(sn + 1), Call::MoveBuf, one_push(sn), Call::Peeksize])?;
        both.steps(&[Call::Recv(10), Call::Recv(4), Call::Recv(10), Call::FlushAck, Call::Update(sn)])?;
        while both.m.number("queued") > 1 {
            both.step(&Call::Recv(10))?;
        }
        starts.push(both.m.number("rcv_start"));
        sn += 3;
    }
    same("how often the ring goes round", starts.windows(2).filter(|w| w[1] < w[0]).count(), 2)?;
    both.step(&Call::Recv(10))?;
    same("the start of an empty ring", both.m.number("rcv_start"), 0)
}

/// The block in these shapes, and on each this sequence of calls.
fn laid_over(calls: &[Call], count: u64, steps: &[Call]) -> Result<(), String> {
    let (judge, _) = reached(SMALL, false, calls);
    for m in shapes(&judge, SMALL, count) {
        let mut on = Judge::default();
        on.lay(&state(&judge), SMALL);
        Both::new((on, m)).steps(steps)?;
    }
    Ok(())
}

pub fn receive_wrap() -> Result<(), String> {
    let mut calls = pushes([0, 1, 2, 3, 5, 6, 9].iter().copied());
    calls.push(Call::Update(0));
    let mut steps = vec![Call::Recv(1), Call::Recv(10), Call::MoveBuf, one_push(60), one_push(7), one_push(4), Call::Peeksize];
    steps.extend((0..70).map(one_push));
    steps.extend(vec![Call::Recv(10); 71]);
    steps.push(Call::FlushAck);
    steps.extend((100..180).rev().map(one_push));
    steps.extend((70..100).map(one_push));
    laid_over(&calls, 40, &steps)
}

pub fn send_round() -> Result<(), String> {
    let mut both = in_flight(false, 1, 0, 0);
    let mut rounds = 0;
    for turn in 0..200 {
        let (first, before) = (3 * turn, both.ring().0);
        both.steps(&[message(30), message(1), Call::Flush])?;
        // the newer two of four, the older ones by una
        let una = with(piece(TELL, 0, 0), |h| h.una = first + 3);
        both.steps(&ack([first + 2, first + 1].iter().copied()))?;
        both.step(&Call::Input(vec![una]))?;
        same("in flight, and waiting", (both.ring().2, both.ring().3), (1, 0))?;
        rounds += (both.ring().0 < before) as u32;
    }
    same("how often the ring goes round", rounds, 4)
}

pub fn send_wrap() -> Result<(), String> {
    let mut calls = vec![Call::SetMtu(50), Call::SetWndsize(1024, 0)];
    calls.extend(sends(60, 20));
    let mut steps = vec![message(60), message(0)];
    steps.extend(ack([59, 3, 0, 1, 30].iter().copied()));
    steps.push(Call::Input(vec![with(piece(TELL, 0, 0), |h| h.una = 7), piece(ACK, 40, 0), piece(ACK, 38, 0)]));
    steps.extend(messages(30, 26));
    steps.push(Call::Flush);
    steps.extend(ack((8..90).step_by(3)));
    steps.extend(messages(10, 52));
    steps.push(Call::Flush);
    steps.extend(ack((7..200).rev()));
    laid_over(&calls, 40, &steps)
}
