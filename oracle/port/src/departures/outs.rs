//! Refusal 13: what is lent for datagrams, bytes and lengths, of every size from none to enough.

use super::ground::*;
use crate::exports;
use crate::memory::{Memory, Shape};
use crate::out::Out;
use driver::call::{Call, ASK, TELL};
use driver::side::{Datagrams, Outcome, Side};
use driver::Judge;

/// Makes the call on the port.
fn made(m: &mut Memory, call: &Call, out: &mut Out) -> u32 {
    match call {
        Call::FlushAck => exports::flush_ack(m, out),
        Call::Update(current) => exports::update(m, *current, out),
        _ => exports::flush(m, out),
    }
}

/// With this much lent the call is refused by a number, and leaves every byte and the count of datagrams.
fn refused(what: &str, m: &Memory, call: &Call, lent: (usize, usize), number: u32) -> Result<(), String> {
    let (mut now, before) = (m.clone(), Out::new(lent.0, lent.1));
    let mut out = before.clone();
    let what = format!("{}: {} with {} bytes and {} lengths", what, call, lent.0, lent.1);
    same(&format!("{}: the answer", what), made(&mut now, call, &mut out), number)?;
    same(&format!("{}: that all is as it was", what), (now == *m, out == before), (true, true))
}

/// With this much lent it puts out what the Rust does, and the blocks are then the same.
fn passes(what: &str, m: &Memory, call: &Call, lent: (usize, usize), wanted: &Datagrams, judge: &Judge) -> Result<(), String> {
    let (mut now, mut out, mut sent) = (m.clone(), Out::new(lent.0, lent.1), Datagrams::default());
    let what = format!("{}: {} with {} bytes and {} lengths", what, call, lent.0, lent.1);
    let number = made(&mut now, call, &mut out);
    same(&format!("{}: the answer", what), number, 0)?;
    same(&format!("{}: what was written astray", what), out.collect(number, &mut sent), None)?;
    same(&format!("{}: the datagrams", what), &sent, wanted)?;
    agrees(&what, &now, judge)
}

/// A block that these calls lead to, laid with gaps between those in flight.
fn laid(calls: &[Call]) -> (Judge, Memory) {
    let (judge, _) = reached(SMALL, false, calls);
    let s = state(&judge);
    let shape = Shape { snd_start: 120, gaps: (0..s.snd_buf.len()).collect(), ..Shape::plain(&s) };
    let m = shaped(&judge, SMALL, &shape);
    (judge, m)
}

/// The call with every size: with too few bytes or lengths it is refused by 13, and else it passes.
fn every_size(what: &str, (mut judge, m): (Judge, Memory), call: &Call, least: usize) -> Result<(), String> {
    let mut out = Outcome::new();
    judge.apply(call, &mut out);
    let wanted = out.datagrams;
    let (bytes, lengths) = (wanted.bytes.len(), wanted.lengths.len());
    same(&format!("{}: that there are {} datagrams or more", what, least), lengths >= least, true)?;
    for n in 0..bytes {
        refused(what, &m, call, (n, lengths), 13)?;
        refused(what, &m, call, (n, lengths + 3), 13)?;
    }
    for n in 0..lengths {
        refused(what, &m, call, (bytes, n), 13)?;
        refused(what, &m, call, (bytes + 100, n), 13)?;
    }
    for lent in [(bytes, lengths), (bytes + 1, lengths), (bytes, lengths + 1), (bytes + 1500, lengths + 40)].iter() {
        passes(what, &m, call, *lent, &wanted, &judge)?;
    }
    Ok(())
}

/// Two segments in flight, three that wait, acks and a tell to send, and bytes that wait already.
fn due() -> Vec<Call> {
    let mut calls = vec![Call::SetNodelay(true, 10, 0, true), Call::SetMtu(100), Call::Update(10)];
    calls.extend(messages(3, 26));
    calls.push(Call::Flush);
    calls.push(Call::Input(vec![with(piece(driver::call::ACK, 1, 0), |h| h.ts = 10)]));
    calls.extend(pushes(0..2));
    calls.push(Call::FlushAck);
    calls.extend(messages(3, 40));
    calls.extend(pushes(2..7));
    calls.push(Call::Input(vec![piece(ASK, 0, 0)]));
    calls.push(Call::SetMtu(60));
    calls
}

/// The same with the peer's window closed, and an ask due beside the tell.
fn closed() -> Vec<Call> {
    let mut calls = due();
    calls.push(Call::Input(vec![with(piece(TELL, 0, 0), |h| h.wnd = 0)]));
    calls.push(Call::Update(20));
    calls.push(Call::Input(vec![with(piece(ASK, 0, 0), |h| h.wnd = 0)]));
    calls.extend(pushes(7..10));
    calls
}

const BLOCKS: [(&str, fn() -> Vec<Call>); 2] = [("acks, a tell and segments", due), ("the window closed", closed)];

pub fn flush() -> Result<(), String> {
    BLOCKS.iter().try_for_each(|(what, calls)| every_size(what, laid(&calls()), &Call::Flush, 2))
}

pub fn flush_ack() -> Result<(), String> {
    BLOCKS.iter().try_for_each(|(what, calls)| every_size(what, laid(&calls()), &Call::FlushAck, 1))
}

/// At times at which segments, and then the probe, are due; and on a block that has had no update, of which `updated` stays too.
pub fn update() -> Result<(), String> {
    for (what, calls) in BLOCKS.iter() {
        for clock in [300, 500, 7_100, 20_000].iter() {
            every_size(what, laid(&calls()), &Call::Update(*clock), 2)?;
        }
    }
    let mut calls = vec![Call::SetNodelay(true, 10, 0, true), Call::SetMtu(60)];
    calls.extend(messages(3, 26));
    calls.extend(pushes(0..3));
    every_size("the first update", laid(&calls), &Call::Update(u32::MAX), 3)
}

/// 15 and 9 come before 13; and what puts nothing out needs no room.
pub fn order() -> Result<(), String> {
    let (_, fresh) = laid(&pushes(0..3));
    for call in [Call::Flush, Call::FlushAck].iter() {
        refused("no update yet", &fresh, call, (0, 0), 9)?;
        refused("no update yet", &fresh, call, (5000, 50), 9)?;
    }
    let (_, mut bad) = laid(&due());
    bad.set_number("acks", 129);
    for call in [Call::Flush, Call::FlushAck, Call::Update(300)].iter() {
        refused("more acks than the list holds", &bad, call, (0, 0), 15)?;
        refused("more acks than the list holds", &bad, call, (5000, 50), 15)?;
    }
    let (mut judge, m) = laid(&due());
    let early = Call::Update(11);
    judge.apply(&early, &mut Outcome::new());
    passes("an update that is not due", &m, &early, (0, 0), &Datagrams::default(), &judge)
}
