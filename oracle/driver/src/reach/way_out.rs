//! The cases of flush_ack, flush, update and check.

use super::timediff;
use crate::call::{Call, ASK, TELL};
use crate::side::{Answer, Outcome};
use state::{Segment, State};

pub const CASES: [&str; 47] = [
    "flush_ack: refused by 9",
    "flush_ack: bytes left waiting, and none out",
    "flush_ack: datagrams out, and bytes left waiting",
    "flush_ack: no ack, and what waits stays",
    "flush: refused by 9",
    "flush: nothing goes out",
    "flush: bytes that wait go out",
    "flush: acks in more than one datagram",
    "flush: an ask and a tell",
    "flush: a probe behind an ack",
    "flush: a probe with no ack before it",
    "flush: a probe's wait begins",
    "flush: a probe's wait is not over",
    "flush: a probe's wait grows by half",
    "flush: a probe's wait is cut to 120,000",
    "flush: a probe's wait ends",
    "flush: segments leave, and the window keeps others",
    "flush: all that waits leaves",
    "flush: the window keeps all that waits",
    "flush: numbers given around the wrap",
    "flush: several segments in one datagram",
    "flush: a datagram longer than mtu",
    "flush: resent by time, nodelay",
    "flush: resent by time, its own rto the larger",
    "flush: resent by time, rx_rto the larger",
    "flush: resent by time, and its own rto past 60,000",
    "flush: resent fast",
    "flush: kept back by fastlimit",
    "flush: resent by time and fast in one flush",
    "flush: resent with a conv that is not the block's",
    "flush: the link is dead",
    "flush: cwnd from 0 to 1",
    "flush: ssthresh by change, over the least",
    "flush: ssthresh by change, the least",
    "flush: ssthresh by loss, over the least",
    "update: the first",
    "update: not due",
    "update: due, less than an interval late",
    "update: late by an interval or more",
    "update: late by 10,000 or more",
    "update: 10,000 before ts_flush",
    "update: more than 10,000 before ts_flush",
    "check: before any update",
    "check: a flush is due",
    "check: a segment is due",
    "check: until the flush or a resend",
    "check: an interval",
];

type Note<'a> = &'a mut dyn FnMut(&str, bool);

pub fn saw(before: &State, call: &Call, out: &Outcome, after: &State, note: Note) {
    match call {
        Call::FlushAck => flush_ack(before, out, after, note),
        Call::Flush if !before.updated => note("flush: refused by 9", out.answer == refused_by_9()),
        Call::Flush => flush(before, before.current, out, after, note),
        Call::Update(current) => update(before, *current, out, after, note),
        Call::Check(current) => check(before, *current, out, note),
        _ => {}
    }
}

fn refused_by_9() -> Answer {
    Answer::Refused { number: 9, values: Vec::new() }
}

fn flush_ack(before: &State, out: &Outcome, after: &State, note: Note) {
    note("flush_ack: refused by 9", out.answer == refused_by_9());
    if before.updated {
        let (acks, waits, none) = (!before.acklist.is_empty(), !after.buf.is_empty(), out.datagrams.is_empty());
        note("flush_ack: bytes left waiting, and none out", acks && waits && none);
        note("flush_ack: datagrams out, and bytes left waiting", acks && waits && !none);
        note("flush_ack: no ack, and what waits stays", !acks && waits && none);
    }
}

/// How a segment in flight went out, if it did.
#[derive(PartialEq)]
enum Gone {
    Not,
    ByTime,
    Fast,
}

fn gone(was: &Segment, is: &Segment, current: u32) -> Gone {
    match is.xmit != was.xmit {
        false => Gone::Not,
        true if timediff(current, was.resendts) >= 0 => Gone::ByTime,
        true => Gone::Fast,
    }
}

/// A flush that ran, with the clock at `current`.
fn flush(before: &State, current: u32, out: &Outcome, after: &State, note: Note) {
    note("flush: nothing goes out", out.datagrams.is_empty());
    note("flush: bytes that wait go out", !before.buf.is_empty());
    note("flush: acks in more than one datagram", (before.acklist.len() * 24) > before.mtu);
    note("flush: a datagram longer than mtu", out.datagrams.lengths.iter().any(|len| *len > before.mtu));
    note("flush: cwnd from 0 to 1", before.cwnd == 0 && after.cwnd == 1);
    note("flush: the link is dead", before.state != after.state);
    probes(before, current, out, after, note);
    leavers(before, after, note);
    resent(before, current, out, after, note);
}

fn probes(before: &State, current: u32, out: &Outcome, after: &State, note: Note) {
    // behind the acks stand the probes, in the bytes that wait first and then in those made now
    let acked = before.buf.len() + 24 * before.acklist.len();
    let cmd = |at: usize| out.datagrams.bytes.get(at + 4).copied();
    let (first, second) = (cmd(acked), cmd(acked + 24));
    let probe = first == Some(ASK) || first == Some(TELL);
    note("flush: an ask and a tell", first == Some(ASK) && second == Some(TELL));
    note("flush: a probe behind an ack", probe && !before.acklist.is_empty());
    note("flush: a probe with no ack before it", probe && before.acklist.is_empty());
    let closed = before.rmt_wnd == 0;
    let (was, is) = (before.probe_wait, after.probe_wait);
    let over = timediff(current, before.ts_probe) >= 0;
    note("flush: a probe's wait begins", closed && was == 0);
    note("flush: a probe's wait is not over", closed && was != 0 && !over);
    note("flush: a probe's wait grows by half", closed && was != 0 && over && is < 120_000);
    note("flush: a probe's wait is cut to 120,000", closed && was != 0 && over && is == 120_000);
    note("flush: a probe's wait ends", !closed && was != 0);
}

fn leavers(before: &State, after: &State, note: Note) {
    let (waited, waits) = (before.snd_queue.len(), after.snd_queue.len());
    note("flush: segments leave, and the window keeps others", 0 < waits && waits < waited);
    note("flush: all that waits leaves", waits == 0 && 0 < waited);
    note("flush: the window keeps all that waits", 0 < waited && waits == waited);
    note("flush: numbers given around the wrap", after.snd_nxt < before.snd_nxt);
}

fn resent(before: &State, current: u32, out: &Outcome, after: &State, note: Note) {
    let pairs = || before.snd_buf.iter().zip(&after.snd_buf);
    let by = |how: Gone| pairs().filter(move |(was, is)| was.xmit > 0 && gone(was, is, current) == how);
    let (timed, fast) = (by(Gone::ByTime).count(), by(Gone::Fast).count());
    note("flush: resent by time, nodelay", before.nodelay && timed > 0);
    let own = |larger: bool| by(Gone::ByTime).any(|(was, _)| (was.rto > before.rx_rto) == larger);
    note("flush: resent by time, its own rto the larger", !before.nodelay && own(true));
    note("flush: resent by time, rx_rto the larger", !before.nodelay && own(false));
    note("flush: resent by time, and its own rto past 60,000", by(Gone::ByTime).any(|(_, is)| is.rto > 60_000));
    note("flush: resent fast", fast > 0);
    let enough = |was: &Segment| before.fastresend > 0 && was.fastack >= before.fastresend;
    note("flush: kept back by fastlimit", by(Gone::Not).any(|(was, _)| enough(was)));
    note("flush: resent by time and fast in one flush", timed > 0 && fast > 0);
    note("flush: resent with a conv that is not the block's", pairs().any(|(was, is)| was.xmit != is.xmit && was.conv != before.conv));
    let went = timed + fast + after.snd_buf.len() - before.snd_buf.len();
    note("flush: several segments in one datagram", went > out.datagrams.lengths.len());
    note("flush: ssthresh by change, over the least", fast > 0 && timed == 0 && after.ssthresh > 2);
    note("flush: ssthresh by change, the least", fast > 0 && timed == 0 && after.ssthresh == 2);
    note("flush: ssthresh by loss, over the least", timed > 0 && after.ssthresh > 2);
}

fn update(before: &State, current: u32, out: &Outcome, after: &State, note: Note) {
    let slap = timediff(current, before.ts_flush);
    let late = slap >= 10_000;
    let early = slap < -10_000;
    note("update: the first", !before.updated);
    if before.updated {
        note("update: not due", slap < 0 && !early);
        note("update: due, less than an interval late", slap >= 0 && (slap as u32) < before.interval);
        note("update: late by an interval or more", slap >= 0 && !late && slap as u32 >= before.interval);
        note("update: late by 10,000 or more", late);
        note("update: 10,000 before ts_flush", slap == -10_000);
        note("update: more than 10,000 before ts_flush", early);
    }
    if !before.updated || slap >= 0 || early {
        flush(before, current, out, after, note);
    }
}

fn check(before: &State, current: u32, out: &Outcome, note: Note) {
    let slap = timediff(current, before.ts_flush);
    let due = slap >= 0 || slap < -10_000;
    let waits = |x: &Segment| timediff(x.resendts, current);
    let segment = before.snd_buf.iter().any(|x| waits(x) <= 0);
    let wait = before.snd_buf.iter().map(waits).min().map_or(-slap, |wait| wait.min(-slap));
    note("check: before any update", !before.updated);
    if before.updated {
        note("check: a flush is due", due);
        note("check: a segment is due", !due && segment);
        note("check: until the flush or a resend", !due && !segment && out.answer == Answer::Number(wait as u64));
        note("check: an interval", !due && !segment && wait as u32 > before.interval);
    }
}
