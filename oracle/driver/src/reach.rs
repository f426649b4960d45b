//! Which of the cases that matter to send, input and the way out a run of calls has met: seen in the judge's state before and after
//! each call.

mod way_out;

use crate::call::{datagram, Call, Sizes, ACK, ASK, PUSH, TELL};
use crate::side::{Answer, Outcome};
use state::{Segment, State};

/// The cases of input and send, in the order of the table; those of the way out follow.
const CASES: [&str; 58] = [
    "input: push, ack, ask and tell in one datagram",
    "input: refused by 1",
    "input: refused by 2, with effects before it",
    "input: refused by 3, with effects before it",
    "input: refused by 4, with effects before it",
    "input: len and cmd both bad",
    "input: refused, with snd_una moved",
    "input: refused, with an ack before it and segments in flight",
    "input: a conv adopted, and no refusal",
    "input: a conv adopted, then 2",
    "input: a conv adopted, then 3 by the same segment",
    "input: a conv adopted, then 4 by the same segment",
    "input: an equal conv while one is awaited",
    "input: 1,500 bytes",
    "input: a payload on an ack, an ask or a tell",
    "input: a tail, of the length least often met",
    "input: 3 or more acks removed, oldest first",
    "input: 3 or more acks removed, newest first",
    "input: 50 or more acks in one datagram",
    "input: an ack before snd_una",
    "input: an ack at snd_nxt or past it",
    "input: an ack of a number in the range that is gone",
    "input: an ack in flight that the search stops before, at the wrap",
    "input: an ack removed, with numbers of both sides of the wrap in flight",
    "input: an ack removed from behind the front",
    "input: una drops some of those in flight",
    "input: una past snd_nxt drops all in flight",
    "input: una 2^31 or more past the front, and none dropped",
    "input: fastack gained",
    "input: fastack not gained, by a ts that is later than latest_ts",
    "input: a first ack out of the range, a later one in it: no fastack",
    "input: a later ack with the same ts",
    "input: a round trip before the clock, not measured",
    "input: grown under ssthresh",
    "input: grown past ssthresh, incr alone",
    "input: grown past ssthresh, cwnd too",
    "input: grown, and the cast to 16 bits cuts",
    "input: grown, and cut to rmt_wnd",
    "input: snd_una moved, and cwnd at or over rmt_wnd",
    "input: the peer's window closed",
    "input: a push acked, and its place stored behind a hole",
    "input: a push acked that lets held segments move",
    "input: a push acked, repeated or old",
    "input: a push not acked",
    "input: a push held, with the queue full",
    "input: the ack list filled to the last pair",
    "send: empty, plain",
    "send: empty, stream",
    "send: a stream joins the last segment, no new one",
    "send: a stream joins the last segment, and new ones",
    "send: a stream with a last segment that is longer than mss",
    "send: a stream with segments in flight and none waiting",
    "send: 8, plain",
    "send: 8, stream, after a fill",
    "send: 127 segments",
    "send: the pool filled to the last slot",
    "send: segments fit only in the places of acked ones between those in flight",
    "send: a stream joins the last segment with the pool full",
];

fn cases() -> impl Iterator<Item = &'static str> {
    CASES.iter().chain(&way_out::CASES).copied()
}

pub struct Reach {
    counts: Vec<u64>,
    tails: [u64; 24],
}

/// A segment of a datagram as its header says it.
struct Met {
    conv: u32,
    cmd: u8,
    wnd: u16,
    ts: u32,
    sn: u32,
    una: u32,
    len: usize,
    left: usize,
}

fn timediff(a: u32, b: u32) -> i32 {
    a.wrapping_sub(b) as i32
}

fn read(bytes: &[u8]) -> Vec<Met> {
    let mut met = Vec::new();
    let mut at = 0;
    while at + 24 <= bytes.len() {
        let word = |i: usize| u32::from_le_bytes([bytes[at + i], bytes[at + i + 1], bytes[at + i + 2], bytes[at + i + 3]]);
        let len = word(20) as usize;
        met.push(Met {
            conv: word(0),
            cmd: bytes[at + 4],
            wnd: u16::from_le_bytes([bytes[at + 6], bytes[at + 7]]),
            ts: word(8),
            sn: word(12),
            una: word(16),
            len,
            left: bytes.len() - at - 24,
        });
        at = at.saturating_add(24).saturating_add(len);
    }
    met
}

impl Default for Reach {
    fn default() -> Reach {
        Reach { counts: vec![0; cases().count()], tails: [0; 24] }
    }
}

impl Reach {
    fn note(&mut self, case: &str, met: bool) {
        match cases().position(|c| c == case) {
            Some(i) => self.counts[i] += met as u64,
            None => panic!("no case is called '{}'", case),
        }
    }

    /// How many cases were never met, and a line for each case.
    pub fn table(&mut self) -> (usize, Vec<String>) {
        let least = self.tails[1..].iter().copied().min().unwrap_or(0);
        if let Some(i) = cases().position(|c| c.contains("a tail")) {
            self.counts[i] = least;
        }
        let lines = cases().zip(&self.counts).map(|(case, n)| format!("{:>8}  {}", n, case)).collect();
        (self.counts.iter().filter(|n| **n == 0).count(), lines)
    }

    /// Hears a call that the judge has made, with its state before and after.
    pub fn saw(&mut self, before: &State, call: &Call, out: &Outcome, after: &State, sizes: Sizes) {
        match call {
            Call::Input(pieces) => {
                let bytes = datagram(pieces);
                let met = read(&bytes);
                self.input(before, &bytes, &met, out, after, sizes);
                match out.answer {
                    Answer::Number(consumed) => {
                        self.acks(before, &met, after);
                        self.growth(before, after);
                        self.tails[bytes.len() - consumed as usize] += 1;
                    }
                    _ => self.refused(before, &met, out, after),
                }
            }
            Call::Send(fill) => self.send(before, fill.len, out, after, sizes),
            _ => way_out::saw(before, call, out, after, &mut |case, met| self.note(case, met)),
        }
    }

    fn input(&mut self, before: &State, bytes: &[u8], met: &[Met], out: &Outcome, after: &State, sizes: Sizes) {
        let has = |cmd: u8| met.iter().any(|m| m.cmd == cmd);
        let answered = match out.answer {
            Answer::Number(_) => true,
            _ => false,
        };
        self.note("input: push, ack, ask and tell in one datagram", answered && [PUSH, ACK, ASK, TELL].iter().all(|cmd| has(*cmd)));
        self.note("input: a conv adopted, and no refusal", answered && before.conv != after.conv);
        self.note("input: an equal conv while one is awaited", answered && before.input_conv && after.input_conv);
        self.note("input: 1,500 bytes", bytes.len() == 1500);
        self.note("input: a payload on an ack, an ask or a tell", answered && met.iter().any(|m| m.cmd != PUSH && m.len > 0));
        self.note("input: the peer's window closed", answered && met.iter().any(|m| m.wnd == 0));
        self.note("input: the ack list filled to the last pair", after.acklist.len() == sizes.acks && before.acklist.len() < sizes.acks);
        let acked = after.acklist.len() - before.acklist.len();
        let stored = |s: &State| s.rcv_queue.len() + s.rcv_buf.len();
        let taken = stored(after) - stored(before);
        let moved = after.rcv_queue.len() - before.rcv_queue.len();
        let full = before.rcv_queue.len() >= before.rcv_wnd as usize;
        self.note("input: a push acked, and its place stored behind a hole", taken > 0 && after.rcv_buf.len() > before.rcv_buf.len() && !full);
        self.note("input: a push held, with the queue full", taken > 0 && full);
        self.note("input: a push acked that lets held segments move", acked > 0 && moved > taken);
        self.note("input: a push acked, repeated or old", acked > taken);
        self.note("input: a push not acked", answered && met.iter().filter(|m| m.cmd == PUSH).count() > acked);
        let first = before.snd_buf.first();
        let some = |s: &State| s.snd_buf.len();
        let has_acks = has(ACK);
        self.note("input: una drops some of those in flight", !has_acks && some(after) > 0 && some(after) < some(before));
        let past = |m: &Met| timediff(m.una, before.snd_nxt) > 0;
        self.note("input: una past snd_nxt drops all in flight", first.is_some() && some(after) == 0 && answered && met.iter().any(past));
        let half = |m: &Met| first.map_or(false, |f| m.una.wrapping_sub(f.sn) >= 1 << 31);
        self.note("input: una 2^31 or more past the front, and none dropped", some(after) == some(before) && answered && met.iter().any(half));
    }

    fn refused(&mut self, before: &State, met: &[Met], out: &Outcome, after: &State) {
        let number = match &out.answer {
            Answer::Refused { number, .. } => *number,
            _ => return,
        };
        let changed = before != after;
        self.note("input: refused by 1", number == 1);
        self.note("input: refused by 2, with effects before it", number == 2 && changed);
        self.note("input: refused by 3, with effects before it", number == 3 && changed && (before.conv == after.conv || met.len() > 1));
        self.note("input: refused by 4, with effects before it", number == 4 && changed && (before.conv == after.conv || met.len() > 1));
        self.note("input: refused, with snd_una moved", timediff(after.snd_una, before.snd_una) > 0);
        let acked = met.first().map_or(false, |m| m.cmd == ACK && m.conv == before.conv && m.len <= m.left);
        self.note("input: refused, with an ack before it and segments in flight", acked && !after.snd_buf.is_empty());
        // the segment that adopted, and whether it is the one refused
        let adopter = if before.conv == after.conv { None } else { met.iter().find(|m| m.conv == after.conv) };
        self.note("input: a conv adopted, then 2", adopter.is_some() && number == 2);
        let bad = |m: &Met| m.cmd < PUSH || m.cmd > TELL;
        self.note("input: a conv adopted, then 3 by the same segment", number == 3 && adopter.map_or(false, |m| m.len > m.left));
        self.note("input: a conv adopted, then 4 by the same segment", number == 4 && adopter.map_or(false, bad));
        self.note("input: len and cmd both bad", number == 3 && met.last().map_or(false, |m| bad(m) && m.len > m.left));
    }

    fn acks(&mut self, before: &State, met: &[Met], after: &State) {
        let acks: Vec<&Met> = met.iter().filter(|m| m.cmd == ACK).collect();
        let first = match acks.first() {
            Some(first) => first,
            None => return,
        };
        let flew = |sn: u32| before.snd_buf.iter().position(|x| x.sn == sn);
        let flies = |sn: u32| after.snd_buf.iter().any(|x| x.sn == sn);
        let removed: Vec<usize> = acks.iter().filter(|m| !flies(m.sn)).filter_map(|m| flew(m.sn)).collect();
        let una = met.iter().all(|m| before.snd_buf.first().map_or(false, |f| timediff(m.una, f.sn) <= 0));
        self.note("input: 3 or more acks removed, oldest first", una && removed.len() > 2 && removed.windows(2).all(|w| w[0] < w[1]));
        self.note("input: 3 or more acks removed, newest first", una && removed.len() > 2 && removed.windows(2).all(|w| w[0] > w[1]));
        self.note("input: 50 or more acks in one datagram", acks.len() >= 50);
        let low = |m: &&Met| timediff(m.sn, before.snd_una) < 0;
        let high = |m: &&Met| timediff(m.sn, before.snd_nxt) >= 0;
        self.note("input: an ack before snd_una", acks.iter().any(|m| low(m)));
        self.note("input: an ack at snd_nxt or past it", acks.iter().any(|m| high(m)));
        let within = |m: &&Met| !low(m) && !high(m);
        self.note("input: an ack of a number in the range that is gone", acks.iter().any(|m| within(m) && flew(m.sn).is_none()));
        self.note("input: an ack in flight that the search stops before, at the wrap", acks.iter().any(|m| flies(m.sn)));
        let wraps = before.snd_buf.windows(2).any(|w| w[0].sn > w[1].sn);
        self.note("input: an ack removed, with numbers of both sides of the wrap in flight", una && wraps && !removed.is_empty());
        self.note("input: an ack removed from behind the front", una && removed.iter().any(|i| *i > 0));
        let gained = |x: &&Segment| before.snd_buf.iter().any(|y| y.sn == x.sn && y.fastack != x.fastack);
        let gains = after.snd_buf.iter().filter(gained).count();
        self.note("input: fastack gained", gains > 0);
        let later = |x: &Segment| timediff(first.sn, x.sn) > 0 && timediff(first.ts, x.ts) < 0;
        let counts = timediff(first.sn, after.snd_una) >= 0 && timediff(first.sn, before.snd_nxt) < 0;
        let alone = acks.len() == 1 && counts;
        self.note("input: fastack not gained, by a ts that is later than latest_ts", alone && after.snd_buf.iter().any(later));
        let out = low(first) || high(first);
        let then = |m: &&Met| within(m) && after.snd_buf.iter().any(|x| timediff(m.sn, x.sn) > 0);
        self.note("input: a first ack out of the range, a later one in it: no fastack", gains == 0 && out && acks[1..].iter().any(|m| then(m)));
        let same = |m: &&Met| timediff(m.sn, first.sn) > 0 && m.ts == first.ts;
        self.note("input: a later ack with the same ts", acks[1..].iter().any(|m| same(m) && within(m)));
        self.note("input: a round trip before the clock, not measured", acks.iter().any(|m| timediff(before.current, m.ts) < 0));
    }

    fn growth(&mut self, before: &State, after: &State) {
        if timediff(after.snd_una, before.snd_una) <= 0 {
            return;
        }
        let mss = before.mss as u64;
        if before.cwnd >= after.rmt_wnd {
            self.note("input: snd_una moved, and cwnd at or over rmt_wnd", true);
            return;
        }
        let under = before.cwnd < before.ssthresh;
        self.note("input: grown under ssthresh", under);
        let start = (before.incr as u64).max(mss);
        let incr = start.wrapping_add(mss * mss / start + mss / 16);
        let whole = incr.wrapping_add(mss - 1) / mss;
        let reached = !under && (before.cwnd as u64 + 1) * mss <= incr;
        self.note("input: grown past ssthresh, incr alone", !under && !reached);
        self.note("input: grown past ssthresh, cwnd too", reached && whole < 65536);
        self.note("input: grown, and the cast to 16 bits cuts", reached && whole >= 65536);
        let cwnd = if under { before.cwnd + 1 } else { whole as u16 };
        self.note("input: grown, and cut to rmt_wnd", (under || reached) && cwnd > after.rmt_wnd);
    }

    fn send(&mut self, before: &State, len: usize, out: &Outcome, after: &State, sizes: Sizes) {
        let answered = match out.answer {
            Answer::Number(_) => true,
            _ => false,
        };
        let stream = before.stream;
        let used = |s: &State| s.snd_buf.len() + s.snd_queue.len();
        let more = used(after) - used(before);
        let at = before.snd_queue.len().wrapping_sub(1);
        let joined = before.snd_queue.last().map_or(false, |x| after.snd_queue[at].len > x.len);
        self.note("send: empty, plain", len == 0 && !stream);
        self.note("send: empty, stream", len == 0 && stream);
        self.note("send: a stream joins the last segment, no new one", answered && joined && more == 0);
        self.note("send: a stream joins the last segment, and new ones", answered && joined && more > 0);
        let long = before.snd_queue.last().map_or(false, |x| x.len > before.mss);
        self.note("send: a stream with a last segment that is longer than mss", answered && stream && long && len > 0);
        let flown = before.snd_queue.is_empty() && before.snd_buf.last().map_or(false, |x| x.len < before.mss);
        self.note("send: a stream with segments in flight and none waiting", answered && stream && flown && len > 0);
        self.note("send: 8, plain", !answered && !stream);
        self.note("send: 8, stream, after a fill", !answered && stream && joined);
        self.note("send: 127 segments", answered && more == 127);
        self.note("send: the pool filled to the last slot", more > 0 && used(after) == sizes.send);
        // as many places as there are numbers from the first in flight on, acked ones among them
        let first = before.snd_buf.first().map_or(before.snd_nxt, |x| x.sn);
        let places = before.snd_nxt.wrapping_sub(first) as usize + before.snd_queue.len();
        let fits = places <= sizes.send && places + more > sizes.send;
        self.note("send: segments fit only in the places of acked ones between those in flight", answered && more > 0 && fits);
        self.note("send: a stream joins the last segment with the pool full", answered && joined && used(before) == sizes.send);
    }
}
