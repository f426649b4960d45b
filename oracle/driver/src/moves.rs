//! The kinds of call that a sequence is made of, each with its numbers near the edges that the block's state shows.

use crate::call::{Call, Fill, Header, Piece, Tuned, ACK, ASK, GETTERS, PUSH, TELL};
use crate::generator::{Generator, Profile};
use crate::random::Random;
use state::State;

#[derive(Clone, Copy, PartialEq, Eq, Debug)]
pub enum Move {
    Push,
    Big,
    PushRun,
    /// A push as a datagram of its own, and a stretch of them.
    Only,
    Stretch,
    Ack,
    AckRun,
    AckTimes,
    Ask,
    Tell,
    Several,
    Bad,
    Short,
    Recv,
    Drain,
    /// One recv after the other.
    Reads,
    Peek,
    MoveBuf,
    Send,
    SendLong,
    Tick,
    Leap,
    Flush,
    FlushAck,
    Check,
    Wndsize,
    Mtu,
    Settings,
    Conv,
    Tune,
    Getter,
    Leaf,
}

use Move::*;

/// How often each kind comes in a profile.
pub fn weights(profile: Profile) -> &'static [(Move, u32)] {
    match profile {
        Profile::Mixed => &[
            (Push, 14), (PushRun, 4), (Ack, 10), (AckRun, 3), (Ask, 2), (Tell, 2), (Several, 8), (Bad, 3), (Short, 1), (Recv, 10),
            (Peek, 2), (MoveBuf, 2), (Big, 2), (Send, 12), (SendLong, 1), (Tick, 14), (Leap, 1), (Flush, 4), (FlushAck, 3), (Check, 3),
            (Wndsize, 2), (Mtu, 1), (Settings, 2), (Conv, 1), (Getter, 2),
        ],
        Profile::Windows => &[
            (PushRun, 30), (Push, 14), (Recv, 8), (Drain, 2), (MoveBuf, 3), (Wndsize, 12), (FlushAck, 4), (Tick, 5), (Peek, 1), (Ask, 1),
        ],
        Profile::Fragments => &[
            (PushRun, 14), (Push, 10), (Recv, 20), (Peek, 8), (MoveBuf, 2), (FlushAck, 2), (Tick, 2), (Several, 3), (Wndsize, 1),
        ],
        Profile::Stuck => &[
            (Send, 12), (SendLong, 2), (AckRun, 14), (Ack, 8), (Tick, 8), (Flush, 8), (Several, 2), (Check, 1), (Wndsize, 1), (Settings, 1), (Tune, 4),
        ],
        Profile::Times => &[(Send, 6), (Ack, 6), (AckTimes, 24), (Tick, 8), (Leap, 2), (Flush, 3), (Settings, 2), (Check, 2)],
        Profile::Clock => &[(Leap, 14), (Tick, 8), (Check, 12), (Send, 6), (Ack, 4), (Flush, 2), (Settings, 2), (Tell, 1), (Push, 2)],
        Profile::Mtu => &[
            (Mtu, 14), (Send, 14), (SendLong, 4), (Push, 6), (PushRun, 6), (FlushAck, 10), (Tick, 10), (Flush, 8), (Ack, 8), (Ask, 3),
            (Recv, 4), (Conv, 1),
        ],
        Profile::Refused => &[
            (Bad, 24), (Several, 8), (Short, 3), (Send, 8), (Tick, 8), (Flush, 3), (Ack, 4), (Push, 4), (Conv, 8), (FlushAck, 2), (Recv, 2),
        ],
        Profile::Timeouts => &[(Tick, 30), (Send, 4), (Flush, 4), (Check, 6), (Ack, 1), (Settings, 1), (Tune, 3), (Getter, 1)],
        Profile::Probes => &[
            (Tell, 10), (Ask, 6), (Tick, 20), (Flush, 4), (FlushAck, 4), (Push, 6), (Send, 6), (Check, 3), (Ack, 4), (Leap, 3), (Recv, 3),
            (Mtu, 1),
        ],
        Profile::Growth => &[
            (Ack, 16), (AckRun, 12), (Send, 14), (Flush, 12), (Tick, 10), (Tune, 6), (Mtu, 3), (Settings, 3), (Several, 3), (Tell, 3),
            (Wndsize, 1),
        ],
        Profile::Link => &[
            (Send, 10), (Tick, 30), (Recv, 12), (Flush, 3), (FlushAck, 3), (Check, 3), (Settings, 1), (Mtu, 1), (Wndsize, 1), (Peek, 1),
            (Getter, 1),
        ],
        Profile::Full => &[
            (PushRun, 300), (Push, 100), (Send, 60), (SendLong, 30), (Big, 20), (Peek, 5), (Wndsize, 2), (Recv, 2), (Flush, 1), (FlushAck, 1),
        ],
        Profile::Pushes => &[
            (Only, 40), (Stretch, 3), (Recv, 14), (Reads, 1), (Peek, 5), (MoveBuf, 4), (Wndsize, 4), (FlushAck, 3), (Tick, 3), (Flush, 1),
            (Settings, 1), (Mtu, 1), (Conv, 1), (Getter, 1), (Ask, 1), (Push, 1),
        ],
        Profile::Queues => &[
            (Stretch, 24), (Only, 10), (Recv, 6), (Reads, 3), (Wndsize, 10), (MoveBuf, 3), (Peek, 2), (FlushAck, 1), (Tick, 1), (Settings, 1),
        ],
        Profile::Sends => &[
            (Send, 30), (SendLong, 12), (Mtu, 8), (Flush, 8), (Tick, 6), (Ack, 4), (AckRun, 6), (Several, 2), (Tell, 1), (Wndsize, 1), (Getter, 1),
        ],
        Profile::Acks => &[
            (Send, 10), (SendLong, 6), (Flush, 12), (Tick, 4), (Ack, 16), (AckRun, 8), (Several, 6), (Bad, 5), (Tell, 1), (Conv, 1), (Tune, 2),
            (Settings, 1), (Recv, 1),
        ],
        Profile::Leaves => &[(Leaf, 1)],
    }
}

/// The calls that set a fresh block up for the profile.
pub fn first_calls(g: &mut Generator) -> Vec<Call> {
    let mut calls = Vec::new();
    let r = &mut g.random;
    if r.below(4) > 0 {
        calls.push(Call::SetMtu(r.pick(&[50, 51, 72, 74, 96, 100, 120, 200])));
    }
    let wide = (g.sizes.receive / 2) as u16;
    match g.profile {
        Profile::Windows | Profile::Queues => calls.push(Call::SetWndsize(32, r.pick(&[128, 129, 200, wide]).min(wide))),
        Profile::Stuck => {
            calls.push(Call::SetNodelay(true, 10, r.below(4) as i32, true));
            calls.push(Call::SetWndsize(r.pick(&[16, 64, 1000, 65535]), 0));
        }
        Profile::Growth => {
            calls.push(Call::SetNodelay(r.once_in(2), 10, r.pick(&[0, 1, 2, 3, 65533, 65534, 65535, 65536, 65537]), r.once_in(4)));
            calls.push(Call::SetWndsize(r.pick(&[2, 8, 64, 65535]), 0));
        }
        Profile::Acks => {
            calls.push(Call::SetNodelay(true, 10, r.below(3) as i32, r.below(4) > 0));
            calls.push(Call::SetWndsize(r.pick(&[40, 128, 65535]), 0));
        }
        Profile::Timeouts => {
            calls.push(Call::SetNodelay(r.once_in(2), 10, 0, r.once_in(2)));
            calls.push(Call::SetMaximumResendTimes(r.pick(&[0, 1, 2, 5, 20, 100])));
            calls.push(Call::Send(Fill { len: 3, seed: 1 }));
        }
        _ => {
            if r.once_in(2) {
                calls.push(Call::SetNodelay(r.once_in(2), r.between(0, 60) as i32, r.below(4) as i32, r.once_in(2)));
            }
            if r.once_in(2) {
                calls.push(Call::SetWndsize(r.pick(&[1, 4, 32, 256, 65535]), r.pick(&[0, 1, 128, 150, wide]).min(wide)));
            }
        }
    }
    if g.profile == Profile::Refused && r.once_in(2) {
        calls.push(Call::InputConv);
    }
    if r.below(8) > 0 {
        calls.push(Call::Update(g.clock));
    }
    calls
}

pub fn make(kind: Move, g: &mut Generator, s: &State) -> Call {
    match kind {
        Push => Call::Input(vec![push(g, s)]),
        Big => big(g, s),
        PushRun => push_run(g, s),
        Only => {
            let sn = push_number(&mut g.random, s);
            only(g, s, sn)
        }
        Stretch => stretch(g, s),
        Ack => Call::Input(acks(g, s)),
        AckRun => ack_run(g, s),
        AckTimes => Call::Input(some(g, s, ack_times, 2)),
        Ask => Call::Input(vec![plain(g, s, ASK)]),
        Tell => Call::Input(vec![plain(g, s, TELL)]),
        Several => several(g, s),
        Bad => bad(g, s),
        Short => {
            let n = g.random.below(24);
            Call::Input(vec![Piece::Raw((0..n).map(|i| i as u8).collect())])
        }
        Recv => Call::Recv(room(g, s)),
        Drain => Call::Recv(4000),
        Reads => {
            let count = g.random.pick(&[3, 20, 130]);
            g.queue(vec![Call::Recv(4000); count]);
            Call::Recv(room(g, s))
        }
        Peek => Call::Peeksize,
        MoveBuf => Call::MoveBuf,
        Send => {
            let n = send_length(&mut g.random, s);
            Call::Send(g.fill(n))
        }
        SendLong => {
            let k = g.random.pick(&[2, 3, 10, 126, 127, 128, 129]);
            let n = (k * s.mss).min(40_000) + g.random.below(3);
            Call::Send(g.fill(n.saturating_sub(1)))
        }
        Tick => Call::Update(tick(g, s)),
        Leap => Call::Update(leap(&mut g.random, s)),
        Flush => Call::Flush,
        FlushAck => Call::FlushAck,
        Check => {
            let now = [s.current, s.ts_flush.wrapping_sub(1 + g.random.below(9) as u32)];
            let t = match g.random.below(6) {
                0 | 1 => leap(&mut g.random, s),
                2 => g.random.pick(&now),
                _ => tick(g, s),
            };
            Call::Check(t)
        }
        Wndsize => wndsize(g, s),
        Mtu => Call::SetMtu(g.random.weighted(&[(50, 3), (49, 1), (51, 1), (72, 2), (73, 1), (74, 2), (96, 1), (100, 3), (120, 1), (200, 3), (600, 1), (1400, 1), (1500, 2), (0, 1)])),
        Settings => settings(&mut g.random, s),
        Conv => conv(&mut g.random, s),
        Tune => tune(g, s),
        Getter => Call::Get(g.random.pick(&GETTERS).0),
        Leaf => leaf(&mut g.random),
    }
}

// ---- numbers near the edges

/// A push's number: the awaited one and those after it, the window's far edge, held ones, and those about 2^31 away.
fn push_number(r: &mut Random, s: &State) -> u32 {
    let (next, w) = (s.rcv_nxt, s.rcv_wnd as u32);
    let held = if s.rcv_buf.is_empty() { next } else { s.rcv_buf[r.below(s.rcv_buf.len())].sn };
    let far = next.wrapping_add(1 << 31);
    match r.below(20) {
        0..=4 => next,
        5..=9 => next.wrapping_add(r.below(6) as u32),
        10 | 11 => next.wrapping_add(r.below(w as usize) as u32),
        12 | 13 => r.near(next.wrapping_add(w)),
        14 | 15 => held,
        16 => next.wrapping_sub(1 + r.below(6) as u32),
        17 => r.near(far),
        18 => r.near(far.wrapping_add(w)),
        _ => r.word(),
    }
}

fn una(r: &mut Random, s: &State) -> u32 {
    let flying = s.snd_nxt.wrapping_sub(s.snd_una);
    match r.below(24) {
        0..=13 => s.snd_una,
        14 | 15 => s.snd_una.wrapping_add(r.below(flying as usize + 1) as u32),
        16 | 17 => s.snd_una.wrapping_add(1),
        18 => s.snd_nxt,
        19 => s.snd_una.wrapping_sub(1 + r.below(3) as u32),
        20 => s.snd_nxt.wrapping_add(r.below(5000) as u32),
        21 => r.near(s.snd_una.wrapping_add(1 << 31)),
        22 => 0,
        _ => r.word(),
    }
}

fn wnd(r: &mut Random, s: &State) -> u16 {
    match r.below(12) {
        0..=6 => s.rmt_wnd,
        7 => 128,
        8 => 0,
        9 => r.below(6) as u16,
        10 => 65535,
        _ => r.word() as u16,
    }
}

/// A time-stamp: about now, or odd ones about a third and a half of 2^32 before.
fn stamp(r: &mut Random, s: &State) -> u32 {
    let now = s.current;
    match r.below(14) {
        0..=4 => now.wrapping_sub(r.below(400) as u32),
        5 => now,
        6 => r.near(now),
        7 => now.wrapping_sub(r.near((1 << 31) - 1)),
        8 => now.wrapping_sub(r.near(u32::MAX / 3)),
        9 => now.wrapping_sub(r.below(70_000) as u32),
        10 => 0,
        11 => now.wrapping_add(r.below(400) as u32),
        _ => r.word(),
    }
}

fn head(g: &mut Generator, s: &State, cmd: u8) -> Header {
    let r = &mut g.random;
    let conv = if s.input_conv && r.once_in(2) { s.conv.wrapping_add(1) } else { s.conv };
    Header { conv, cmd, frg: 0, wnd: wnd(r, s), ts: stamp(r, s), sn: 0, una: una(r, s), len: None }
}

// ---- datagrams

fn plain(g: &mut Generator, s: &State, cmd: u8) -> Piece {
    let mut h = head(g, s, cmd);
    if g.profile == Profile::Probes && g.random.once_in(2) {
        h.wnd = 0;
    }
    let n = if g.random.once_in(6) { g.random.below(9) } else { 0 };
    let fill = g.fill(n);
    Piece::Segment(h, fill)
}

fn fragment(g: &mut Generator) -> u8 {
    let r = &mut g.random;
    if g.profile != Profile::Fragments && r.below(4) > 0 {
        return 0;
    }
    // every other sequence has few ends, so that the queue holds none
    let ends = if g.sizes.send == 128 { 1 } else { 8 };
    r.weighted(&[(0, ends), (1, 4), (2, 3), (3, 2), (7, 1), (100, 1), (127, 1), (128, 1), (254, 1), (255, 1)])
}

fn push(g: &mut Generator, s: &State) -> Piece {
    let mut h = head(g, s, PUSH);
    h.sn = push_number(&mut g.random, s);
    h.frg = fragment(g);
    let n = g.random.weighted(&[(0, 1), (1, 4), (5, 4), (20, 3), (s.mss.min(200), 1)]);
    let fill = g.fill(n);
    Piece::Segment(h, fill)
}

/// A datagram as long as one may be: a push of up to 1,476 bytes, or one and a short one behind it.
fn big(g: &mut Generator, s: &State) -> Call {
    let mut h = head(g, s, PUSH);
    h.sn = push_number(&mut g.random, s);
    let n = g.random.pick(&[1376, 1377, 1400, 1452, 1475, 1476]);
    let fill = g.fill(n);
    let mut pieces = vec![Piece::Segment(h, fill)];
    if n <= 1452 && g.random.once_in(2) {
        pieces.push(plain(g, s, ASK));
    }
    Call::Input(pieces)
}

/// Pushes with numbers one after the other, most from the awaited one on, as many as a datagram holds.
fn push_run(g: &mut Generator, s: &State) -> Call {
    let gap = g.random.weighted(&[(0, 8), (1, 3), (g.random.clone().below(200), 2)]) as u32;
    let first = match s.rcv_buf.last() {
        Some(last) if g.random.once_in(3) => last.sn.wrapping_add(1),
        _ => s.rcv_nxt.wrapping_add(gap),
    };
    let count = g.random.pick(&[3, 10, 30, 58]);
    let mut pieces = Vec::new();
    let mut h = head(g, s, PUSH);
    for i in 0..count {
        h.sn = first.wrapping_add(i);
        h.frg = fragment(g);
        let n = g.random.below(2);
        let fill = g.fill(n);
        pieces.push(Piece::Segment(h, fill));
    }
    Call::Input(pieces)
}

/// A fragment number of a push that is a datagram of its own: mostly an end. Large ones hold the queue up, so that one sequence in three has them.
fn mark(g: &mut Generator) -> u8 {
    let large = (g.sizes.send == 128) as u32;
    let r = &mut g.random;
    if large > 0 && r.once_in(500) {
        return 255;
    }
    r.weighted(&[(0, 60), (1, 6), (2, 4), (3, 3), (7, large), (100, large), (127, large), (128, large), (254, large)])
}

/// A push as a datagram of its own, that leaves the send side alone.
fn only(g: &mut Generator, s: &State, sn: u32) -> Call {
    let frg = mark(g);
    let ts = stamp(&mut g.random, s);
    let n = g.random.weighted(&[(0, 6), (1, 20), (5, 12), (20, 8), (200, 2), (1376, 1), (1476, 1)]);
    let h = Header { conv: s.conv, cmd: PUSH, frg, wnd: s.rmt_wnd, ts, sn, una: s.snd_una, len: None };
    Call::Input(vec![Piece::Segment(h, g.fill(n))])
}

/// Pushes one by one: from the awaited number, from behind the last held one, past a hole, or over the window's far edge; in
/// order, backwards, mixed, or each of them twice.
fn stretch(g: &mut Generator, s: &State) -> Call {
    let r = &mut g.random;
    let next = s.rcv_nxt;
    let behind = s.rcv_buf.last().map_or(next, |x| x.sn.wrapping_add(1));
    let hole = 1 + r.below(4) as u32;
    let far = s.rcv_wnd as u32 - 6;
    let first = r.weighted(&[(next, 6), (behind, 4), (next.wrapping_add(hole), 4), (next.wrapping_add(far), 1)]);
    let count = r.pick(&[3, 12, 40, 130]);
    let mut numbers: Vec<u32> = (0..count).map(|i| first.wrapping_add(i)).collect();
    match r.below(6) {
        0 => numbers.reverse(),
        1 => {
            for i in (1..numbers.len()).rev() {
                numbers.swap(i, r.below(i + 1));
            }
        }
        2 => numbers = numbers.iter().flat_map(|n| vec![*n, *n]).collect(),
        _ => {}
    }
    let mut calls: Vec<Call> = numbers.into_iter().map(|sn| only(g, s, sn)).collect();
    let call = calls.remove(0);
    g.queue(calls);
    call
}

fn ack(g: &mut Generator, s: &State) -> Piece {
    let mut h = head(g, s, ACK);
    let r = &mut g.random;
    match r.below(8) {
        0..=5 if !s.snd_buf.is_empty() => {
            let n = s.snd_buf.len();
            let spread = r.below(n);
            let i = r.pick(&[0, n - 1, spread, spread, n.min(2) - 1]);
            h.sn = s.snd_buf[i].sn;
            if r.below(3) > 0 {
                h.ts = s.snd_buf[i].ts.wrapping_add(r.pick(&[0, 0, 0, 1, u32::MAX]));
            }
        }
        6 => h.sn = s.snd_una.wrapping_add(r.below(40) as u32).wrapping_sub(3),
        7 => h.sn = r.word(),
        _ => h.sn = r.near(s.snd_nxt),
    }
    if r.once_in(8) {
        let seg = s.snd_buf.first().map_or(s.current, |x| x.ts);
        h.ts = r.near(seg.wrapping_add(1 << 31));
    }
    let n = if r.once_in(8) { r.pick(&[1, 5, 24]) } else { 0 };
    let fill = g.fill(n);
    Piece::Segment(h, fill)
}

/// Up to three acks; sometimes two that lie half of all times or of all numbers apart.
fn acks(g: &mut Generator, s: &State) -> Vec<Piece> {
    let mut pieces = some(g, s, ack, 3);
    if g.random.once_in(8) {
        if let Piece::Segment(h, fill) = pieces[0].clone() {
            let far = if g.random.once_in(2) {
                Header { sn: h.sn.wrapping_add(1), ts: g.random.near(h.ts.wrapping_add(1 << 31)), ..h }
            } else {
                Header { sn: g.random.near(h.sn.wrapping_add(1 << 31)), ts: h.ts.wrapping_add(1), ..h }
            };
            pieces.push(Piece::Segment(far, fill));
        }
    }
    pieces
}

/// An ack whose round trip is odd: the estimator runs for it whatever its number.
fn ack_times(g: &mut Generator, s: &State) -> Piece {
    let mut h = head(g, s, ACK);
    let r = &mut g.random;
    let rtt = match r.below(9) {
        0 => 0,
        1 => r.below(8) as u32,
        2 => r.below(500) as u32,
        3 => r.near(u32::MAX / 3),
        4 => r.near(1 << 31),
        5 => r.near(s.rx_srtt),
        6 => r.near(u32::MAX / 7 * 2),
        7 => r.below(100_000) as u32,
        _ => r.word() >> 1,
    };
    h.ts = s.current.wrapping_sub(rtt);
    h.sn = s.snd_una.wrapping_add(r.below(10) as u32);
    Piece::Segment(h, Fill { len: 0, seed: 0 })
}

/// Acks of many segments in flight; in the profile of the stuck segment, of all but the first.
fn ack_run(g: &mut Generator, s: &State) -> Call {
    let mut pieces = Vec::new();
    let mut h = head(g, s, ACK);
    if g.profile == Profile::Stuck {
        h.una = s.snd_una;
        h.wnd = 65535;
    }
    let skip = (g.profile == Profile::Stuck) as usize + g.random.weighted(&[(0, 6), (1, 3), (4, 1)]);
    let newest_first = g.random.once_in(2);
    let n = s.snd_buf.len();
    for i in skip..n.min(skip + 58) {
        let at = if newest_first { n - 1 - (i - skip) } else { i };
        h.sn = s.snd_buf[at].sn;
        h.ts = s.snd_buf[at].ts;
        pieces.push(Piece::Segment(h, Fill { len: 0, seed: 0 }));
    }
    if pieces.is_empty() {
        pieces.push(ack(g, s));
    }
    Call::Input(pieces)
}

fn some(g: &mut Generator, s: &State, one: fn(&mut Generator, &State) -> Piece, most: usize) -> Vec<Piece> {
    let n = 1 + g.random.below(most);
    (0..n).map(|_| one(g, s)).collect()
}

fn any_piece(g: &mut Generator, s: &State) -> Piece {
    match g.random.below(8) {
        0..=2 => push(g, s),
        3..=5 => ack(g, s),
        6 => plain(g, s, ASK),
        _ => plain(g, s, TELL),
    }
}

/// Segments of several kinds, sometimes with a tail too short for a header.
fn several(g: &mut Generator, s: &State) -> Call {
    let most = g.random.pick(&[5, 5, 12]);
    let mut pieces = some(g, s, any_piece, most);
    if g.random.once_in(4) {
        let n = 1 + g.random.below(23);
        pieces.push(Piece::Raw(vec![7; n]));
    }
    Call::Input(pieces)
}

/// A datagram with a segment that is refused, somewhere.
fn bad(g: &mut Generator, s: &State) -> Call {
    let mut pieces = some(g, s, any_piece, 3);
    let at = g.random.below(pieces.len() + 1);
    let mut h = head(g, s, PUSH);
    h.sn = s.rcv_nxt;
    let r = &mut g.random;
    let wrong = r.below(7);
    if wrong == 0 || wrong >= 5 {
        h.conv = r.pick(&[s.conv.wrapping_add(1), s.conv.wrapping_add(2), 0]);
    }
    if wrong == 1 || wrong == 4 || wrong == 5 {
        h.cmd = r.pick(&[80, 85, 0, 255]);
    }
    if wrong == 2 || wrong == 3 || wrong == 4 || wrong == 6 {
        h.len = Some(r.pick(&[1, 3, 25, 1500, u32::MAX]));
    }
    pieces.insert(at, Piece::Segment(h, Fill { len: 2, seed: 9 }));
    Call::Input(pieces)
}

// ---- the user's side

/// A buffer for recv: about as long as the message at the front.
fn room(g: &mut Generator, s: &State) -> usize {
    let mut message = 0;
    for x in &s.rcv_queue {
        message += x.len;
        if x.frg == 0 {
            break;
        }
    }
    match g.random.below(8) {
        0 => message.saturating_sub(1),
        1 => 0,
        2 => message + 1,
        3 => message + 100,
        _ => message,
    }
}

fn send_length(r: &mut Random, s: &State) -> usize {
    let last = s.snd_queue.last().map_or(0, |x| x.len);
    match r.below(10) {
        0 => 0,
        1 => s.mss,
        2 => s.mss + 1,
        3 => (r.below(4) + 1) * s.mss,
        4 => s.mss.saturating_sub(last),
        5 => s.mss.saturating_sub(last) + 1,
        6 => r.below(3 * s.mss),
        _ => 1 + r.below(20),
    }
}

/// The clock goes on: a little, to the next flush, to a resend, to the probe.
fn tick(g: &mut Generator, s: &State) -> u32 {
    let clock = g.clock;
    let r = &mut g.random;
    let resend = if s.snd_buf.is_empty() { s.ts_flush } else { s.snd_buf[r.below(s.snd_buf.len())].resendts };
    match r.below(10) {
        0..=3 => clock.wrapping_add(r.below(s.interval as usize + 20) as u32),
        4 => s.ts_flush,
        5 => r.near(s.ts_flush),
        6 | 7 => resend,
        8 => r.near(resend),
        _ if s.probe_wait > 0 => r.near(s.ts_probe),
        _ => clock.wrapping_add(s.interval),
    }
}

fn leap(r: &mut Random, s: &State) -> u32 {
    match r.below(8) {
        0 | 1 => r.near(s.ts_flush.wrapping_sub(10_000)),
        2 | 3 => r.near(s.ts_flush.wrapping_add(10_000)),
        4 if s.probe_wait > 0 && r.once_in(2) => r.near(s.ts_probe.wrapping_add(1 << 31)),
        4 => r.near(s.ts_flush.wrapping_add(1 << 31)),
        5 => s.ts_flush.wrapping_add(r.below(20_000) as u32).wrapping_sub(10_000),
        6 => s.current.wrapping_add(r.below(200_000) as u32),
        _ => r.word(),
    }
}

fn wndsize(g: &mut Generator, s: &State) -> Call {
    let most = (g.sizes.receive / 2) as u32;
    let r = &mut g.random;
    let queued = s.rcv_queue.len() as u32;
    let low = if most > 128 { r.between(128, most) } else { 128 };
    let rcv = r.pick(&[0, 1, 127, 128, 129, most, low, queued, queued + 1, queued.saturating_sub(1)]).min(most);
    let snd = r.pick(&[0, 0, 1, 2, 8, 32, 128, 65535]);
    Call::SetWndsize(snd, rcv as u16)
}

fn settings(r: &mut Random, s: &State) -> Call {
    match r.below(6) {
        0 => Call::SetInterval(r.pick(&[0, 9, 10, 11, 40, 100, 5000, 5001, u32::MAX])),
        1 | 2 => Call::SetNodelay(r.once_in(2), r.pick(&[-1, 0, 9, 10, 20, 5000, 5001, i32::MIN, i32::MAX]), r.pick(&[-1, 0, 1, 2, 3, i32::MIN]), r.once_in(2)),
        3 => Call::SetRxMinrto(r.pick(&[0, 1, 30, 100, 59_999, 60_000, 60_001, 70_000, u32::MAX])),
        4 => Call::SetFastResend(r.pick(&[0, 1, 2, 3, 5, 65_534, 65_535, 65_536, 65_537, u32::MAX])),
        _ => Call::SetMaximumResendTimes(r.pick(&[0, 1, 2, 3, 20, s.xmit])),
    }
}

fn conv(r: &mut Random, s: &State) -> Call {
    match r.below(3) {
        0 => Call::SetConv(r.pick(&[s.conv, s.conv.wrapping_add(1), 0, 9])),
        _ => Call::InputConv,
    }
}

/// Numbers that only very long runs reach by themselves, and the calls that they matter to.
fn tune(g: &mut Generator, s: &State) -> Call {
    let r = &mut g.random;
    let at = r.below(s.snd_buf.len());
    let resent = s.fastresend;
    let kind = if s.snd_buf.is_empty() { r.below(4) } else { r.below(10) };
    match kind {
        0 => Call::Tune(Tuned::Cwnd, r.pick(&[1, 2, 3, 100, 2002, 65_534, 65_535])),
        1 => Call::Tune(Tuned::Incr, r.pick(&[0, 26, 1376, 2_954_952, 90_177_535, 90_177_536, 1 << 33])),
        2 => Call::Tune(Tuned::Ssthresh, r.pick(&[2, 3, 300, 32_767])),
        3 => Call::Tune(Tuned::RxRto, r.pick(&[30, 100, 200, 60_000])),
        4 | 5 => Call::Tune(Tuned::Fastack(at), r.near(resent.max(2)) as u64),
        6 => Call::Tune(Tuned::Xmit(at), r.pick(&[1, 4, 5, 6, 7])),
        // one segment stuck, the rest of a long range acked, and a fast resend due
        7 => {
            let ahead = r.pick(&[1_200, 2_000, 6_000, 65_534, 65_535]).max(s.snd_nxt.wrapping_sub(s.snd_una) as u64);
            g.queue(vec![Call::Tune(Tuned::Fastack(at), resent as u64), Call::Flush]);
            Call::Tune(Tuned::Ahead, ahead)
        }
        // the next time-out doubles a segment's rto past 2^31, or to it
        _ => {
            let due = s.snd_buf[at].resendts;
            g.queue(vec![Call::Update(due), Call::Flush, Call::Check(due)]);
            Call::Tune(Tuned::Rto(at), g.random.pick(&[1 << 30, 1 << 30, 100, 1_677_721_600, 2_209_672_840, 3_355_443_200, u32::MAX as u64]))
        }
    }
}

// ---- numbers and bytes alone

fn edge(r: &mut Random) -> u32 {
    let around = r.pick(&[0, 1 << 31, u32::MAX / 3, u32::MAX / 7, u32::MAX / 4, 60_000, 100, 1 << 16]);
    match r.below(4) {
        0 => r.word(),
        1 => r.below(1000) as u32,
        _ => r.near(around),
    }
}

fn leaf(r: &mut Random) -> Call {
    let n = r.pick(&[0, 1, 22, 23, 24, 25, 40, 1500]);
    let bytes: Vec<u8> = (0..n).map(|_| r.word() as u8).collect();
    match r.below(10) {
        0 | 1 => Call::Timediff(edge(r), edge(r)),
        2 => Call::Bound(edge(r), edge(r), edge(r)),
        3..=5 => Call::Estimate([r.pick(&[0, 0, 1]).max(edge(r) * (r.below(2) as u32)), edge(r), 200, edge(r)], edge(r), edge(r)),
        6 => Call::GetConv(bytes),
        7 => Call::PutConv(bytes, edge(r)),
        8 => Call::GetSn(bytes),
        _ => {
            let h = Header {
                conv: edge(r),
                cmd: r.word() as u8,
                frg: r.word() as u8,
                wnd: r.word() as u16,
                ts: edge(r),
                sn: edge(r),
                una: edge(r),
                len: None,
            };
            // a long payload is dear, since the Rust's own encode needs it whole to count it
            let len = r.weighted(&[(0, 40), (1, 40), (255, 40), (256, 40), (1476, 40), (65_535, 4), (65_536, 4), (1 << 20, 1)]);
            Call::Encode(h, len.max(r.below(3000) as u32))
        }
    }
}

