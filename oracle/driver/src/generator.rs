//! Makes the calls: sequences that lead a block deep into its states, and stay on document 01's domain of equality.
//!
//! A plain random generator hardly leaves the shallow states. So each sequence has a profile, which says how the block is set up
//! and how often each kind of call comes; and each call is made with the judge's state in sight, so that its numbers fall on edges.

use crate::call::{Call, Piece, Sizes, LEAVES};
use crate::domain;
use crate::moves::{self, Move};
use crate::random::Random;
use crate::rust_side::Sink;
use crate::side::Outcome;
use kcp_judge::Kcp;
use state::State;
use std::collections::VecDeque;

#[derive(Clone, Copy, PartialEq, Eq, Debug)]
pub enum Profile {
    /// Every call, everyday settings.
    Mixed,
    /// The receive queue is driven full, and windows are raised and lowered over it.
    Windows,
    /// Messages of many fragments, some without an end; buffers of about their size.
    Fragments,
    /// One segment stays stuck through long runs of acks.
    Stuck,
    /// Round trips of odd lengths: near 0, 2^32 / 3 and 2^31.
    Times,
    /// Clocks that leap: by 10,000, to the flush, by 2^31.
    Clock,
    /// mtu between 50 and 1,500 while segments are queued, in flight, and acks wait.
    Mtu,
    /// Datagrams that are refused midway; convs that are adopted.
    Refused,
    /// Time-outs, one after the other, until the link is dead and the times wrap.
    Timeouts,
    /// Closed windows, probes and answers to them.
    Probes,
    /// Congestion: growth, loss and fast resends, from windows of every size.
    Growth,
    /// A second block at the other end of a line that loses, repeats and reorders.
    Link,
    /// Lists and pools filled to the brim: acks that are not flushed, segments that are not acked, messages that are not read.
    Full,
    /// Datagrams of one push, in and out of order, again, old and beyond the window; recv, peeksize and move_buf among them.
    Pushes,
    /// Long stretches of such pushes: queues and held segments over every window, which is raised and lowered, and read empty again.
    Queues,
    /// Sends of every length, most into streams; mss lowered under what waits, and the queue's end left in flight.
    Sends,
    /// Many segments in flight, most at the wrap of their numbers, and acks of every order and kind, refusals among them.
    Acks,
    /// The functions that take numbers and bytes alone.
    Leaves,
}

pub const PROFILES: [(Profile, &str); 18] = [
    (Profile::Mixed, "mixed"),
    (Profile::Windows, "windows"),
    (Profile::Fragments, "fragments"),
    (Profile::Stuck, "stuck"),
    (Profile::Times, "times"),
    (Profile::Clock, "clock"),
    (Profile::Mtu, "mtu"),
    (Profile::Refused, "refused"),
    (Profile::Timeouts, "timeouts"),
    (Profile::Probes, "probes"),
    (Profile::Growth, "growth"),
    (Profile::Link, "link"),
    (Profile::Full, "full"),
    (Profile::Pushes, "pushes"),
    (Profile::Queues, "queues"),
    (Profile::Sends, "sends"),
    (Profile::Acks, "acks"),
    (Profile::Leaves, "leaves"),
];

pub struct Generator {
    pub random: Random,
    pub profile: Profile,
    pub clock: u32,
    pub sizes: Sizes,
    /// Tells payloads apart.
    pub mark: u8,
    /// The bytes that the call is handed which was made last.
    pub bytes: Vec<u8>,
    pending: VecDeque<Call>,
    left: usize,
    peer: Option<Peer>,
}

/// The block at the other end, and what is on its way from there.
struct Peer {
    kcp: Kcp<Sink>,
    inbox: VecDeque<Vec<u8>>,
}

impl Generator {
    pub fn new(seed: u64, sequence: u64, profile: Option<Profile>, calls: &[String]) -> Generator {
        let mut random = Random::new(seed.wrapping_mul(1_000_003).wrapping_add(sequence));
        let leaves = !calls.is_empty() && calls.iter().all(|c| LEAVES.contains(&c.as_str()));
        let profile = match profile {
            Some(p) => p,
            None if leaves => Profile::Leaves,
            None => PROFILES[(sequence % PROFILES.len() as u64) as usize].0,
        };
        let mut left = if random.once_in(4) { 400 } else { 20 + random.below(120) };
        // a stretch is many calls
        if profile == Profile::Queues {
            left /= 4;
        }
        let sizes = Sizes {
            receive: random.pick(&[256, 512, 1024, 1024]),
            send: random.pick(&[128, 256, 1024]),
            acks: random.pick(&[128, 512, 4096]),
        };
        let mut g = Generator {
            clock: 0,
            sizes,
            mark: random.word() as u8,
            bytes: Vec::new(),
            pending: VecDeque::new(),
            left,
            peer: None,
            random,
            profile,
        };
        g.set_up();
        g
    }

    fn set_up(&mut self) {
        if self.profile == Profile::Leaves {
            return;
        }
        let r = &mut self.random;
        let edge = |r: &mut Random| r.weighted(&[(0, 3), (r.clone().near(0), 1), (r.clone().near(1 << 31), 1), (0u32.wrapping_sub(1 + r.clone().below(60) as u32), 3), (r.clone().word(), 1)]);
        let (mut rcv, mut snd) = (edge(r), edge(r));
        // the edge may lie in the middle of a long queue
        if self.profile == Profile::Queues && r.once_in(2) {
            rcv = rcv.wrapping_sub(r.below(600) as u32);
        }
        if self.profile == Profile::Acks && r.below(4) > 0 {
            snd = 0u32.wrapping_sub(1 + r.below(90) as u32);
        }
        let conv = r.pick(&[1, 0, 0x1122_3344, u32::MAX]);
        let stream = r.once_in(if self.profile == Profile::Sends { 2 } else { 4 });
        self.clock = r.weighted(&[(0, 3), (r.clone().below(1000) as u32, 3), (r.clone().near(1 << 31), 1), (0u32.wrapping_sub(r.clone().below(400) as u32), 2), (r.clone().word(), 1)]);
        self.pending.push_back(Call::Start { conv, stream, rcv, snd, sizes: self.sizes });
        let calls = moves::first_calls(self);
        self.pending.extend(calls);
        if self.profile == Profile::Link {
            self.peer = Some(Peer::new(conv, stream, snd, rcv, &mut self.random));
        }
    }

    pub fn fill(&mut self, len: usize) -> crate::call::Fill {
        self.mark = self.mark.wrapping_add(1);
        crate::call::Fill { len, seed: self.mark }
    }

    /// Calls that are to follow the next one.
    pub fn queue(&mut self, calls: Vec<Call>) {
        self.pending.extend(calls);
    }

    /// The next call, for a block in this state, with its bytes in `bytes`; `None` ends the sequence. Of the state only numbers are
    /// looked at.
    pub fn next(&mut self, s: &State) -> Option<Call> {
        let call = self.choose(s)?;
        if let Call::Update(t) = call {
            self.clock = t;
        }
        Some(call)
    }

    /// Whether the call stays on the domain of equality; its bytes are then in `bytes`.
    fn stays(&mut self, call: &Call, s: &State) -> bool {
        call.put_bytes(&mut self.bytes);
        domain::leaves(call, &self.bytes, s, self.sizes).is_none()
    }

    fn choose(&mut self, s: &State) -> Option<Call> {
        while let Some(call) = self.pending.pop_front() {
            if self.stays(&call, s) {
                return Some(call);
            }
            // a stretch of pushes has filled the ack list, and goes on when that is flushed
            if call.name() == "input" && !s.acklist.is_empty() {
                self.pending.push_front(call);
                return Some(self.empty_acks(s));
            }
        }
        if self.left == 0 {
            return None;
        }
        self.left -= 1;
        if let Some(datagram) = self.delivery() {
            let call = Call::Input(vec![Piece::Raw(datagram)]);
            if self.stays(&call, s) {
                return Some(call);
            }
        }
        // with a full list only pushes that are not acknowledged stay on the domain: mostly the list is flushed in time
        let brim = if self.profile == Profile::Full { 0 } else { 70 };
        if s.acklist.len() + brim > self.sizes.acks && self.random.below(8) > 0 {
            return Some(self.empty_acks(s));
        }
        for _ in 0..8 {
            let kind = self.random.weighted(moves::weights(self.profile));
            let call = moves::make(kind, self, s);
            if self.stays(&call, s) {
                return Some(call);
            }
        }
        Some(moves::make(Move::Getter, self, s))
    }

    fn empty_acks(&self, s: &State) -> Call {
        if s.updated {
            Call::FlushAck
        } else {
            Call::Update(self.clock)
        }
    }

    /// Hears what the call showed: what the block sends goes to the other end, unless it is lost.
    pub fn saw(&mut self, outcome: &Outcome) {
        let clock = self.clock;
        let random = &mut self.random;
        if let Some(peer) = &mut self.peer {
            for d in outcome.datagrams.iter() {
                if !random.once_in(6) {
                    let _ = peer.kcp.input(d);
                }
            }
            peer.live(clock, random);
        }
    }

    /// A datagram from the other end: mostly the oldest, sometimes another, sometimes again.
    fn delivery(&mut self) -> Option<Vec<u8>> {
        let random = &mut self.random;
        let peer = self.peer.as_mut()?;
        if peer.inbox.is_empty() || random.once_in(3) {
            return None;
        }
        let at = if random.once_in(4) { random.below(peer.inbox.len()) } else { 0 };
        if random.once_in(10) {
            return peer.inbox.get(at).cloned();
        }
        let taken = peer.inbox.remove(at);
        if random.once_in(8) {
            return None;
        }
        taken
    }
}

impl Peer {
    fn new(conv: u32, stream: bool, rcv: u32, snd: u32, random: &mut Random) -> Peer {
        let mut kcp = if stream { Kcp::new_stream(conv, Sink::default()) } else { Kcp::new(conv, Sink::default()) };
        let mut s = State::default();
        kcp_judge::inside::read(&kcp, &mut s);
        s.rcv_nxt = rcv;
        s.snd_una = snd;
        s.snd_nxt = snd;
        kcp_judge::inside::lay(&mut kcp, &s);
        kcp.set_nodelay(random.once_in(2), 10, random.below(3) as i32, random.once_in(2));
        kcp.set_wndsize(random.pick(&[4, 32, 128]), 128);
        let _ = kcp.set_mtu(random.pick(&[100, 300, 1400]));
        Peer { kcp, inbox: VecDeque::new() }
    }

    /// Reads, writes and sends as a user at the other end would.
    fn live(&mut self, clock: u32, random: &mut Random) {
        let mut buffer = [0; 4096];
        if random.once_in(2) {
            let _ = self.kcp.recv(&mut buffer);
        }
        if random.once_in(3) && self.kcp.wait_snd() < 64 {
            let n = random.below(400);
            let _ = self.kcp.send(&buffer[..n]);
        }
        let _ = self.kcp.update(clock);
        let sink = kcp_judge::inside::output(&mut self.kcp);
        self.inbox.extend(sink.datagrams.iter().map(|d| d.to_vec()));
        sink.datagrams.clear();
        while self.inbox.len() > 64 {
            self.inbox.pop_front();
        }
    }
}
