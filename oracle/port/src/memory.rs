//! The memory that a host lends to the port, and a state laid into it and read back.
//!
//! A block is a list of words, in which `NUMBERS` says where each of its numbers stands. Each side is lent a ring of slots: records,
//! and 1,476 bytes for each slot. Index i of a ring stands at the place (start + i) mod slots. A slot has a mark: 0 where nothing
//! stands, and n + 1 where a payload of n bytes does.
//!
//! - Receive ring: one word for each slot, mark * 65,536 + frg. The first indices are the queue, and behind it each distance past
//!   rcv_nxt has an index, as far as the ring reaches: held, or empty. So numbers are not stored.
//! - Send ring: the marks of all slots, and behind them eight numbers for each slot. The first indices are in flight, as far as the
//!   ring reaches, with gaps where an ack took a segment out of the middle; behind them stand those that wait, without gaps.
//!
//! What stands at other places is no fault, and nothing reads it. A state is laid where a random number says: at any start, most of
//! them such that the wrap falls among what is in use, with gaps in flight, and with stale words at every other place. The random
//! number is made of the state, so that a script that is run again finds the same places.

use driver::call::{Sizes, Tuned, PUSH};
use driver::random::Random;
use state::{Segment, State, Touched};

pub const ROOM: usize = 1476;
pub const WAITING: usize = 1500;
/// How many words a block has.
pub const WORDS: usize = 35;
/// What a mark counts for in the word of a receive slot; the frg is below it.
pub const MARK: u32 = 65536;
/// The largest mark of a payload that fits.
pub const MOST: u32 = ROOM as u32 + 1;
/// The numbers of a send slot behind the marks: conv, frg, sn, ts, resendts, rto, fastack, xmit.
pub const ROW: usize = 8;
/// The bits of word 0 that are flags; the others are 0.
const FLAGS: u32 = 64;

/// Where a number stands: its word, its lowest bit there, and its largest value.
#[derive(Clone, Copy, PartialEq, Eq, Debug)]
pub struct Spot {
    word: usize,
    low: u32,
    most: u32,
}

impl Spot {
    #[inline]
    pub fn of(self, words: &[u32]) -> u32 {
        words[self.word] >> self.low & self.most
    }

    #[inline]
    fn put(self, words: &mut [u32], value: u32) {
        assert!(value <= self.most, "word {} has no room for {}", self.word, value);
        words[self.word] = words[self.word] & !(self.most << self.low) | value << self.low;
    }
}

macro_rules! numbers {
    ($($spot:ident $name:ident $word:literal $low:literal $bits:literal;)*) => {
        /// The spot of each number, under its name.
        pub mod at {
            use super::Spot;
            $(pub const $spot: Spot = Spot { word: $word, low: $low, most: u32::MAX >> (32 - $bits) };)*
        }

        /// All numbers by name.
        pub const NUMBERS: [(&str, Spot); 43] = [$((stringify!($name), at::$spot)),*];
    };
}

// name, word, lowest bit there, and how many bits
numbers! {
    NODELAY nodelay 0 0 1; NOCWND nocwnd 0 1 1; STREAM stream 0 2 1; INPUT_CONV input_conv 0 3 1; UPDATED updated 0 4 1;
    DEAD dead 0 5 1; MTU mtu 1 0 32; MSS mss 2 0 32; PROBE_WAIT probe_wait 3 0 32; RCV_NXT rcv_nxt 4 0 32;
    RCV_WND rcv_wnd 5 0 16; LARGEST largest 5 16 16; RCV_START rcv_start 6 0 32; QUEUED queued 7 0 32;
    RCV_REACH rcv_reach 8 0 32; SND_START snd_start 9 0 32; SND_REACH snd_reach 10 0 32; FLYING flying 11 0 32;
    UNSENT unsent 12 0 32; ACKS acks 13 0 32; WAITING waiting 14 0 32; PROBE probe 15 0 32; CONV conv 16 0 32;
    SND_UNA snd_una 17 0 32; SND_NXT snd_nxt 18 0 32; SND_WND snd_wnd 19 0 16; RMT_WND rmt_wnd 19 16 16; CWND cwnd 20 0 16;
    SSTHRESH ssthresh 20 16 16; INCR_LOW incr_low 21 0 32; INCR_HIGH incr_high 22 0 32; RX_SRTT rx_srtt 23 0 32;
    RX_RTTVAL rx_rttval 24 0 32; RX_RTO rx_rto 25 0 32; RX_MINRTO rx_minrto 26 0 32; CURRENT current 27 0 32;
    INTERVAL interval 28 0 32; TS_FLUSH ts_flush 29 0 32; TS_PROBE ts_probe 30 0 32; XMIT xmit 31 0 32;
    FASTRESEND fastresend 32 0 32; FASTLIMIT fastlimit 33 0 32; DEAD_LINK dead_link 34 0 32;
}

/// Where the number of that name stands.
fn spot(name: &str) -> Spot {
    match NUMBERS.iter().find(|n| n.0 == name) {
        Some(n) => n.1,
        None => panic!("a block has no number called '{}'", name),
    }
}

/// The largest value of the number of that name.
pub fn most(name: &str) -> u32 {
    spot(name).most
}

/// The number of that name among the words of a block.
pub fn number_of(words: &[u32], name: &str) -> u32 {
    spot(name).of(words)
}

/// The places of a ring's indices.
#[derive(Clone, Copy, PartialEq, Eq, Debug)]
pub struct Places {
    pub slots: usize,
    pub start: usize,
}

impl Places {
    #[inline]
    pub fn place(self, i: usize) -> usize {
        let at = self.start + i;
        // a division is dear where many places are looked at
        if at < self.slots {
            at
        } else if at < 2 * self.slots {
            at - self.slots
        } else {
            at % self.slots
        }
    }

    /// The index that stands at a place.
    #[inline]
    pub fn index(self, place: usize) -> usize {
        if self.start <= place && place < self.slots {
            return place - self.start;
        }
        (place + self.slots - self.start % self.slots) % self.slots
    }
}

#[derive(Clone, Copy, PartialEq, Eq, Debug)]
pub struct RcvRing {
    pub places: Places,
    pub queued: usize,
    pub reach: usize,
}

#[derive(Clone, Copy, PartialEq, Eq, Debug)]
pub struct SndRing {
    pub places: Places,
    pub reach: usize,
    pub flying: usize,
    pub unsent: usize,
}

impl RcvRing {
    pub fn of(words: &[u32], slots: usize) -> RcvRing {
        let number = |spot: Spot| spot.of(words) as usize;
        RcvRing { places: Places { slots, start: number(at::RCV_START) }, queued: number(at::QUEUED), reach: number(at::RCV_REACH) }
    }

    /// The first index behind what is in use.
    pub fn end(&self) -> usize {
        self.queued + self.reach
    }
}

impl SndRing {
    pub fn of(words: &[u32], slots: usize) -> SndRing {
        let number = |spot: Spot| spot.of(words) as usize;
        SndRing {
            places: Places { slots, start: number(at::SND_START) },
            reach: number(at::SND_REACH),
            flying: number(at::FLYING),
            unsent: number(at::UNSENT),
        }
    }

    pub fn end(&self) -> usize {
        self.reach + self.unsent
    }

    pub fn segments(&self) -> usize {
        self.flying + self.unsent
    }

    /// The first that wait are in flight, as many as the state says.
    fn launch(&mut self, s: &State) {
        let more = s.snd_buf.len() - self.flying;
        self.reach += more;
        self.flying += more;
        self.unsent -= more;
    }
}

/// What one side is lent.
#[derive(Clone, PartialEq, Eq)]
pub struct Lent {
    pub records: Vec<u32>,
    pub room: Vec<u8>,
}

/// What old contents look like.
const STALE: u32 = 0xDEAD_BEEF;

impl Lent {
    /// So many slots, with so many numbers for each.
    pub fn new(slots: usize, width: usize) -> Lent {
        Lent { records: vec![STALE; slots * width], room: vec![0xEE; slots * ROOM] }
    }

    /// How many bytes so many slots have.
    pub fn bytes(slots: usize) -> usize {
        slots * ROOM
    }

    pub fn resize(&mut self, slots: usize, width: usize) {
        self.records.resize(slots * width, 0);
        self.room.resize(slots * ROOM, 0);
    }

    /// The payload at a place whose slot has this mark; no more than the slot's bytes.
    fn payload(&self, place: usize, mark: u32) -> &[u8] {
        &self.room[place * ROOM..][..length_of(mark).min(ROOM)]
    }

    fn put_payload(&mut self, place: usize, data: &[u8]) {
        self.room[place * ROOM..][..data.len()].copy_from_slice(data);
    }
}

fn mark_of(s: &Segment) -> u32 {
    s.len as u32 + 1
}

/// The length of the payload that a mark stands for.
fn length_of(mark: u32) -> usize {
    mark.saturating_sub(1) as usize
}

/// The word of a receive slot.
fn word_of(s: &Segment) -> u32 {
    mark_of(s) * MARK + s.frg as u32
}

/// The numbers of a send slot.
fn row_of(s: &Segment) -> [u32; ROW] {
    [s.conv, s.frg as u32, s.sn, s.ts, s.resendts, s.rto, s.fastack, s.xmit]
}

fn of_row(n: &[u32], cmd: u8, mark: u32) -> Segment {
    Segment {
        len: length_of(mark),
        conv: n[0],
        cmd,
        frg: n[1] as u8,
        sn: n[2],
        ts: n[3],
        resendts: n[4],
        rto: n[5],
        fastack: n[6],
        xmit: n[7],
        ..Segment::default()
    }
}

/// The words of a block in this state; those of the rings are 0.
fn words_of(s: &State) -> [u32; WORDS] {
    let incr = s.incr as u64;
    let numbers = [
        (at::NODELAY, s.nodelay as u32), (at::NOCWND, s.nocwnd as u32), (at::STREAM, s.stream as u32),
        (at::INPUT_CONV, s.input_conv as u32), (at::UPDATED, s.updated as u32), (at::DEAD, (s.state != 0) as u32),
        (at::MTU, s.mtu as u32), (at::MSS, s.mss as u32), (at::PROBE_WAIT, s.probe_wait), (at::RCV_NXT, s.rcv_nxt),
        (at::RCV_WND, s.rcv_wnd as u32), (at::LARGEST, s.largest as u32), (at::ACKS, s.acklist.len() as u32),
        (at::WAITING, s.buf.len() as u32), (at::PROBE, s.probe), (at::CONV, s.conv), (at::SND_UNA, s.snd_una),
        (at::SND_NXT, s.snd_nxt), (at::SND_WND, s.snd_wnd as u32), (at::RMT_WND, s.rmt_wnd as u32), (at::CWND, s.cwnd as u32),
        (at::SSTHRESH, s.ssthresh as u32), (at::INCR_LOW, incr as u32), (at::INCR_HIGH, (incr >> 32) as u32),
        (at::RX_SRTT, s.rx_srtt), (at::RX_RTTVAL, s.rx_rttval), (at::RX_RTO, s.rx_rto), (at::RX_MINRTO, s.rx_minrto),
        (at::CURRENT, s.current), (at::INTERVAL, s.interval), (at::TS_FLUSH, s.ts_flush), (at::TS_PROBE, s.ts_probe),
        (at::XMIT, s.xmit), (at::FASTRESEND, s.fastresend), (at::FASTLIMIT, s.fastlimit), (at::DEAD_LINK, s.dead_link),
    ];
    let mut words = [0; WORDS];
    for (spot, value) in numbers.iter() {
        spot.put(&mut words, *value);
    }
    words
}

/// Overwrites segments, and keeps the memory of their payloads.
fn refill<'a>(into: &mut Vec<Segment>, from: impl Iterator<Item = (Segment, &'a [u8])>) {
    let mut n = 0;
    for (numbers, data) in from {
        if n == into.len() {
            into.push(Segment::default());
        }
        into[n].set(numbers, data);
        n += 1;
    }
    into.truncate(n);
}

// ---- where a state is laid

/// The starts of the rings, how far the receive ring reaches past the last held segment, how many gaps stand behind each segment in
/// flight, and what the stale words are made of.
#[derive(Clone, PartialEq, Eq, Debug)]
pub struct Shape {
    pub rcv_start: usize,
    pub past: usize,
    pub snd_start: usize,
    pub gaps: Vec<usize>,
    pub stale: u64,
}

/// How far the held segments lie past the next number awaited.
fn distances(s: &State) -> impl Iterator<Item = usize> + '_ {
    s.rcv_buf.iter().map(move |x| x.sn.wrapping_sub(s.rcv_nxt) as usize)
}

/// How far the receive ring must reach.
fn reach_of(s: &State) -> usize {
    distances(s).last().map_or(0, |d| d + 1)
}

impl Shape {
    /// All from the first place on, and no gaps.
    pub fn plain(s: &State) -> Shape {
        Shape { rcv_start: 0, past: 0, snd_start: 0, gaps: vec![0; s.snd_buf.len()], stale: 0 }
    }

    pub fn random(r: &mut Random, s: &State, sizes: Sizes) -> Shape {
        let (flying, unsent) = (s.snd_buf.len(), s.snd_queue.len());
        let gaps = random_gaps(r, flying, sizes.send - flying - unsent);
        let past = if r.once_in(4) { r.below(s.largest as usize - reach_of(s) + 1) } else { 0 };
        let received = s.rcv_queue.len() + reach_of(s) + past;
        let to_send = flying + unsent + gaps.iter().sum::<usize>();
        let (rcv_start, snd_start) = (random_start(r, sizes.receive, received), random_start(r, sizes.send, to_send));
        Shape { rcv_start, past, snd_start, gaps, stale: r.next() }
    }

    /// The random shape that this state is laid in.
    pub fn of(s: &State, sizes: Sizes) -> Shape {
        Shape::random(&mut Random::new(Shape::seed(s)), s, sizes)
    }

    /// A number made of the state.
    pub fn seed(s: &State) -> u64 {
        let lengths = [s.rcv_queue.len(), s.rcv_buf.len(), s.snd_buf.len(), s.snd_queue.len(), s.acklist.len()];
        let numbers = [s.rcv_nxt, s.snd_una, s.snd_nxt, s.current, s.xmit];
        let all = lengths.iter().map(|n| *n as u64).chain(numbers.iter().map(|n| *n as u64));
        all.fold(0, |seed, n| Random::new(seed ^ n).next())
    }
}

/// Any start, or one by which the wrap falls among the indices in use or just behind them.
fn random_start(r: &mut Random, slots: usize, used: usize) -> usize {
    if r.once_in(3) {
        return r.below(slots);
    }
    (slots - r.below(used + 1)) % slots
}

/// Gaps behind each segment in flight; there may be so many in all.
fn random_gaps(r: &mut Random, flying: usize, free: usize) -> Vec<usize> {
    let mut gaps = vec![0; flying];
    if flying > 0 {
        let most = r.pick(&[0, 0, 1, 3, free / 2, free]).min(free);
        let count = if r.once_in(2) { most } else { r.below(most + 1) };
        let behind = if r.once_in(2) { r.below(flying) } else { flying };
        for _ in 0..count {
            let i = if behind < flying { behind } else { r.below(flying) };
            gaps[i] += 1;
        }
    }
    gaps
}

/// Stale words, of which some look as if they were in use.
fn stale(r: &mut Random, words: &mut [u32], seems: fn(&mut Random) -> u32) {
    for word in words {
        *word = match r.below(4) {
            0 => STALE,
            1 => r.word(),
            2 => 0,
            _ => seems(r),
        };
    }
}

// ---- the memory

#[derive(Clone, PartialEq, Eq)]
pub struct Memory {
    pub words: Vec<u32>,
    pub receive: Lent,
    pub send: Lent,
    pub acks: Vec<u32>,
    pub waiting: Vec<u8>,
}

impl Memory {
    pub fn new(sizes: Sizes) -> Memory {
        Memory {
            words: vec![STALE; WORDS],
            receive: Lent::new(sizes.receive, 1),
            send: Lent::new(sizes.send, 1 + ROW),
            acks: vec![STALE; 2 * sizes.acks],
            waiting: vec![0xEE; WAITING],
        }
    }

    /// The sizes of what is lent.
    pub fn sizes(&self) -> Sizes {
        Sizes { receive: self.receive.records.len(), send: self.send.records.len() / (1 + ROW), acks: self.acks.len() / 2 }
    }

    /// The bytes of all that is lent, the words of the block among them.
    pub fn bytes(&self) -> usize {
        let lent = |l: &Lent| 4 * l.records.len() + l.room.len();
        4 * (self.words.len() + self.acks.len()) + self.waiting.len() + lent(&self.receive) + lent(&self.send)
    }

    pub fn number(&self, name: &str) -> u32 {
        number_of(&self.words, name)
    }

    pub fn set_number(&mut self, name: &str, value: u32) {
        self.put(spot(name), value)
    }

    pub fn at(&self, spot: Spot) -> u32 {
        spot.of(&self.words)
    }

    pub fn put(&mut self, spot: Spot, value: u32) {
        spot.put(&mut self.words, value)
    }

    pub fn rcv_ring(&self) -> RcvRing {
        RcvRing::of(&self.words, self.sizes().receive)
    }

    pub fn snd_ring(&self) -> SndRing {
        SndRing::of(&self.words, self.sizes().send)
    }

    /// The word at an index of the receive ring, and the mark at one of the send ring.
    pub fn received(&mut self, i: usize) -> &mut u32 {
        let place = self.rcv_ring().places.place(i);
        &mut self.receive.records[place]
    }

    pub fn mark(&mut self, i: usize) -> &mut u32 {
        let place = self.snd_ring().places.place(i);
        &mut self.send.records[place]
    }

    /// The places of the segments in flight.
    fn flying(&self) -> impl Iterator<Item = usize> + '_ {
        let ring = self.snd_ring();
        let place = move |i| ring.places.place(i);
        // were the port to leave numbers that no ring has, the places are still those of slots
        (0..ring.reach.min(ring.places.slots)).map(place).filter(move |place| self.send.records[*place] != 0)
    }

    /// The places of those that wait.
    fn unsent(&self) -> impl Iterator<Item = usize> + '_ {
        let ring = self.snd_ring();
        let slots = ring.places.slots;
        (ring.reach.min(slots)..ring.end().min(slots)).map(move |i| ring.places.place(i))
    }

    fn row_at(&mut self, place: usize) -> &mut [u32] {
        let slots = self.sizes().send;
        &mut self.send.records[slots + place * ROW..][..ROW]
    }

    /// The indices of the receive ring at which segments are held.
    fn held_indices(&self) -> impl Iterator<Item = usize> + '_ {
        let ring = self.rcv_ring();
        let slots = ring.places.slots;
        (ring.queued.min(slots)..ring.end().min(slots)).filter(move |i| self.receive.records[ring.places.place(*i)] >= MARK)
    }

    /// How many segments are held.
    pub fn held(&self) -> usize {
        self.held_indices().count()
    }

    // ---- laying

    /// Whether the state has a place in memory of this size: every state that the domain of equality allows has one.
    pub fn fits(&self, s: &State) -> bool {
        let first = s.rcv_nxt.wrapping_sub(s.rcv_queue.len() as u32);
        s.rcv_queue.iter().enumerate().all(|(i, x)| x.sn == first.wrapping_add(i as u32))
            && s.rcv_queue.len() <= s.largest as usize
            && distances(s).all(|d| d < s.largest as usize)
            && 2 * s.largest as usize <= self.sizes().receive
            && s.snd_buf.len() + s.snd_queue.len() <= self.sizes().send
            && s.acklist.len() <= self.sizes().acks
            && s.buf.len() <= self.waiting.len()
            && s.rcv_queue.iter().chain(&s.rcv_buf).chain(&s.snd_buf).chain(&s.snd_queue).all(|x| x.len <= ROOM && x.len == x.data.len())
    }

    /// Lays the state, which must fit. Where its segments stand in their slots already, these stay, if that is wanted: so long runs
    /// of the port's calls use the slots that the port chose, also where other calls come between them.
    pub fn lay(&mut self, s: &State, stay: bool) {
        let shape = Shape::of(s, self.sizes());
        let stands = stay && self.stands(s);
        let rcv = if stands { self.rcv_ring() } else { self.lay_received(s, &shape) };
        let launched = if stay { self.launched(s) } else { None };
        let snd = launched.unwrap_or_else(|| self.lay_to_send(s, &shape));
        self.lay_rest(s, rcv, snd);
    }

    /// Lays the state in this shape.
    pub fn lay_as(&mut self, s: &State, shape: &Shape) {
        let (rcv, snd) = (self.lay_received(s, shape), self.lay_to_send(s, shape));
        self.lay_rest(s, rcv, snd);
    }

    /// Lays the numbers of a state whose segments stand in their slots already, as after a flush: which are the same and in the
    /// same order, and have not changed their payloads.
    pub fn lay_numbers(&mut self, s: &State) {
        let (rcv, mut snd) = (self.rcv_ring(), self.snd_ring());
        snd.launch(s);
        self.lay_rest(s, rcv, snd);
    }

    /// Whether the receive ring holds just what the state has received.
    fn stands(&self, s: &State) -> bool {
        if self.receive_fault().is_some() {
            return false;
        }
        let ring = self.rcv_ring();
        if ring.queued != s.rcv_queue.len() || ring.reach < reach_of(s) || ring.reach > s.largest as usize {
            return false;
        }
        let is = |i: usize, x: Option<&Segment>| {
            let place = ring.places.place(i);
            let word = self.receive.records[place];
            x.map_or(word < MARK, |x| word == word_of(x) && self.receive.payload(place, word / MARK) == &x.data[..])
        };
        let mut held = s.rcv_buf.iter().zip(distances(s)).peekable();
        s.rcv_queue.iter().enumerate().all(|(i, x)| is(i, Some(x)))
            && (0..ring.reach).all(|d| {
                let here = held.peek().map_or(false, |x| x.1 == d);
                is(ring.queued + d, if here { held.next().map(|x| x.0) } else { None })
            })
    }

    /// The send ring, if it holds just what the state is to send, of which some that waited may be in flight now.
    fn launched(&self, s: &State) -> Option<SndRing> {
        let mut ring = self.snd_ring();
        if self.send_fault().is_some() || ring.segments() != s.snd_buf.len() + s.snd_queue.len() || ring.flying > s.snd_buf.len() {
            return None;
        }
        let is = |(place, x): (usize, &Segment)| {
            let mark = self.send.records[place];
            mark == mark_of(x) && self.send.payload(place, mark) == &x.data[..]
        };
        if !self.flying().chain(self.unsent()).zip(s.snd_buf.iter().chain(&s.snd_queue)).all(is) {
            return None;
        }
        ring.launch(s);
        Some(ring)
    }

    fn lay_received(&mut self, s: &State, shape: &Shape) -> RcvRing {
        let places = Places { slots: self.sizes().receive, start: shape.rcv_start };
        let ring = RcvRing { places, queued: s.rcv_queue.len(), reach: reach_of(s) + shape.past };
        stale(&mut Random::new(shape.stale), &mut self.receive.records, |r| r.between(1, MOST) * MARK + r.below(256) as u32);
        for i in ring.queued..ring.end() {
            // an empty one may have any frg
            self.receive.records[places.place(i)] %= MARK;
        }
        let held = s.rcv_buf.iter().zip(distances(s)).map(|(x, d)| (ring.queued + d, x));
        for (i, x) in s.rcv_queue.iter().enumerate().chain(held) {
            self.receive.records[places.place(i)] = word_of(x);
            self.receive.put_payload(places.place(i), &x.data);
        }
        ring
    }

    fn lay_to_send(&mut self, s: &State, shape: &Shape) -> SndRing {
        let places = Places { slots: self.sizes().send, start: shape.snd_start };
        stale(&mut Random::new(!shape.stale), &mut self.send.records[..places.slots], |r| r.between(1, MOST));
        let mut end = 0;
        for (x, gaps) in s.snd_buf.iter().zip(&shape.gaps) {
            self.lay_segment(places.place(end), x);
            (end + 1..=end + gaps).for_each(|i| self.send.records[places.place(i)] = 0);
            end += 1 + gaps;
        }
        for (i, x) in s.snd_queue.iter().enumerate() {
            self.lay_segment(places.place(end + i), x);
        }
        SndRing { places, reach: end, flying: s.snd_buf.len(), unsent: s.snd_queue.len() }
    }

    fn lay_segment(&mut self, place: usize, x: &Segment) {
        self.send.records[place] = mark_of(x);
        self.send.put_payload(place, &x.data);
    }

    /// Lays all but the payloads.
    fn lay_rest(&mut self, s: &State, rcv: RcvRing, snd: SndRing) {
        for (i, (sn, ts)) in s.acklist.iter().enumerate() {
            self.acks[2 * i] = *sn;
            self.acks[2 * i + 1] = *ts;
        }
        self.waiting[..s.buf.len()].copy_from_slice(&s.buf);
        self.lay_words(s);
        let rings = [
            (at::RCV_START, rcv.places.start), (at::QUEUED, rcv.queued), (at::RCV_REACH, rcv.reach), (at::SND_START, snd.places.start),
            (at::SND_REACH, snd.reach), (at::FLYING, snd.flying), (at::UNSENT, snd.unsent),
        ];
        for (spot, value) in rings.iter() {
            self.put(*spot, *value as u32);
        }
        self.lay_rows(s, snd);
    }

    /// Lays the numbers of the segments to send, whose marks stand.
    fn lay_rows(&mut self, s: &State, snd: SndRing) {
        let slots = snd.places.slots;
        let (marks, rows) = self.send.records.split_at_mut(slots);
        let flying = (0..snd.reach).map(|i| snd.places.place(i)).filter(|place| marks[*place] != 0);
        let unsent = (snd.reach..snd.end()).map(|i| snd.places.place(i));
        for (place, x) in flying.chain(unsent).zip(s.snd_buf.iter().chain(&s.snd_queue)) {
            rows[place * ROW..][..ROW].copy_from_slice(&row_of(x));
        }
    }

    /// Lays the words, but for those of the rings.
    fn lay_words(&mut self, s: &State) {
        self.words.clear();
        self.words.extend_from_slice(&words_of(s));
    }

    /// Sets one number of the block, as `Call::Tune` asks; a segment that is not there is left out of it.
    pub fn tune(&mut self, what: Tuned, value: u64) {
        let low = value as u32;
        match what {
            Tuned::Cwnd => self.put(at::CWND, value as u16 as u32),
            Tuned::Ssthresh => self.put(at::SSTHRESH, value as u16 as u32),
            Tuned::Incr => {
                self.put(at::INCR_LOW, low);
                self.put(at::INCR_HIGH, (value >> 32) as u32);
            }
            Tuned::RxRto => self.put(at::RX_RTO, low),
            Tuned::Ahead => self.put(at::SND_NXT, self.at(at::SND_UNA).wrapping_add(low)),
            Tuned::Rto(i) => self.tune_row(i, 5, low),
            Tuned::Fastack(i) => self.tune_row(i, 6, low),
            Tuned::Xmit(i) => self.tune_row(i, 7, low),
        }
    }

    fn tune_row(&mut self, i: usize, column: usize, value: u32) {
        let place = self.flying().nth(i);
        if let Some(place) = place {
            self.row_at(place)[column] = value;
        }
    }

    // ---- reading

    /// The state that the memory holds.
    pub fn read(&self, s: &mut State) {
        self.read_parts(s, true)
    }

    /// The same without the payloads, of which each is read as empty.
    pub fn read_numbers(&self, s: &mut State) {
        self.read_parts(s, false)
    }

    fn read_parts(&self, s: &mut State, whole: bool) {
        self.read_words(s);
        self.read_received(s, whole);
        self.read_to_send(s, whole);
        let acks = (self.at(at::ACKS) as usize).min(self.sizes().acks);
        s.acklist.clear();
        s.acklist.extend((0..acks).map(|i| (self.acks[2 * i], self.acks[2 * i + 1])));
        s.buf.clear();
        s.buf.extend_from_slice(&self.waiting[..(self.at(at::WAITING) as usize).min(self.waiting.len())]);
    }

    fn read_words(&self, s: &mut State) {
        let w = |spot: Spot| self.at(spot);
        s.conv = w(at::CONV);
        s.mtu = w(at::MTU) as usize;
        s.mss = w(at::MSS) as usize;
        s.state = -(w(at::DEAD) as i32);
        s.snd_una = w(at::SND_UNA);
        s.snd_nxt = w(at::SND_NXT);
        s.rcv_nxt = w(at::RCV_NXT);
        s.ssthresh = w(at::SSTHRESH) as u16;
        s.rx_rttval = w(at::RX_RTTVAL);
        s.rx_srtt = w(at::RX_SRTT);
        s.rx_rto = w(at::RX_RTO);
        s.rx_minrto = w(at::RX_MINRTO);
        s.snd_wnd = w(at::SND_WND) as u16;
        s.rcv_wnd = w(at::RCV_WND) as u16;
        s.rmt_wnd = w(at::RMT_WND) as u16;
        s.cwnd = w(at::CWND) as u16;
        s.probe = w(at::PROBE);
        s.current = w(at::CURRENT);
        s.interval = w(at::INTERVAL);
        s.ts_flush = w(at::TS_FLUSH);
        s.xmit = w(at::XMIT);
        s.nodelay = w(at::NODELAY) != 0;
        s.updated = w(at::UPDATED) != 0;
        s.ts_probe = w(at::TS_PROBE);
        s.probe_wait = w(at::PROBE_WAIT);
        s.dead_link = w(at::DEAD_LINK);
        s.incr = w(at::INCR_LOW) as usize | (w(at::INCR_HIGH) as usize) << 32;
        s.fastresend = w(at::FASTRESEND);
        s.fastlimit = w(at::FASTLIMIT);
        s.nocwnd = w(at::NOCWND) != 0;
        s.stream = w(at::STREAM) != 0;
        s.input_conv = w(at::INPUT_CONV) != 0;
        s.largest = w(at::LARGEST) as u16;
    }

    fn read_received(&self, s: &mut State, whole: bool) {
        let ring = self.rcv_ring();
        let first = s.rcv_nxt.wrapping_sub(ring.queued as u32);
        let at = |i: usize| {
            let place = ring.places.place(i);
            let word = self.receive.records[place];
            let (sn, len) = (first.wrapping_add(i as u32), length_of(word / MARK));
            let numbers = Segment { sn, frg: word as u8, len, ..Segment::default() };
            (word >= MARK, numbers, self.receive.payload(place, if whole { word / MARK } else { 0 }))
        };
        // were the port to leave numbers that no ring has, they would still be read, and told as a difference
        let (queued, end) = (ring.queued.min(ring.places.slots), ring.end().min(ring.places.slots));
        refill(&mut s.rcv_queue, (0..queued).map(at).map(|(_, numbers, data)| (numbers, data)));
        refill(&mut s.rcv_buf, (queued..end).map(at).filter(|x| x.0).map(|(_, numbers, data)| (numbers, data)));
    }

    fn read_to_send(&self, s: &mut State, whole: bool) {
        let slots = self.sizes().send;
        let at = |place: usize, cmd: u8| {
            let (mark, row) = (self.send.records[place], &self.send.records[slots + place * ROW..][..ROW]);
            (of_row(row, cmd, mark), self.send.payload(place, if whole { mark } else { 0 }))
        };
        refill(&mut s.snd_buf, self.flying().map(|place| at(place, PUSH)));
        refill(&mut s.snd_queue, self.unsent().map(|place| at(place, 0)));
    }

    // ---- comparing

    /// Whether the memory holds that state, but for the payloads and for what the port does not keep; of the lists those that are
    /// touched are looked at.
    pub fn agrees(&self, s: &State, touched: Touched) -> bool {
        self.own_agree(s) && (!touched.received || self.received_agree(s)) && (!touched.to_send || self.to_send_agree(s))
    }

    /// Whether the block's own numbers, the lengths of its lists, the acks and the waiting bytes are those of the state.
    fn own_agree(&self, s: &State) -> bool {
        let (words, rings) = (words_of(s), at::RCV_START.word..at::UNSENT.word + 1);
        let n = |spot: Spot| self.at(spot) as usize;
        let (acks, waiting) = (s.acklist.len(), s.buf.len());
        self.words.len() == WORDS
            && self.words[..rings.start] == words[..rings.start]
            && self.words[rings.end..] == words[rings.end..]
            && (n(at::QUEUED), n(at::FLYING), n(at::UNSENT)) == (s.rcv_queue.len(), s.snd_buf.len(), s.snd_queue.len())
            && acks <= self.sizes().acks
            && self.acks.chunks(2).zip(&s.acklist).all(|(pair, ack)| pair == [ack.0, ack.1])
            && waiting <= self.waiting.len()
            && self.waiting[..waiting] == s.buf[..]
    }

    fn received_agree(&self, s: &State) -> bool {
        let ring = self.rcv_ring();
        if ring.end() > ring.places.slots {
            return false;
        }
        let first = s.rcv_nxt.wrapping_sub(ring.queued as u32);
        let is = |i: usize, x: &Segment| {
            self.receive.records[ring.places.place(i)] == word_of(x) && x.sn == first.wrapping_add(i as u32)
        };
        let held = self.held_indices();
        s.rcv_queue.iter().enumerate().all(|(i, x)| is(i, x))
            && self.held_indices().count() == s.rcv_buf.len()
            && held.zip(&s.rcv_buf).all(|(i, x)| is(i, x))
    }

    fn to_send_agree(&self, s: &State) -> bool {
        let slots = self.sizes().send;
        let is = |(place, x): (usize, &Segment)| {
            self.send.records[place] == mark_of(x) && self.send.records[slots + place * ROW..][..ROW] == row_of(x)
        };
        self.flying().count() == s.snd_buf.len()
            && self.flying().zip(&s.snd_buf).all(is)
            && self.unsent().count() == s.snd_queue.len()
            && self.unsent().zip(&s.snd_queue).all(is)
    }

    /// All payloads: queue and held, in flight and waiting.
    pub fn payloads(&self) -> impl Iterator<Item = &[u8]> + '_ {
        let ring = self.rcv_ring();
        let received = (0..ring.queued.min(ring.places.slots)).chain(self.held_indices()).map(move |i| {
            let place = ring.places.place(i);
            self.receive.payload(place, self.receive.records[place] / MARK)
        });
        received.chain(self.flying().chain(self.unsent()).map(move |place| self.send.payload(place, self.send.records[place])))
    }

    /// The payload of the received segment with this number, in the queue or held.
    pub fn stored(&self, sn: u32) -> Option<&[u8]> {
        let ring = self.rcv_ring();
        // where the queue begins, as a number
        let first = self.at(at::RCV_NXT).wrapping_sub(ring.queued as u32);
        let i = sn.wrapping_sub(first) as usize;
        if i >= ring.end() || ring.end() > ring.places.slots {
            return None;
        }
        let place = ring.places.place(i);
        let word = self.receive.records[place];
        if word < MARK {
            return None;
        }
        Some(self.receive.payload(place, word / MARK))
    }

    /// The payload of a segment that waits to be sent, by its index in the queue.
    pub fn waiting_payload(&self, i: usize) -> Option<&[u8]> {
        let ring = self.snd_ring();
        if i >= ring.unsent || ring.end() > ring.places.slots {
            return None;
        }
        let place = ring.places.place(ring.reach + i);
        Some(self.send.payload(place, self.send.records[place]))
    }

    // ---- what is well formed, and what is refused by 15 since it is not

    /// What is wrong with the block and all that is lent, in words.
    pub fn fault(&self) -> Option<&'static str> {
        self.receive_fault().or_else(|| self.send_fault()).or_else(|| self.ack_fault())
    }

    /// What is wrong with the block alone.
    fn own_fault(&self) -> Option<&'static str> {
        if self.words.len() != WORDS || self.words[0] >= FLAGS {
            return Some("the words are no block");
        }
        let n = |spot: Spot| self.at(spot) as usize;
        let (mtu, window, largest, wait) = (n(at::MTU), n(at::RCV_WND), n(at::LARGEST), n(at::PROBE_WAIT));
        first(&[
            ((50..=1500).contains(&mtu) && n(at::MSS) == mtu.wrapping_sub(24), "mtu or mss"),
            (wait == 0 || (7000..=120_000).contains(&wait), "probe_wait"),
            (128 <= window && window <= largest && largest <= 512, "a receive window"),
            (n(at::QUEUED) <= largest && n(at::RCV_REACH) <= largest && n(at::RCV_START) < 1024, "the receive ring's numbers"),
            (n(at::SND_REACH) + n(at::UNSENT) <= 1024 && n(at::SND_START) < 1024, "the send ring's numbers"),
            (n(at::FLYING) <= n(at::SND_REACH) && (n(at::SND_REACH) == 0 || n(at::FLYING) > 0), "how many are in flight"),
            (n(at::ACKS) <= 4096 && n(at::WAITING) <= WAITING, "acks or waiting bytes"),
        ])
    }

    /// What is wrong with the block and the receive memory.
    pub fn receive_fault(&self) -> Option<&'static str> {
        if let Some(fault) = self.own_fault() {
            return Some(fault);
        }
        let (ring, records) = (self.rcv_ring(), &self.receive.records);
        let slots = records.len();
        if !(256..=1024).contains(&slots) || self.receive.room.len() != slots * ROOM {
            return Some("the size of the receive memory");
        }
        let marks = |from: usize, to: usize, low: u32| (from..to).all(|i| (low..=MOST).contains(&(records[ring.places.place(i)] / MARK)));
        first(&[
            (ring.places.start < slots && 2 * self.at(at::LARGEST) as usize <= slots, "the receive ring beside its slots"),
            (marks(0, ring.queued, 1), "a mark in the queue"),
            (marks(ring.queued, ring.end(), 0), "a mark in the receive ring's reach"),
        ])
    }

    /// What is wrong with the block and the send memory.
    pub fn send_fault(&self) -> Option<&'static str> {
        if let Some(fault) = self.own_fault() {
            return Some(fault);
        }
        let (ring, records) = (self.snd_ring(), &self.send.records);
        let slots = ring.places.slots;
        if !(128..=1024).contains(&slots) || records.len() != slots * (1 + ROW) || self.send.room.len() != slots * ROOM {
            return Some("the size of the send memory");
        }
        if ring.places.start >= slots || ring.end() > slots {
            return Some("the send ring beside its slots");
        }
        let mark = |i: usize| records[ring.places.place(i)];
        first(&[
            ((0..ring.reach).all(|i| mark(i) <= MOST), "a mark in flight"),
            ((ring.reach..ring.end()).all(|i| (1..=MOST).contains(&mark(i))), "a mark of what waits"),
            ((0..ring.reach).filter(|i| mark(*i) > 0).count() == ring.flying, "the count of those in flight"),
            (ring.reach == 0 || mark(0) > 0, "a gap at the front"),
        ])
    }

    fn ack_fault(&self) -> Option<&'static str> {
        first(&[
            (self.acks.len() % 2 == 0 && (128..=4096).contains(&(self.acks.len() / 2)), "the size of the ack list"),
            (self.at(at::ACKS) as usize <= self.acks.len() / 2, "more acks than the list holds"),
            (self.waiting.len() == WAITING, "the size of the waiting bytes"),
        ])
    }
}

/// The first rule that does not hold.
fn first(rules: &[(bool, &'static str)]) -> Option<&'static str> {
    rules.iter().find(|rule| !rule.0).map(|rule| rule.1)
}
