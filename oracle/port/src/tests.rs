//! Lays states into lent memory and reads them back, over states that random calls lead the Rust to. Needs no library of the port.
//! Once oracle/setup has been run, from the repository:
//!     sh -c 'here=$PWD/oracle; . oracle/lib.sh; need_setup; cargo_in port test --release'

use crate::memory::{most, number_of, Memory, Shape, MARK, MOST, NUMBERS, ROOM, ROW, WORDS};
use crate::watch::Shadow;
use driver::call::{Call, Fill, Header, Piece, Sizes, PUSH};
use driver::generator::Generator;
use driver::random::Random;
use driver::side::{Outcome, Side};
use driver::Judge;
use state::{State, Touched};

/// Has the judge make random calls; `see` hears the state before and after each, and the call.
fn over_states(sequences: u64, mut see: impl FnMut(&State, &Call, &State, Sizes)) {
    let (mut judge, mut out) = (Judge::default(), Outcome::new());
    for sequence in 0..sequences {
        let mut generator = Generator::new(7, sequence, None, &[]);
        let (mut before, mut after) = (State::default(), State::default());
        while let Some(call) = generator.next(&before) {
            judge.apply(&call, &mut out);
            judge.read(&mut after);
            see(&before, &call, &after, generator.sizes);
            generator.saw(&out);
            std::mem::swap(&mut before, &mut after);
        }
    }
}

/// What the memory holds is the state, but for what the port does not keep.
fn holds(m: &Memory, s: &State, read: &mut State) {
    let mut wanted = s.clone();
    wanted.forget_unread();
    m.read(read);
    assert_eq!(wanted.differences(read), []);
    assert!(wanted == *read);
    assert!(m.agrees(s, Touched::ALL) && m.payloads().eq(payloads(s)));
}

fn payloads(s: &State) -> impl Iterator<Item = &[u8]> + '_ {
    s.rcv_queue.iter().chain(&s.rcv_buf).chain(&s.snd_buf).chain(&s.snd_queue).map(|x| &x.data[..])
}

/// Other words, numbers and bytes at every place that is not in use, in the rows of gaps and past every payload.
fn scramble(m: &mut Memory, r: &mut Random) {
    let (rcv, snd) = (m.rcv_ring(), m.snd_ring());
    let (slots, more) = (snd.places.slots, r.word() as u8 | 1);
    let past = |room: &mut [u8], place: usize, mark: u32| {
        room[place * ROOM + mark.saturating_sub(1) as usize..(place + 1) * ROOM].iter_mut().for_each(|b| *b = b.wrapping_add(more))
    };
    for i in 0..rcv.places.slots {
        let place = rcv.places.place(i);
        if i >= rcv.end() {
            m.receive.records[place] = r.word();
        }
        past(&mut m.receive.room, place, if i < rcv.end() { m.receive.records[place] / MARK } else { 0 });
    }
    for i in 0..slots {
        let place = snd.places.place(i);
        if i >= snd.end() {
            m.send.records[place] = r.word();
        }
        let mark = if i < snd.end() { m.send.records[place] } else { 0 };
        if mark == 0 {
            m.send.records[slots + place * ROW..][..ROW].iter_mut().for_each(|n| *n = r.word());
        }
        past(&mut m.send.room, place, mark);
    }
}

/// How often each case of a laid state was met.
#[derive(Default, Debug)]
struct Met {
    queue_wraps: usize,
    reach_wraps: usize,
    flight_wraps: usize,
    waiting_wraps: usize,
    gaps: usize,
    many_gaps: usize,
    no_place_behind: usize,
    empty_past: usize,
    holes: usize,
}

impl Met {
    fn note(&mut self, m: &Memory, s: &State) {
        let (rcv, snd) = (m.rcv_ring(), m.snd_ring());
        let wraps = |start: usize, slots: usize, from: usize, to: usize| (start + from < slots && start + to > slots) as usize;
        self.queue_wraps += wraps(rcv.places.start, rcv.places.slots, 0, rcv.queued);
        self.reach_wraps += wraps(rcv.places.start, rcv.places.slots, rcv.queued, rcv.end());
        self.flight_wraps += wraps(snd.places.start, snd.places.slots, 0, snd.reach);
        self.waiting_wraps += wraps(snd.places.start, snd.places.slots, snd.reach, snd.end());
        self.gaps += (snd.reach > snd.flying) as usize;
        self.many_gaps += (snd.reach > snd.flying + 20) as usize;
        self.no_place_behind += (snd.reach > snd.flying && snd.end() == snd.places.slots) as usize;
        let last = s.rcv_buf.last().map_or(0, |x| x.sn.wrapping_sub(s.rcv_nxt) as usize + 1);
        self.empty_past += (rcv.reach > last) as usize;
        self.holes += (last > s.rcv_buf.len()) as usize;
    }

    fn least(&self) -> usize {
        let all = [
            self.queue_wraps, self.reach_wraps, self.flight_wraps, self.waiting_wraps, self.gaps, self.many_gaps, self.no_place_behind,
            self.empty_past, self.holes,
        ];
        all.iter().copied().min().unwrap_or(0)
    }
}

#[test]
fn laid_in_any_shape_and_read() {
    let (mut met, mut r, mut read, mut turn) = (Met::default(), Random::new(1), State::default(), 0);
    let mut m = Memory::new(Sizes { receive: 256, send: 128, acks: 128 });
    over_states(150, |_, _, s, sizes| {
        turn += 1;
        if turn % 7 != 0 {
            return;
        }
        if m.sizes() != sizes {
            m = Memory::new(sizes);
        }
        assert!(m.fits(s));
        m.lay_as(s, &Shape::random(&mut r, s, sizes));
        assert_eq!(m.fault(), None);
        assert_eq!(m.held(), s.rcv_buf.len());
        holds(&m, s, &mut read);
        met.note(&m, s);
        if turn % 49 == 0 {
            scramble(&mut m, &mut r);
            assert_eq!(m.fault(), None);
            holds(&m, s, &mut read);
        }
    });
    println!("{} states: {:?}", turn / 7, met);
    assert!(met.least() > 0);
}

#[test]
fn segments_stay_where_they_stand() {
    let (mut r, mut read, mut stayed, mut launched) = (Random::new(2), State::default(), 0, 0);
    let mut m = Memory::new(Sizes { receive: 256, send: 128, acks: 128 });
    over_states(70, |before, call, after, sizes| {
        let flushes = match call {
            Call::Flush | Call::FlushAck | Call::Update(_) => true,
            _ => false,
        };
        if !flushes {
            return;
        }
        if m.sizes() != sizes {
            m = Memory::new(sizes);
        }
        m.lay_as(before, &Shape::random(&mut r, before, sizes));
        let (was, numbers) = (m.clone(), {
            let mut m = m.clone();
            m.lay_numbers(after);
            m
        });
        m.lay(after, true);
        assert_eq!(m.fault(), None);
        holds(&m, after, &mut read);
        // no payload, mark or word of the receive ring moves; and the numbers alone would have done
        assert!(m.receive == was.receive && m.send.room == was.send.room && m.rcv_ring() == was.rcv_ring());
        let slots = m.snd_ring().places.slots;
        assert!(m.send.records[..slots] == was.send.records[..slots] && m.snd_ring().places == was.snd_ring().places);
        assert!(m == numbers);
        stayed += (after.snd_buf.len() + after.snd_queue.len() > 0) as usize;
        launched += (after.snd_buf.len() > before.snd_buf.len()) as usize;
        // where they are not wanted to stay, or others are there, they are laid anew
        m.lay(after, false);
        assert_eq!(m.fault(), None);
        holds(&m, after, &mut read);
    });
    println!("{} with segments, {} with some launched", stayed, launched);
    assert!(stayed > 0 && launched > 0);
}

#[test]
fn other_segments_are_laid_over_what_stands() {
    let (mut read, mut turn) = (State::default(), 0);
    let mut m = Memory::new(Sizes { receive: 256, send: 128, acks: 128 });
    over_states(100, |_, _, s, sizes| {
        turn += 1;
        if turn % 5 != 0 {
            return;
        }
        if m.sizes() != sizes {
            m = Memory::new(sizes);
        }
        m.lay(s, turn % 2 == 0);
        assert_eq!(m.fault(), None);
        holds(&m, s, &mut read);
    });
}

#[test]
fn payloads_left_out() {
    let (mut r, mut read) = (Random::new(3), State::default());
    let mut m = Memory::new(Sizes { receive: 256, send: 128, acks: 128 });
    over_states(20, |_, _, s, sizes| {
        if m.sizes() != sizes {
            m = Memory::new(sizes);
        }
        m.lay_as(s, &Shape::random(&mut r, s, sizes));
        m.read_numbers(&mut read);
        let mut wanted = s.clone();
        wanted.forget_unread();
        let State { rcv_queue, rcv_buf, snd_buf, snd_queue, .. } = &mut wanted;
        rcv_queue.iter_mut().chain(rcv_buf).chain(snd_buf).chain(snd_queue).for_each(|x| x.data.clear());
        assert!(wanted == read);
    });
}

/// A block with all kinds of segments, acks and waiting bytes.
fn rich(sizes: Sizes) -> State {
    let (mut judge, mut out, mut s) = (Judge::default(), Outcome::new(), State::default());
    judge.apply(&Call::Start { conv: 1, stream: false, rcv: 0, snd: 0, sizes }, &mut out);
    let fill = Fill { len: 5, seed: 1 };
    let head = Header { conv: 1, cmd: PUSH, frg: 0, wnd: 128, ts: 0, sn: 0, una: 0, len: None };
    let push = |sn: u32| Call::Input(vec![Piece::Segment(Header { sn, ..head }, fill)]);
    let mut calls = vec![Call::SetNodelay(true, 10, 0, true), Call::Update(10)];
    calls.extend(vec![Call::Send(fill); 4]);
    calls.push(Call::Flush);
    calls.extend(vec![Call::Send(fill); 2]);
    calls.extend([0, 1].iter().map(|sn| push(*sn)));
    calls.push(Call::FlushAck);
    calls.push(push(3));
    calls.iter().for_each(|call| judge.apply(call, &mut out));
    judge.read(&mut s);
    s
}

/// The comparison is blind to nothing: each number of the memory that a state tells of, changed by itself, is told.
#[test]
fn every_number_counts() {
    let sizes = Sizes { receive: 256, send: 128, acks: 128 };
    let (mut r, s) = (Random::new(5), rich(sizes));
    // where the rings stand is the port's own affair
    let free = ["rcv_start", "rcv_reach", "snd_start", "snd_reach"];
    for _ in 0..20 {
        let mut m = Memory::new(sizes);
        m.lay_as(&s, &Shape::random(&mut r, &s, sizes));
        let (rcv, snd) = (m.rcv_ring(), m.snd_ring());
        let differs = |what: &str, spoil: &mut dyn FnMut(&mut Memory)| {
            let mut bad = m.clone();
            spoil(&mut bad);
            assert!(!bad.agrees(&s, Touched::ALL) || !bad.payloads().eq(payloads(&s)), "{} is not looked at", what);
        };
        for (name, _) in NUMBERS.iter().filter(|n| !free.contains(&n.0)) {
            differs(name, &mut |m| m.set_number(name, m.number(name) ^ 1));
        }
        for i in (0..rcv.end()).filter(|i| m.receive.records[rcv.places.place(*i)] >= MARK) {
            differs("a frg", &mut |m| *m.received(i) ^= 1);
            differs("a length received", &mut |m| *m.received(i) += MARK);
            differs("a payload received", &mut |m| m.receive.room[rcv.places.place(i) * ROOM + 4] ^= 1);
        }
        for i in (0..snd.end()).filter(|i| m.send.records[snd.places.place(*i)] > 0) {
            let place = snd.places.place(i);
            differs("a length to send", &mut |m| *m.mark(i) += 1);
            differs("a payload to send", &mut |m| m.send.room[place * ROOM + 4] ^= 1);
            (0..ROW).for_each(|n| differs("a number to send", &mut |m| m.send.records[128 + place * ROW + n] ^= 1));
        }
        (0..2 * s.acklist.len()).for_each(|i| differs("an ack", &mut |m| m.acks[i] ^= 1));
        (0..s.buf.len()).for_each(|i| differs("a waiting byte", &mut |m| m.waiting[i] ^= 1));
    }
}

/// And each field of a state, changed by itself.
#[test]
fn every_field_counts() {
    let sizes = Sizes { receive: 256, send: 128, acks: 128 };
    let s = rich(sizes);
    let mut m = Memory::new(sizes);
    m.lay_as(&s, &Shape::plain(&s));
    assert!(m.agrees(&s, Touched::ALL));
    macro_rules! counts {
        ($($field:ident)*) => { $( {
            let mut other = s.clone();
            other.$field ^= 1;
            assert!(!m.agrees(&other, Touched { received: false, to_send: false }), stringify!($field));
        } )* };
    }
    counts!(
        conv mtu mss snd_una snd_nxt rcv_nxt ssthresh rx_rttval rx_srtt rx_rto rx_minrto snd_wnd rcv_wnd rmt_wnd cwnd probe current interval
        ts_flush xmit ts_probe probe_wait dead_link incr fastresend fastlimit largest
    );
    let flips: [fn(&mut State); 12] = [
        |s| s.state = -1,
        |s| s.nodelay = !s.nodelay,
        |s| s.updated = !s.updated,
        |s| s.nocwnd = !s.nocwnd,
        |s| s.stream = !s.stream,
        |s| s.input_conv = !s.input_conv,
        |s| s.incr += 1 << 32,
        |s| s.acklist.truncate(0),
        |s| s.buf.truncate(23),
        |s| s.snd_queue.truncate(1),
        |s| s.rcv_queue.truncate(1),
        |s| s.snd_buf.truncate(1),
    ];
    for (i, flip) in flips.iter().enumerate() {
        let mut other = s.clone();
        flip(&mut other);
        assert!(!m.agrees(&other, Touched { received: false, to_send: false }), "flip {}", i);
    }
    let mut other = s.clone();
    other.rcv_buf.clear();
    assert!(!m.agrees(&other, Touched::ALL));
}

/// What no call may write is told after any call that wrote it: at once, or when all is looked over.
#[test]
fn writes_astray_are_found() {
    let sizes = Sizes { receive: 256, send: 128, acks: 128 };
    let s = rich(sizes);
    let shape = Shape { rcv_start: 250, snd_start: 126, gaps: vec![0, 2, 0, 1], ..Shape::plain(&s) };
    let mut m = Memory::new(sizes);
    m.lay_as(&s, &shape);
    let (rcv, snd, row) = (m.rcv_ring().places, m.snd_ring().places, |place: usize, n: usize| 128 + place * ROW + n);
    let spoils: [&dyn Fn(&mut Memory); 12] = [
        &|m| m.receive.records[rcv.place(100)] ^= 1,
        &|m| m.receive.records[rcv.place(0)] ^= 1,
        &|m| m.receive.room[rcv.place(100) * ROOM] ^= 1,
        &|m| m.receive.room[rcv.place(1) * ROOM] ^= 1,
        &|m| m.receive.room[rcv.place(1) * ROOM + 5] ^= 1,
        // of a slot that is not in use, of a gap, of a segment in flight, of one that waits
        &|m| m.send.records[row(snd.place(100), 3)] ^= 1,
        &|m| m.send.records[row(snd.place(2), 7)] ^= 1,
        &|m| m.send.records[row(snd.place(0), 0)] ^= 1,
        &|m| m.send.records[row(snd.place(8), 3)] ^= 1,
        &|m| m.send.room[snd.place(0) * ROOM] ^= 1,
        &|m| m.acks[2] ^= 1,
        &|m| m.waiting[1000] ^= 1,
    ];
    let calls = [
        Call::Input(vec![]), Call::Send(Fill { len: 1, seed: 1 }), Call::Recv(9), Call::Peeksize, Call::MoveBuf, Call::SetWndsize(0, 0),
        Call::SetMtu(100), Call::Flush, Call::Update(9), Call::FlushAck, Call::Check(9),
    ];
    let found = |spoil: &dyn Fn(&mut Memory), call: &Call| {
        let (mut now, mut shadow, out) = (m.clone(), Shadow::of(&m), Outcome::new());
        spoil(&mut now);
        shadow.follow(&now, call, &out).or_else(|| shadow.look_over(&now, true))
    };
    for call in calls.iter() {
        assert_eq!(found(&|_| (), call), None);
        for (i, spoil) in spoils.iter().enumerate() {
            assert!(found(*spoil, call).is_some(), "spoil {} by {}", i, call);
        }
    }
}

/// Payloads by number and by index are those of the state.
#[test]
fn payloads_found() {
    let mut r = Random::new(6);
    let mut m = Memory::new(Sizes { receive: 256, send: 128, acks: 128 });
    over_states(40, |_, _, s, sizes| {
        if m.sizes() != sizes {
            m = Memory::new(sizes);
        }
        m.lay_as(s, &Shape::random(&mut r, s, sizes));
        for x in s.rcv_queue.iter().chain(&s.rcv_buf) {
            assert_eq!(m.stored(x.sn), Some(&x.data[..]));
        }
        let before = s.rcv_nxt.wrapping_sub(1 + s.rcv_queue.len() as u32);
        assert_eq!((m.stored(before), m.stored(s.rcv_nxt.wrapping_add(1 << 31))), (None, None));
        for (i, x) in s.snd_queue.iter().enumerate() {
            assert_eq!(m.waiting_payload(i), Some(&x.data[..]));
        }
        assert_eq!(m.waiting_payload(s.snd_queue.len()), None);
    });
}

#[test]
fn numbers_share_words_without_touching() {
    let mut all = vec![0; WORDS];
    for (name, ..) in NUMBERS.iter() {
        let mut m = Memory::new(Sizes { receive: 256, send: 128, acks: 128 });
        m.words = vec![0; WORDS];
        m.set_number(name, most(name));
        for (other, ..) in NUMBERS.iter() {
            assert_eq!(number_of(&m.words, other), if other == name { most(name) } else { 0 });
        }
        for (word, n) in all.iter_mut().zip(&m.words) {
            assert_eq!(*word & n, 0);
            *word |= n;
        }
        m.words = vec![u32::MAX; WORDS];
        m.set_number(name, 0);
        for (other, ..) in NUMBERS.iter() {
            assert_eq!(number_of(&m.words, other), if other == name { 0 } else { most(other) });
        }
    }
    // every bit is of a number, but for those past the flags
    assert_eq!(all[0], 63);
    assert!(all[1..].iter().all(|word| *word == u32::MAX));
}

#[test]
fn damage_is_found() {
    let sizes = Sizes { receive: 256, send: 128, acks: 128 };
    let (mut r, s) = (Random::new(4), rich(sizes));
    // 2 queued and one held behind a hole, 4 in flight, 2 waiting
    let spoils: [fn(&mut Memory); 13] = [
        |m| *m.received(1) = 0,
        |m| *m.received(0) = (MOST + 1) * MARK,
        |m| *m.received(2) = (MOST + 1) * MARK,
        |m| m.set_number("rcv_start", 256),
        |m| m.set_number("rcv_reach", 129),
        |m| *m.mark(0) = 0,
        |m| *m.mark(0) = MOST + 1,
        |m| {
            let i = m.snd_ring().reach + 1;
            *m.mark(i) = 0
        },
        |m| {
            let i = m.snd_ring().reach;
            *m.mark(i) = MOST + 1
        },
        |m| m.set_number("flying", 3),
        |m| m.set_number("snd_start", 128),
        |m| m.set_number("acks", 129),
        |m| m.words[0] = 64,
    ];
    for _ in 0..50 {
        let mut m = Memory::new(sizes);
        m.lay_as(&s, &Shape::random(&mut r, &s, sizes));
        assert_eq!(m.fault(), None);
        for (i, spoil) in spoils.iter().enumerate() {
            let mut bad = m.clone();
            spoil(&mut bad);
            assert!(bad.fault().is_some(), "spoil {}", i);
        }
    }
}
