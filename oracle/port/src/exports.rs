//! The functions of the static library, each behind a safe one. A group of them that the library lacks is declared all the same,
//! as functions that are never called: `has` says which calls the port has.

use crate::memory::{at, Lent, Memory};
use crate::out::Out;
use driver::call::{Call, Getter, Header};
use driver::rust_side::BLANK;
use driver::side::{Answer, Outcome};

/// The calls of each group, by name, and whether the library has the group.
const GROUPS: [(bool, &[&str]); 11] = [
    (cfg!(kcp_c), &["timediff", "bound", "encode", "estimate", "helper_get_conv", "helper_set_conv", "helper_get_sn"]),
    (cfg!(kcp_c_new), &["new"]),
    (
        cfg!(kcp_c_setters),
        &[
            "set_mtu", "set_interval", "set_nodelay", "set_rx_minrto", "set_fast_resend", "set_maximum_resend_times", "input_conv",
            "set_conv",
        ],
    ),
    (cfg!(kcp_c_receive), &["recv", "peeksize", "move_buf", "set_wndsize"]),
    (cfg!(kcp_c_send), &["send"]),
    (cfg!(kcp_c_input), &["input"]),
    (cfg!(kcp_c_flush_ack), &["flush_ack"]),
    (cfg!(kcp_c_flush), &["flush"]),
    (cfg!(kcp_c_update), &["update"]),
    (cfg!(kcp_c_check), &["check"]),
    // a host reads these in the words of the block, and needs no function
    (
        cfg!(kcp_c_new),
        &[
            "conv", "waiting_conv", "mtu", "mss", "snd_wnd", "rcv_wnd", "rmt_wnd", "wait_snd", "header_len", "is_stream", "is_dead_link",
        ],
    ),
];

/// What sends datagrams or tells when to; these come last.
pub const FLUSHES: [&str; 4] = ["flush_ack", "flush", "update", "check"];

/// The calls that the port has.
pub fn all() -> Vec<&'static str> {
    GROUPS.iter().filter(|g| g.0).flat_map(|g| g.1.iter().copied()).collect()
}

pub fn has(name: &str) -> bool {
    GROUPS.iter().any(|g| g.0 && g.1.contains(&name))
}

/// Whether it has the tests that every call which is handed memory makes, as functions of their own.
pub const HAS_TESTS: bool = cfg!(kcp_c_tests);

/// Whether it has all calls on a block but those of FLUSHES: then those that it lacks of these can be made by a copy of the Rust.
pub const HAS_BLOCK: bool =
    cfg!(all(kcp_c, kcp_c_new, kcp_c_setters, kcp_c_receive, kcp_c_send, kcp_c_input));

/// Whether it has each of these, for who calls them often.
pub const HAS_FLUSH: bool = cfg!(kcp_c_flush);
pub const HAS_UPDATE: bool = cfg!(kcp_c_update);
pub const HAS_CHECK: bool = cfg!(kcp_c_check);

/// Whether it has these too, so that no copy is needed.
pub fn has_flushes() -> bool {
    FLUSHES.iter().all(|name| has(name))
}

macro_rules! linked {
    ($($group:ident { $(fn $name:ident($($argument:ident: $kind:ty),* $(,)?) $(-> $answer:ty)?;)* })*) => {
        $(
            #[cfg($group)]
            extern "C" {
                $(fn $name($($argument: $kind),*) $(-> $answer)?;)*
            }
            $(
                #[cfg(not($group))]
                unsafe extern "C" fn $name($(_: $kind),*) $(-> $answer)? {
                    lacking(stringify!($name))
                }
            )*
        )*
    };
}

#[cfg(not(all(
    kcp_c, kcp_c_new, kcp_c_setters, kcp_c_receive, kcp_c_send, kcp_c_input, kcp_c_tests, kcp_c_flush_ack, kcp_c_flush, kcp_c_update,
    kcp_c_check
)))]
fn lacking(name: &str) -> ! {
    eprintln!("the library has no {}", name);
    std::process::exit(2)
}

// a slice of Rattle's is a pointer and a length
linked! {
    kcp_c {
        fn kcp_timediff(a: u32, b: u32) -> i32;
        fn kcp_bound(low: u32, x: u32, high: u32) -> u32;
        fn kcp_get_conv(buf: *const u8, len: usize, conv: *mut u32) -> u32;
        fn kcp_get_sn(buf: *const u8, len: usize, sn: *mut u32) -> u32;
        fn kcp_set_conv(buf: *mut u8, len: usize, conv: u32) -> u32;
        fn kcp_header_bytes(out: *mut [u8; 24], conv: u32, cmd: u8, frg: u8, wnd: u16, ts: u32, sn: u32, una: u32, len: u32);
        fn kcp_header_numbers(bytes: *const [u8; 24], out: *mut [u32; 8]);
        fn kcp_measured(e: *mut [u32; 4], rtt: u32, interval: u32);
    }
    kcp_c_new {
        fn kcp_new(
            words: *mut u32, n: usize, conv: u32,
            rcv_records: *const u32, rcv_numbers: usize, rcv_room: *const u8, rcv_bytes: usize,
            snd_records: *const u32, snd_numbers: usize, snd_room: *const u8, snd_bytes: usize,
            acks: *const u32, ack_numbers: usize, waiting: *const u8, waiting_bytes: usize,
        ) -> u32;
        fn kcp_new_stream(
            words: *mut u32, n: usize, conv: u32,
            rcv_records: *const u32, rcv_numbers: usize, rcv_room: *const u8, rcv_bytes: usize,
            snd_records: *const u32, snd_numbers: usize, snd_room: *const u8, snd_bytes: usize,
            acks: *const u32, ack_numbers: usize, waiting: *const u8, waiting_bytes: usize,
        ) -> u32;
    }
    kcp_c_setters {
        fn kcp_set_mtu(words: *mut u32, n: usize, mtu: usize) -> u32;
        fn kcp_set_interval(words: *mut u32, n: usize, interval: u32) -> u32;
        fn kcp_set_nodelay(words: *mut u32, n: usize, nodelay: bool, interval: i32, resend: i32, nc: bool) -> u32;
        fn kcp_set_rx_minrto(words: *mut u32, n: usize, minrto: u32) -> u32;
        fn kcp_set_fast_resend(words: *mut u32, n: usize, resend: u32) -> u32;
        fn kcp_set_maximum_resend_times(words: *mut u32, n: usize, times: u32) -> u32;
        fn kcp_input_conv(words: *mut u32, n: usize) -> u32;
        fn kcp_set_block_conv(words: *mut u32, n: usize, conv: u32) -> u32;
    }
    kcp_c_receive {
        fn kcp_move_buf(
            words: *mut u32, n: usize,
            records: *const u32, numbers: usize, room: *const u8, bytes: usize,
        ) -> u32;
        fn kcp_peeksize(
            words: *const u32, n: usize,
            records: *const u32, numbers: usize, room: *const u8, bytes: usize,
            length: *mut usize,
        ) -> u32;
        fn kcp_recv(
            words: *mut u32, n: usize,
            records: *const u32, numbers: usize, room: *const u8, bytes: usize,
            buf: *mut u8, len: usize, length: *mut usize,
        ) -> u32;
        fn kcp_set_wndsize(
            words: *mut u32, n: usize, sndwnd: u16, rcvwnd: u16,
            records: *const u32, numbers: usize, room: *const u8, bytes: usize,
        ) -> u32;
    }
    kcp_c_send {
        fn kcp_send(
            words: *mut u32, n: usize,
            snd_records: *mut u32, snd_numbers: usize, snd_room: *mut u8, snd_bytes: usize,
            data: *const u8, len: usize, queued: *mut usize,
        ) -> u32;
    }
    kcp_c_input {
        fn kcp_input(
            words: *mut u32, n: usize,
            rcv_records: *mut u32, rcv_numbers: usize, rcv_room: *mut u8, rcv_bytes: usize,
            snd_records: *mut u32, snd_numbers: usize, snd_room: *const u8, snd_bytes: usize,
            acks: *mut u32, ack_numbers: usize, waiting: *const u8, waiting_bytes: usize,
            data: *const u8, len: usize, values: *mut [usize; 2], skipped: *mut u32,
        ) -> u32;
    }
    kcp_c_flush_ack {
        fn kcp_flush_ack(
            words: *mut u32, n: usize, acks: *const u32, ack_numbers: usize, waiting: *mut u8, waiting_bytes: usize,
            out: *mut u8, out_bytes: usize, lengths: *mut u16, lengths_count: usize, datagrams: *mut usize,
        ) -> u32;
    }
    kcp_c_flush {
        fn kcp_flush(
            words: *mut u32, n: usize,
            snd_records: *mut u32, snd_numbers: usize, snd_room: *const u8, snd_bytes: usize,
            acks: *const u32, ack_numbers: usize, waiting: *const u8, waiting_bytes: usize,
            out: *mut u8, out_bytes: usize, lengths: *mut u16, lengths_count: usize, datagrams: *mut usize,
        ) -> u32;
    }
    kcp_c_update {
        fn kcp_update(
            words: *mut u32, n: usize, current: u32,
            snd_records: *mut u32, snd_numbers: usize, snd_room: *const u8, snd_bytes: usize,
            acks: *const u32, ack_numbers: usize, waiting: *const u8, waiting_bytes: usize,
            out: *mut u8, out_bytes: usize, lengths: *mut u16, lengths_count: usize, datagrams: *mut usize,
        ) -> u32;
    }
    kcp_c_check {
        fn kcp_check(
            words: *const u32, n: usize, current: u32,
            snd_records: *const u32, snd_numbers: usize, snd_room: *const u8, snd_bytes: usize, wait: *mut u32,
        ) -> u32;
    }
    kcp_c_tests {
        fn kcp_receive_test(
            words: *const u32, n: usize, records: *const u32, numbers: usize, room: *const u8, bytes: usize,
        ) -> u32;
        fn kcp_send_test(
            words: *const u32, n: usize, snd_records: *const u32, snd_numbers: usize, snd_room: *const u8, snd_bytes: usize,
        ) -> u32;
    }
}

// ---- numbers and bytes alone

fn refused(number: u32) -> Answer {
    Answer::Refused { number: number as u8, values: vec![] }
}

fn done(number: u32) -> Answer {
    match number {
        0 => Answer::Nothing,
        n => refused(n),
    }
}

fn get(read: unsafe extern "C" fn(*const u8, usize, *mut u32) -> u32, buf: &[u8]) -> Answer {
    const BEFORE: u32 = 0x5555_5555;
    let mut number = BEFORE;
    match unsafe { read(buf.as_ptr(), buf.len(), &mut number) } {
        0 => Answer::Number(number as u64),
        n if number == BEFORE => refused(n),
        _ => Answer::Panicked,
    }
}

fn encode(h: &Header, len: u32, out: &mut Outcome) {
    let mut bytes = [0; 24];
    let mut numbers = [0; 8];
    unsafe {
        kcp_header_bytes(&mut bytes, h.conv, h.cmd, h.frg, h.wnd, h.ts, h.sn, h.una, len);
        kcp_header_numbers(&bytes, &mut numbers);
    }
    out.buffer = bytes.to_vec();
    out.answer = Answer::Numbers(numbers.iter().map(|x| *x as u64).collect());
}

/// Makes a call that takes no block.
pub fn apply_leaf(call: &Call, out: &mut Outcome) {
    out.clear();
    match call {
        Call::Timediff(a, b) => out.answer = Answer::Signed(unsafe { kcp_timediff(*a, *b) } as i64),
        Call::Bound(a, b, c) => out.answer = Answer::Number(unsafe { kcp_bound(*a, *b, *c) } as u64),
        Call::GetConv(buf) => out.answer = get(kcp_get_conv, buf),
        Call::GetSn(buf) => out.answer = get(kcp_get_sn, buf),
        Call::PutConv(buf, conv) => {
            out.buffer = buf.clone();
            out.answer = done(unsafe { kcp_set_conv(out.buffer.as_mut_ptr(), buf.len(), *conv) });
        }
        Call::Encode(h, len) => encode(h, *len, out),
        Call::Estimate(e, interval, rtt) => {
            let mut e = *e;
            unsafe { kcp_measured(&mut e, *rtt, *interval) };
            out.answer = Answer::Numbers(e.iter().map(|x| *x as u64).collect());
        }
        _ => out.answer = Answer::Panicked,
    }
}

// ---- on a block: each answers 0 or the number of the refusal

pub fn new(m: &mut Memory, conv: u32, stream: bool) -> u32 {
    let make = if stream { kcp_new_stream } else { kcp_new };
    let (r, s) = (&m.receive, &m.send);
    unsafe {
        make(
            m.words.as_mut_ptr(), m.words.len(), conv,
            r.records.as_ptr(), r.records.len(), r.room.as_ptr(), r.room.len(),
            s.records.as_ptr(), s.records.len(), s.room.as_ptr(), s.room.len(),
            m.acks.as_ptr(), m.acks.len(), m.waiting.as_ptr(), m.waiting.len(),
        )
    }
}

pub fn set_mtu(m: &mut Memory, mtu: usize) -> u32 {
    unsafe { kcp_set_mtu(m.words.as_mut_ptr(), m.words.len(), mtu) }
}

pub fn set_interval(m: &mut Memory, interval: u32) -> u32 {
    unsafe { kcp_set_interval(m.words.as_mut_ptr(), m.words.len(), interval) }
}

pub fn set_nodelay(m: &mut Memory, nodelay: bool, interval: i32, resend: i32, nc: bool) -> u32 {
    unsafe { kcp_set_nodelay(m.words.as_mut_ptr(), m.words.len(), nodelay, interval, resend, nc) }
}

pub fn set_wndsize(m: &mut Memory, sndwnd: u16, rcvwnd: u16) -> u32 {
    let (w, l) = (&mut m.words, &m.receive);
    unsafe {
        kcp_set_wndsize(
            w.as_mut_ptr(), w.len(), sndwnd, rcvwnd,
            l.records.as_ptr(), l.records.len(), l.room.as_ptr(), l.room.len(),
        )
    }
}

pub fn move_buf(m: &mut Memory) -> u32 {
    let (w, l) = (&mut m.words, &m.receive);
    unsafe {
        kcp_move_buf(
            w.as_mut_ptr(), w.len(),
            l.records.as_ptr(), l.records.len(), l.room.as_ptr(), l.room.len(),
        )
    }
}

pub fn peeksize(m: &Memory, length: &mut usize) -> u32 {
    let (w, l) = (&m.words, &m.receive);
    unsafe {
        kcp_peeksize(
            w.as_ptr(), w.len(),
            l.records.as_ptr(), l.records.len(), l.room.as_ptr(), l.room.len(),
            length,
        )
    }
}

pub fn recv(m: &mut Memory, buf: &mut [u8], length: &mut usize) -> u32 {
    let (w, l) = (&mut m.words, &m.receive);
    unsafe {
        kcp_recv(
            w.as_mut_ptr(), w.len(),
            l.records.as_ptr(), l.records.len(), l.room.as_ptr(), l.room.len(),
            buf.as_mut_ptr(), buf.len(), length,
        )
    }
}

pub fn send(m: &mut Memory, data: &[u8], queued: &mut usize) -> u32 {
    let w = &mut m.words;
    let Lent { records, room } = &mut m.send;
    unsafe {
        kcp_send(
            w.as_mut_ptr(), w.len(),
            records.as_mut_ptr(), records.len(), room.as_mut_ptr(), room.len(),
            data.as_ptr(), data.len(), queued,
        )
    }
}

pub fn input(m: &mut Memory, data: &[u8], values: &mut [usize; 2], skipped: &mut u32) -> u32 {
    let (w, a, b) = (&mut m.words, &mut m.acks, &m.waiting);
    let (r, s) = (&mut m.receive, &mut m.send);
    unsafe {
        kcp_input(
            w.as_mut_ptr(), w.len(),
            r.records.as_mut_ptr(), r.records.len(), r.room.as_mut_ptr(), r.room.len(),
            s.records.as_mut_ptr(), s.records.len(), s.room.as_ptr(), s.room.len(),
            a.as_mut_ptr(), a.len(), b.as_ptr(), b.len(),
            data.as_ptr(), data.len(), values, skipped,
        )
    }
}

pub fn flush_ack(m: &mut Memory, o: &mut Out) -> u32 {
    let (w, a, b) = (&mut m.words, &m.acks, &mut m.waiting);
    unsafe {
        kcp_flush_ack(
            w.as_mut_ptr(), w.len(), a.as_ptr(), a.len(), b.as_mut_ptr(), b.len(),
            o.bytes.as_mut_ptr(), o.bytes.len(), o.lengths.as_mut_ptr(), o.lengths.len(), &mut o.datagrams,
        )
    }
}

pub fn flush(m: &mut Memory, o: &mut Out) -> u32 {
    let (w, a, b, s) = (&mut m.words, &m.acks, &m.waiting, &mut m.send);
    unsafe {
        kcp_flush(
            w.as_mut_ptr(), w.len(),
            s.records.as_mut_ptr(), s.records.len(), s.room.as_ptr(), s.room.len(),
            a.as_ptr(), a.len(), b.as_ptr(), b.len(),
            o.bytes.as_mut_ptr(), o.bytes.len(), o.lengths.as_mut_ptr(), o.lengths.len(), &mut o.datagrams,
        )
    }
}

pub fn update(m: &mut Memory, current: u32, o: &mut Out) -> u32 {
    let (w, a, b, s) = (&mut m.words, &m.acks, &m.waiting, &mut m.send);
    unsafe {
        kcp_update(
            w.as_mut_ptr(), w.len(), current,
            s.records.as_mut_ptr(), s.records.len(), s.room.as_ptr(), s.room.len(),
            a.as_ptr(), a.len(), b.as_ptr(), b.len(),
            o.bytes.as_mut_ptr(), o.bytes.len(), o.lengths.as_mut_ptr(), o.lengths.len(), &mut o.datagrams,
        )
    }
}

pub fn check(m: &Memory, current: u32, wait: &mut u32) -> u32 {
    let (w, s) = (&m.words, &m.send);
    unsafe {
        kcp_check(w.as_ptr(), w.len(), current, s.records.as_ptr(), s.records.len(), s.room.as_ptr(), s.room.len(), wait)
    }
}

/// Whether block and receive memory are well formed: 0, or 15.
pub fn receive_test(m: &Memory) -> u32 {
    let (w, l) = (&m.words, &m.receive);
    unsafe { kcp_receive_test(w.as_ptr(), w.len(), l.records.as_ptr(), l.records.len(), l.room.as_ptr(), l.room.len()) }
}

/// The same of the send memory.
pub fn send_test(m: &Memory) -> u32 {
    let (w, l) = (&m.words, &m.send);
    unsafe { kcp_send_test(w.as_ptr(), w.len(), l.records.as_ptr(), l.records.len(), l.room.as_ptr(), l.room.len()) }
}

/// What a place holds before a call puts its answer there.
const BEFORE: usize = 0x5555_5555;

/// The answer of a call that puts a length into its place, which a refusal leaves.
fn counted(call: impl FnOnce(&mut usize) -> u32) -> Answer {
    let mut length = BEFORE;
    match call(&mut length) {
        0 => Answer::Number(length as u64),
        n if length == BEFORE => refused(n),
        _ => Answer::Panicked,
    }
}

/// How many of the two values an input's answer carries: the bytes consumed, or the refusal's values.
fn carried(number: u32) -> usize {
    match number {
        0 | 1 | 4 => 1,
        2 | 3 => 2,
        _ => 0,
    }
}

/// An input, its values and the pushes skipped; a value that the answer does not carry must be 0.
fn input_answer(m: &mut Memory, data: &[u8], out: &mut Outcome) -> Option<String> {
    let mut values = [BEFORE; 2];
    out.skipped = BEFORE as u32;
    let number = input(m, data, &mut values, &mut out.skipped);
    let (values, rest) = values.split_at(carried(number));
    out.answer = match number {
        0 => Answer::Number(values[0] as u64),
        n => Answer::Refused { number: n as u8, values: values.iter().map(|x| *x as u64).collect() },
    };
    rest.iter().find(|x| **x != 0).map(|x| format!("a value that {} does not carry is {} and not 0", number, x))
}

/// A block made anew, whose numbers then start at `rcv` and `snd`.
fn start(m: &mut Memory, conv: u32, stream: bool, rcv: u32, snd: u32) -> Answer {
    let answer = done(new(m, conv, stream));
    m.put(at::RCV_NXT, rcv);
    m.put(at::SND_UNA, snd);
    m.put(at::SND_NXT, snd);
    answer
}

fn set(m: &mut Memory, call: &Call) -> Answer {
    let (w, n) = (m.words.as_mut_ptr(), m.words.len());
    let number = match call {
        Call::SetMtu(mtu) => {
            return match set_mtu(m, *mtu) {
                10 => Answer::Refused { number: 10, values: vec![*mtu as u64] },
                number => done(number),
            }
        }
        Call::SetNodelay(nodelay, interval, resend, nc) => set_nodelay(m, *nodelay, *interval, *resend, *nc),
        Call::SetInterval(x) => set_interval(m, *x),
        Call::SetRxMinrto(x) => unsafe { kcp_set_rx_minrto(w, n, *x) },
        Call::SetFastResend(x) => unsafe { kcp_set_fast_resend(w, n, *x) },
        Call::SetMaximumResendTimes(x) => unsafe { kcp_set_maximum_resend_times(w, n, *x) },
        Call::InputConv => unsafe { kcp_input_conv(w, n) },
        Call::SetConv(x) => unsafe { kcp_set_block_conv(w, n, *x) },
        _ => return Answer::Panicked,
    };
    done(number)
}

/// What a getter answers, read in the words as a host would.
fn got(m: &Memory, getter: Getter) -> Answer {
    let number = |n: u32| Answer::Number(n as u64);
    match getter {
        Getter::Conv => number(m.at(at::CONV)),
        Getter::WaitingConv => Answer::Flag(m.at(at::INPUT_CONV) != 0),
        Getter::Mtu => number(m.at(at::MTU)),
        Getter::Mss => number(m.at(at::MSS)),
        Getter::SndWnd => number(m.at(at::SND_WND)),
        Getter::RcvWnd => number(m.at(at::RCV_WND)),
        Getter::RmtWnd => number(m.at(at::RMT_WND)),
        Getter::WaitSnd => number(m.at(at::FLYING) + m.at(at::UNSENT)),
        Getter::HeaderLen => number(24),
        Getter::IsStream => Answer::Flag(m.at(at::STREAM) != 0),
        Getter::IsDeadLink => Answer::Flag(m.at(at::DEAD) != 0),
    }
}

/// A call that sends datagrams, and what is wrong with what it wrote beside them.
fn flushed(m: &mut Memory, call: &Call, o: &mut Out, out: &mut Outcome) -> Option<String> {
    o.lend(m);
    let number = match call {
        Call::FlushAck => flush_ack(m, o),
        Call::Flush => flush(m, o),
        Call::Update(current) => update(m, *current, o),
        _ => return Some("no flush".to_string()),
    };
    out.answer = done(number);
    o.collect(number, &mut out.datagrams)
}

/// The wait that a check answers, which a refusal leaves.
fn waits(m: &Memory, current: u32) -> Answer {
    let mut wait = BEFORE as u32;
    match check(m, current, &mut wait) {
        0 => Answer::Number(wait as u64),
        n if wait == BEFORE as u32 => refused(n),
        _ => Answer::Panicked,
    }
}

/// Makes a call, which is handed these bytes, on the block that the memory holds.
pub fn apply(m: &mut Memory, call: &Call, bytes: &[u8], o: &mut Out, out: &mut Outcome) {
    out.clear();
    match call {
        Call::Start { conv, stream, rcv, snd, .. } => out.answer = start(m, *conv, *stream, *rcv, *snd),
        Call::Tune(what, value) => m.tune(*what, *value),
        Call::Get(getter) => out.answer = got(m, *getter),
        Call::Recv(n) => {
            out.buffer.resize(*n, BLANK);
            let buffer = &mut out.buffer;
            out.answer = counted(|length| recv(m, buffer, length));
        }
        Call::Peeksize => out.answer = counted(|length| peeksize(m, length)),
        Call::MoveBuf => out.answer = done(move_buf(m)),
        Call::SetWndsize(snd, rcv) => out.answer = done(set_wndsize(m, *snd, *rcv)),
        Call::Send(_) => {
            let was = m.snd_ring();
            out.answer = counted(|queued| send(m, bytes, queued));
            let is = m.snd_ring();
            out.moved = (was.places, was.reach) != (is.places, is.reach);
        }
        Call::Input(_) => out.stray = input_answer(m, bytes, out),
        Call::Flush | Call::FlushAck | Call::Update(_) => out.stray = flushed(m, call, o, out),
        Call::Check(current) => out.answer = waits(m, *current),
        setter => out.answer = set(m, setter),
    }
}

/// What the library's own tests have against the memory that a call has left, which is well formed.
pub fn tested(m: &Memory) -> Option<String> {
    if HAS_TESTS && (receive_test(m), send_test(m)) != (0, 0) {
        return Some("the library's own test finds it not well formed".to_string());
    }
    None
}
