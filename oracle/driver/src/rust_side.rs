//! The Rust as a side: for the judge, and for copies of it, which are crates of their own.

use std::cell::Cell;
use std::io;
use std::panic;
use std::sync::Once;

use crate::side::Datagrams;

/// Keeps what the block writes: each write is a datagram.
#[derive(Default)]
pub struct Sink {
    pub datagrams: Datagrams,
}

impl io::Write for Sink {
    fn write(&mut self, data: &[u8]) -> io::Result<usize> {
        self.datagrams.push(data);
        Ok(data.len())
    }

    fn flush(&mut self) -> io::Result<()> {
        Ok(())
    }
}

/// What a buffer holds before a call writes to it.
pub const BLANK: u8 = 0xA5;

/// Runs a call that may break off, which is an answer to compare and not a message; false where it did.
pub fn quietly(call: impl FnOnce()) -> bool {
    thread_local! {
        static QUIET: Cell<bool> = Cell::new(false);
    }
    static HOOK: Once = Once::new();
    HOOK.call_once(|| {
        let usual = panic::take_hook();
        panic::set_hook(Box::new(move |info| {
            if !QUIET.with(|q| q.get()) {
                usual(info);
            }
        }));
    });
    QUIET.with(|q| q.set(true));
    let ran = panic::catch_unwind(panic::AssertUnwindSafe(call));
    QUIET.with(|q| q.set(false));
    ran.is_ok()
}

#[macro_export]
macro_rules! rust_side {
    ($name:ident, $krate:ident) => {
        pub struct $name {
            kcp: $krate::Kcp<$crate::rust_side::Sink>,
            largest: u16,
            /// The state as it was read last.
            read: state::State,
        }

        impl Default for $name {
            fn default() -> $name {
                $name { kcp: $krate::Kcp::new(0, $crate::rust_side::Sink::default()), largest: 128, read: state::State::default() }
            }
        }

        impl $name {
            fn refused(error: $krate::Error) -> $crate::side::Answer {
                use $krate::Error as E;
                let (number, values) = match error {
                    E::InvalidSegmentSize(n) => (1, vec![n as u64]),
                    E::ConvInconsistent(own, met) => (2, vec![own as u64, met as u64]),
                    E::InvalidSegmentDataSize(len, left) => (3, vec![len as u64, left as u64]),
                    E::UnsupportedCmd(cmd) => (4, vec![cmd as u64]),
                    E::RecvQueueEmpty => (5, vec![]),
                    E::ExpectingFragment => (6, vec![]),
                    E::UserBufTooSmall => (7, vec![]),
                    E::UserBufTooBig => (8, vec![]),
                    E::NeedUpdate => (9, vec![]),
                    E::InvalidMtu(mtu) => (10, vec![mtu as u64]),
                    E::IoError(_) => (0, vec![]),
                };
                $crate::side::Answer::Refused { number, values }
            }

            fn counted(result: Result<usize, $krate::Error>) -> $crate::side::Answer {
                match result {
                    Ok(n) => $crate::side::Answer::Number(n as u64),
                    Err(e) => $name::refused(e),
                }
            }

            fn done(result: Result<(), $krate::Error>) -> $crate::side::Answer {
                match result {
                    Ok(()) => $crate::side::Answer::Nothing,
                    Err(e) => $name::refused(e),
                }
            }

            fn start(&mut self, conv: u32, stream: bool, rcv: u32, snd: u32, sizes: $crate::call::Sizes) {
                use $crate::side::Side;
                let sink = $crate::rust_side::Sink::default();
                self.kcp = if stream { $krate::Kcp::new_stream(conv, sink) } else { $krate::Kcp::new(conv, sink) };
                self.largest = 128;
                let mut s = state::State::default();
                self.read(&mut s);
                s.rcv_nxt = rcv;
                s.snd_una = snd;
                s.snd_nxt = snd;
                self.lay(&s, sizes);
            }

            fn tune(&mut self, what: $crate::call::Tuned, value: u64) {
                let mut s = state::State::default();
                $krate::inside::read_numbers(&self.kcp, &mut s, state::Touched::ALL);
                $crate::run::tune(&mut s, what, value);
                $krate::inside::lay_numbers(&mut self.kcp, &s);
            }

            fn get(&self, getter: $crate::call::Getter) -> $crate::side::Answer {
                use $crate::call::Getter as G;
                use $crate::side::Answer as A;
                let k = &self.kcp;
                match getter {
                    G::Conv => A::Number(k.conv() as u64),
                    G::WaitingConv => A::Flag(k.waiting_conv()),
                    G::Mtu => A::Number(k.mtu() as u64),
                    G::Mss => A::Number(k.mss() as u64),
                    G::SndWnd => A::Number(k.snd_wnd() as u64),
                    G::RcvWnd => A::Number(k.rcv_wnd() as u64),
                    G::RmtWnd => A::Number(k.rmt_wnd() as u64),
                    G::WaitSnd => A::Number(k.wait_snd() as u64),
                    G::HeaderLen => A::Number($krate::Kcp::<$crate::rust_side::Sink>::header_len() as u64),
                    G::IsStream => A::Flag(k.is_stream()),
                    G::IsDeadLink => A::Flag(k.is_dead_link()),
                }
            }

            fn estimate(e: [u32; 4], interval: u32, rtt: u32) -> $crate::side::Answer {
                let mut k = $krate::Kcp::new(0, $crate::rust_side::Sink::default());
                let mut s = state::State::default();
                $krate::inside::read(&k, &mut s);
                s.rx_srtt = e[0];
                s.rx_rttval = e[1];
                s.rx_rto = e[2];
                s.rx_minrto = e[3];
                s.interval = interval;
                $krate::inside::lay(&mut k, &s);
                $krate::inside::update_ack_of(&mut k, rtt);
                $krate::inside::read(&k, &mut s);
                let all = [s.rx_srtt, s.rx_rttval, s.rx_rto, s.rx_minrto];
                $crate::side::Answer::Numbers(all.iter().map(|x| *x as u64).collect())
            }

            fn encode(h: &$crate::call::Header, len: u32) -> Vec<u8> {
                let s = state::Segment {
                    conv: h.conv,
                    cmd: h.cmd,
                    frg: h.frg,
                    wnd: h.wnd,
                    ts: h.ts,
                    sn: h.sn,
                    una: h.una,
                    data: vec![0; len as usize],
                    ..state::Segment::default()
                };
                let mut out = $krate::inside::encode_of(&s);
                out.truncate(24);
                out
            }

            /// The calls that take bytes and numbers alone.
            fn leaf(call: &$crate::call::Call, out: &mut $crate::side::Outcome) {
                use $crate::call::Call as C;
                use $crate::side::Answer as A;
                let short = A::Refused { number: 16, values: vec![] };
                out.answer = match call {
                    C::GetConv(b) if b.len() < 24 => short,
                    C::GetSn(b) if b.len() < 24 => short,
                    C::PutConv(b, _) if b.len() < 24 => {
                        out.buffer = b.clone();
                        short
                    }
                    C::GetConv(b) => A::Number($krate::get_conv(b) as u64),
                    C::GetSn(b) => A::Number($krate::get_sn(b) as u64),
                    C::PutConv(b, conv) => {
                        out.buffer = b.clone();
                        $krate::set_conv(&mut out.buffer, *conv);
                        A::Nothing
                    }
                    C::Timediff(a, b) => A::Signed($krate::inside::timediff_of(*a, *b) as i64),
                    C::Bound(a, b, c) => A::Number($krate::inside::bound_of(*a, *b, *c) as u64),
                    C::Estimate(e, interval, rtt) => $name::estimate(*e, *interval, *rtt),
                    C::Encode(h, len) => {
                        out.buffer = $name::encode(h, *len);
                        let n = [h.conv, h.cmd as u32, h.frg as u32, h.wnd as u32, h.ts, h.sn, h.una, *len];
                        A::Numbers(n.iter().map(|x| *x as u64).collect())
                    }
                    _ => A::Panicked,
                };
            }

            fn call(&mut self, call: &$crate::call::Call, bytes: &[u8], out: &mut $crate::side::Outcome) {
                use $crate::call::Call as C;
                use $crate::side::Answer as A;
                let k = &mut self.kcp;
                out.answer = match call {
                    C::Start { conv, stream, rcv, snd, sizes } => {
                        self.start(*conv, *stream, *rcv, *snd, *sizes);
                        A::Nothing
                    }
                    C::Tune(what, value) => {
                        self.tune(*what, *value);
                        A::Nothing
                    }
                    C::Input(_) => $name::counted(k.input(bytes)),
                    C::Recv(n) => {
                        out.buffer.resize(*n, $crate::rust_side::BLANK);
                        $name::counted(k.recv(&mut out.buffer))
                    }
                    C::Peeksize => $name::counted(k.peeksize()),
                    C::Send(_) => $name::counted(k.send(bytes)),
                    C::Update(t) => $name::done(k.update(*t)),
                    C::Flush => $name::done(k.flush()),
                    C::FlushAck => $name::done(k.flush_ack()),
                    C::Check(t) => A::Number(k.check(*t) as u64),
                    C::MoveBuf => {
                        k.move_buf();
                        A::Nothing
                    }
                    C::SetMtu(mtu) => $name::done(k.set_mtu(*mtu)),
                    C::SetInterval(n) => {
                        k.set_interval(*n);
                        A::Nothing
                    }
                    C::SetNodelay(nodelay, interval, resend, nc) => {
                        k.set_nodelay(*nodelay, *interval, *resend, *nc);
                        A::Nothing
                    }
                    C::SetWndsize(s, r) => {
                        k.set_wndsize(*s, *r);
                        self.largest = self.largest.max(k.rcv_wnd());
                        A::Nothing
                    }
                    C::SetRxMinrto(n) => {
                        k.set_rx_minrto(*n);
                        A::Nothing
                    }
                    C::SetFastResend(n) => {
                        k.set_fast_resend(*n);
                        A::Nothing
                    }
                    C::SetMaximumResendTimes(n) => {
                        k.set_maximum_resend_times(*n);
                        A::Nothing
                    }
                    C::InputConv => {
                        k.input_conv();
                        A::Nothing
                    }
                    C::SetConv(conv) => {
                        k.set_conv(*conv);
                        A::Nothing
                    }
                    C::Get(getter) => self.get(*getter),
                    leaf => {
                        $name::leaf(leaf, out);
                        return;
                    }
                };
            }
        }

        impl $crate::side::Side for $name {
            fn name(&self) -> &'static str {
                stringify!($krate)
            }

            fn has(&self, _: &str) -> bool {
                true
            }

            fn keeps_all(&self) -> bool {
                true
            }

            fn make(&mut self, call: &$crate::call::Call, bytes: &[u8], out: &mut $crate::side::Outcome) {
                out.clear();
                if !$crate::rust_side::quietly(|| self.call(call, bytes, out)) {
                    out.answer = $crate::side::Answer::Panicked;
                }
                std::mem::swap(&mut out.datagrams, &mut $krate::inside::output(&mut self.kcp).datagrams);
            }

            fn read(&self, into: &mut state::State) {
                $krate::inside::read(&self.kcp, into);
                into.largest = self.largest;
            }

            fn read_numbers(&self, into: &mut state::State, touched: state::Touched) {
                $krate::inside::read_numbers(&self.kcp, into, touched);
                into.largest = self.largest;
            }

            fn agrees(&mut self, s: &state::State, _: state::Touched) -> bool {
                $krate::inside::read_numbers(&self.kcp, &mut self.read, state::Touched::ALL);
                self.read.largest = self.largest;
                self.read == *s
            }

            fn payloads(&self) -> Box<dyn Iterator<Item = &[u8]> + '_> {
                Box::new($krate::inside::payloads(&self.kcp))
            }

            fn stored(&self, sn: u32) -> Option<&[u8]> {
                $krate::inside::stored(&self.kcp, sn)
            }

            fn waiting(&self, i: usize) -> Option<&[u8]> {
                $krate::inside::waiting(&self.kcp, i)
            }

            fn lay(&mut self, state: &state::State, _: $crate::call::Sizes) {
                $krate::inside::lay(&mut self.kcp, state);
                self.largest = state.largest;
            }
        }
    };
}
