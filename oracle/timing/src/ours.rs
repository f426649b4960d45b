//! The port as a side: a block and the memory lent to it. Each call that comes gets its body here and its name in `has_call`, and
//! the rows that need no other call then time it. A flush that a row is prepared by, and that is not timed, is made by the Rust while
//! the port has none: on a block that takes the state over from the lent memory, and gives it back. Only numbers go there and back,
//! since a flush leaves payloads, so that those find the caches as the row's own calls left them. What the port's own calls put out
//! goes to bytes and lengths that are lent once, enough for any flush of the block.

use crate::side::{give_up, Call, Side, Sizes};
use kcp_judge::{inside, Kcp, KcpResult};
use port::exports;
use port::memory::Memory;
use port::out::Out;
use state::State;
use std::io;

pub struct Ours {
    memory: Memory,
    copy: Kcp<io::Sink>,
    s: State,
    out: Out,
    datagrams: usize,
    bytes: usize,
}

/// The memory lent for this window, with so many slots to receive and to send.
fn lent(window: u16, slots: [usize; 2]) -> Memory {
    Memory::new(driver::call::Sizes { receive: slots[0], send: slots[1], acks: (window as usize).max(128) })
}

/// Bytes and lengths for any flush of a block with this memory: each piece in a datagram of its own, each segment as long as may be.
fn room_for(memory: &Memory) -> Out {
    let sizes = memory.sizes();
    let pieces = sizes.acks + 2 + sizes.send;
    Out::new(1500 * (1 + sizes.send) + 24 * pieces, 1 + pieces)
}

#[inline]
fn done(call: &str, number: u32) {
    if number != 0 {
        give_up(&format!("the port refused {} by {}", call, number))
    }
}

fn lacks(call: &str) -> ! {
    give_up(&format!("the port has no {} yet", call))
}

impl Ours {
    /// Has the Rust make a flush or an update.
    fn made(&mut self, call: impl FnOnce(&mut Kcp<io::Sink>) -> KcpResult<()>) {
        self.memory.read_numbers(&mut self.s);
        let segments = self.s.snd_buf.len() + self.s.snd_queue.len();
        inside::lay(&mut self.copy, &self.s);
        call(&mut self.copy).unwrap_or_else(|e| give_up(&format!("the Rust refused a flush: {}", e)));
        // the largest window, which the Rust does not keep, stays as it was
        inside::read(&self.copy, &mut self.s);
        if self.s.snd_buf.len() + self.s.snd_queue.len() != segments {
            give_up("a flush has changed how many segments there are to send");
        }
        self.memory.lay_numbers(&self.s);
    }

    /// Counts what a call of the port has put out.
    #[inline]
    fn count(&mut self) {
        let lengths = &self.out.lengths[..self.out.datagrams];
        self.datagrams += lengths.len();
        self.bytes += lengths.iter().map(|n| *n as usize).sum::<usize>();
    }
}

// No call is inlined into a row, as the Rust's are not.
impl Side for Ours {
    fn has_call(call: Call) -> bool {
        let name = match call {
            Call::New => "new",
            Call::SetNodelay => "set_nodelay",
            Call::SetWndsize => "set_wndsize",
            Call::Input => "input",
            Call::Send => "send",
            Call::Recv => "recv",
            Call::Flush => "flush",
            Call::Update => "update",
            Call::Check => "check",
        };
        exports::has(name)
    }

    fn new(conv: u32, window: u16, slots: [usize; 2]) -> Ours {
        let mut memory = lent(window, slots);
        done("new", exports::new(&mut memory, conv, false));
        let out = room_for(&memory);
        Ours { memory, copy: Kcp::new(conv, io::sink()), s: State::default(), out, datagrams: 0, bytes: 0 }
    }

    fn set_nodelay(&mut self, nodelay: bool, interval: i32, resend: i32, nc: bool) {
        done("set_nodelay", exports::set_nodelay(&mut self.memory, nodelay, interval, resend, nc))
    }

    fn set_wndsize(&mut self, sndwnd: u16, rcvwnd: u16) {
        done("set_wndsize", exports::set_wndsize(&mut self.memory, sndwnd, rcvwnd))
    }

    #[inline(never)]
    fn input(&mut self, datagram: &[u8]) -> usize {
        let (mut values, mut skipped) = ([0; 2], 0);
        done("input", exports::input(&mut self.memory, datagram, &mut values, &mut skipped));
        if skipped != 0 {
            give_up("the port skipped a push");
        }
        values[0]
    }

    #[inline(never)]
    fn send(&mut self, message: &[u8]) -> usize {
        let mut queued = 0;
        done("send", exports::send(&mut self.memory, message, &mut queued));
        queued
    }

    #[inline(never)]
    fn recv(&mut self, into: &mut [u8]) -> usize {
        let mut length = 0;
        done("recv", exports::recv(&mut self.memory, into, &mut length));
        length
    }

    #[inline(never)]
    fn flush(&mut self) {
        if !exports::HAS_FLUSH {
            return self.made(|block| block.flush());
        }
        done("flush", exports::flush(&mut self.memory, &mut self.out));
        self.count()
    }

    #[inline(never)]
    fn update(&mut self, now: u32) {
        if !exports::HAS_UPDATE {
            return self.made(|block| block.update(now));
        }
        done("update", exports::update(&mut self.memory, now, &mut self.out));
        self.count()
    }

    #[inline(never)]
    fn check(&mut self, now: u32) -> u32 {
        if !exports::HAS_CHECK {
            lacks("check");
        }
        let mut wait = 0;
        done("check", exports::check(&self.memory, now, &mut wait));
        wait
    }

    #[inline(never)]
    fn update_to(&mut self, now: u32, each: &mut dyn FnMut(&[u8])) {
        if !exports::HAS_UPDATE {
            lacks("update");
        }
        done("update", exports::update(&mut self.memory, now, &mut self.out));
        self.count();
        let mut rest = &self.out.bytes[..];
        for length in &self.out.lengths[..self.out.datagrams] {
            let (datagram, behind) = rest.split_at(*length as usize);
            each(datagram);
            rest = behind;
        }
    }

    fn forget(&mut self) {
        self.datagrams = 0;
        self.bytes = 0;
    }

    fn forget_acks(&mut self) {
        self.memory.set_number("acks", 0)
    }

    fn sizes(&mut self) -> Sizes {
        let count = |name: &str| self.memory.number(name) as usize;
        Sizes {
            queued: count("unsent"),
            in_flight: count("flying"),
            held: self.memory.held(),
            readable: count("queued"),
            acks: count("acks"),
            datagrams: self.datagrams,
            bytes: self.bytes,
        }
    }

    fn fixed_bytes() -> Option<usize> {
        if Ours::has_call(Call::New) {
            Some(lent(512, [1024, 512]).bytes())
        } else {
            None
        }
    }
}
