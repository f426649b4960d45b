//! The published Rust as a side.

use crate::side::{give_up, Call, Side, Sizes};
use kcp_judge::{inside, Kcp, KcpResult};
use state::State;
use std::io::{self, Write};

/// The writer of a block: counts, and during `update_to` hands over.
#[derive(Default)]
struct Sink {
    datagrams: usize,
    bytes: usize,
    each: Option<*mut dyn FnMut(&[u8])>,
}

impl Write for Sink {
    #[inline]
    fn write(&mut self, datagram: &[u8]) -> io::Result<usize> {
        self.datagrams += 1;
        self.bytes += datagram.len();
        if let Some(each) = self.each {
            // Set by `update_to`, which runs now and holds the only reference.
            unsafe { (*each)(datagram) }
        }
        Ok(datagram.len())
    }

    fn flush(&mut self) -> io::Result<()> {
        Ok(())
    }
}

pub struct Rust {
    block: Kcp<Sink>,
}

#[inline]
fn done<T>(call: &str, answer: KcpResult<T>) -> T {
    match answer {
        Ok(value) => value,
        Err(error) => give_up(&format!("the Rust refused {}: {}", call, error)),
    }
}

// No call is inlined into a row: each is a call into a library, as the port's are.
impl Side for Rust {
    fn has_call(_: Call) -> bool {
        true
    }

    fn new(conv: u32, _window: u16, _slots: [usize; 2]) -> Rust {
        Rust { block: Kcp::new(conv, Sink::default()) }
    }

    fn set_nodelay(&mut self, nodelay: bool, interval: i32, resend: i32, nc: bool) {
        self.block.set_nodelay(nodelay, interval, resend, nc)
    }

    fn set_wndsize(&mut self, sndwnd: u16, rcvwnd: u16) {
        self.block.set_wndsize(sndwnd, rcvwnd)
    }

    #[inline(never)]
    fn input(&mut self, datagram: &[u8]) -> usize {
        done("input", self.block.input(datagram))
    }

    #[inline(never)]
    fn send(&mut self, message: &[u8]) -> usize {
        done("send", self.block.send(message))
    }

    #[inline(never)]
    fn recv(&mut self, into: &mut [u8]) -> usize {
        done("recv", self.block.recv(into))
    }

    #[inline(never)]
    fn flush(&mut self) {
        done("flush", self.block.flush())
    }

    #[inline(never)]
    fn update(&mut self, now: u32) {
        done("update", self.block.update(now))
    }

    #[inline(never)]
    fn check(&mut self, now: u32) -> u32 {
        self.block.check(now)
    }

    #[inline(never)]
    fn update_to(&mut self, now: u32, each: &mut dyn FnMut(&[u8])) {
        // A writer belongs to its block for good and so can borrow nothing; this one forgets before the borrow ends.
        let each: *mut (dyn FnMut(&[u8]) + '_) = each;
        let each: *mut (dyn FnMut(&[u8]) + 'static) = unsafe { std::mem::transmute(each) };
        inside::output(&mut self.block).each = Some(each);
        done("update", self.block.update(now));
        inside::output(&mut self.block).each = None;
    }

    fn forget(&mut self) {
        *inside::output(&mut self.block) = Sink::default();
    }

    fn forget_acks(&mut self) {
        inside::forget_acks(&mut self.block)
    }

    fn sizes(&mut self) -> Sizes {
        let mut now = State::default();
        inside::read(&self.block, &mut now);
        let sink = inside::output(&mut self.block);
        Sizes {
            queued: now.snd_queue.len(),
            in_flight: now.snd_buf.len(),
            held: now.rcv_buf.len(),
            readable: now.rcv_queue.len(),
            acks: now.acklist.len(),
            datagrams: sink.datagrams,
            bytes: sink.bytes,
        }
    }

    fn fixed_bytes() -> Option<usize> {
        None
    }
}
