//! The bytes that a connection of the Rust holds, by an allocator that counts.

use crate::side::give_up;
use crate::wire::{add, datagram_of, CONV, KIB, PUSH, TELL};
use kcp_judge::{inside, Kcp, KcpResult};
use state::State;
use std::alloc::{GlobalAlloc, Layout, System};
use std::io;
use std::sync::atomic::{AtomicBool, AtomicUsize, Ordering::Relaxed};

static COUNTS: AtomicBool = AtomicBool::new(false);
static HELD: AtomicUsize = AtomicUsize::new(0);

/// The system's allocator. It counts only when asked to, so that the rows that are timed pay one predicted branch for it.
pub struct Counting;

/// The bench has one thread, so that reading and writing need not be one step.
#[inline]
fn count(new: usize, old: usize) {
    if COUNTS.load(Relaxed) {
        HELD.store(HELD.load(Relaxed).wrapping_add(new).wrapping_sub(old), Relaxed);
    }
}

unsafe impl GlobalAlloc for Counting {
    #[inline]
    unsafe fn alloc(&self, layout: Layout) -> *mut u8 {
        count(layout.size(), 0);
        System.alloc(layout)
    }

    #[inline]
    unsafe fn alloc_zeroed(&self, layout: Layout) -> *mut u8 {
        count(layout.size(), 0);
        System.alloc_zeroed(layout)
    }

    #[inline]
    unsafe fn dealloc(&self, at: *mut u8, layout: Layout) {
        count(0, layout.size());
        System.dealloc(at, layout)
    }

    #[inline]
    unsafe fn realloc(&self, at: *mut u8, layout: Layout, size: usize) -> *mut u8 {
        count(size, layout.size());
        System.realloc(at, layout, size)
    }
}

/// Runs calls of the connection whose bytes are counted; what is allocated between them is not its own.
fn counted<T>(calls: impl FnOnce() -> T) -> T {
    COUNTS.store(true, Relaxed);
    let answer = calls();
    COUNTS.store(false, Relaxed);
    answer
}

const WINDOW: u16 = 512;

type Block = Box<Kcp<io::Sink>>;

/// The bytes that one connection has asked of the allocator and not given back, the block itself among them.
pub fn figures() -> Vec<(&'static str, usize)> {
    HELD.store(0, Relaxed);
    let mut block = counted(|| Box::new(Kcp::new(CONV, io::sink())));
    let fresh = HELD.load(Relaxed);
    burst(&mut block).unwrap_or_else(refused);
    expect(&block, [WINDOW as usize; 3]);
    let after_burst = HELD.load(Relaxed);
    drain(&mut block).unwrap_or_else(refused);
    expect(&block, [0; 3]);
    vec![("held-fresh", fresh), ("held-burst-512", after_burst), ("held-drained", HELD.load(Relaxed))]
}

/// Puts 512 messages of 1 KiB in flight, and receives as many, which are left unread and not acked yet.
fn burst(block: &mut Block) -> KcpResult<()> {
    let message = vec![7; KIB];
    let tell = datagram_of(TELL, 0, WINDOW, &[]);
    counted(|| {
        block.set_nodelay(true, 10, 2, true);
        block.set_wndsize(WINDOW, WINDOW);
        block.input(&tell)?;
        (0..WINDOW).try_for_each(|_| block.send(&message).map(drop))?;
        block.update(0)
    })?;
    (0..WINDOW as u32).try_for_each(|sn| {
        let push = datagram_of(PUSH, sn, WINDOW, &message);
        counted(|| block.input(&push)).map(drop)
    })
}

/// Reads and acks what was received, and lets what was in flight arrive.
fn drain(block: &mut Block) -> KcpResult<()> {
    let mut into = vec![0; KIB];
    let mut arrived = datagram_of(TELL, 0, WINDOW, &[]);
    add(&mut arrived[16..20], u32::from(WINDOW));
    counted(|| {
        (0..WINDOW).try_for_each(|_| block.recv(&mut into).map(drop))?;
        block.update(10)?;
        block.input(&arrived).map(drop)
    })
}

fn refused(error: kcp_judge::Error) {
    give_up(&format!("the Rust refused a call of the burst: {}", error))
}

/// Tests how many segments are in flight, readable and to be acked, and that none wait or are held.
fn expect(block: &Block, counts: [usize; 3]) {
    let mut now = State::default();
    inside::read(block, &mut now);
    let is = [now.snd_buf.len(), now.rcv_queue.len(), now.acklist.len()];
    if is != counts || !now.snd_queue.is_empty() || !now.rcv_buf.is_empty() {
        give_up(&format!("the burst left {:?} in flight, readable and to be acked, and should leave {:?}", is, counts));
    }
}
