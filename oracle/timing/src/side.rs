//! What the rows ask of a side. A call that a side has not yet is never timed: `has_call` says which it has. Only flush and
//! update may then be made all the same, by another, where a row is prepared.

/// The calls that rows are prepared and timed by.
#[derive(Clone, Copy, PartialEq, Eq, Debug)]
pub enum Call {
    New,
    SetNodelay,
    SetWndsize,
    Input,
    Send,
    Recv,
    Flush,
    Update,
    Check,
}

/// How much a block holds, and how much it has put out since it was last told to forget it.
#[derive(Clone, Copy, PartialEq, Eq, Debug, Default)]
pub struct Sizes {
    /// Segments waiting to be sent.
    pub queued: usize,
    pub in_flight: usize,
    /// Segments received before one that is missing.
    pub held: usize,
    /// Segments that recv may take.
    pub readable: usize,
    /// Acks that wait for the next flush.
    pub acks: usize,
    pub datagrams: usize,
    pub bytes: usize,
}

/// A control block. A refused call ends the bench with a message, since no row makes one.
pub trait Side: Sized + 'static {
    fn has_call(call: Call) -> bool;

    /// A plain block, with so many slots to receive and to send, and as many acks as the window; all memory lent to it has been
    /// touched, so that no row times a page's first use.
    fn new(conv: u32, window: u16, slots: [usize; 2]) -> Self;

    fn set_nodelay(&mut self, nodelay: bool, interval: i32, resend: i32, nc: bool);
    fn set_wndsize(&mut self, sndwnd: u16, rcvwnd: u16);
    fn input(&mut self, datagram: &[u8]) -> usize;
    fn send(&mut self, message: &[u8]) -> usize;
    fn recv(&mut self, into: &mut [u8]) -> usize;
    fn flush(&mut self);
    fn update(&mut self, now: u32);
    fn check(&mut self, now: u32) -> u32;

    /// Updates, and hands over each datagram that this puts out, in the way that costs the side least: as it is made, or
    /// after the call from where it lies.
    fn update_to(&mut self, now: u32, each: &mut dyn FnMut(&[u8]));

    fn sizes(&mut self) -> Sizes;
    /// Begins the count of datagrams and bytes anew.
    fn forget(&mut self);
    /// Empties the ack list, as a flush does.
    fn forget_acks(&mut self);

    /// The bytes that a connection with window 512 holds at all times, if this side's memory is fixed.
    fn fixed_bytes() -> Option<usize>;

    fn has(calls: &[Call]) -> bool {
        calls.iter().all(|call| Self::has_call(*call))
    }
}

/// Ends the bench: something is not as a row says it is, and no figure of it would mean anything.
#[cold]
#[inline(never)]
pub fn give_up(why: &str) -> ! {
    eprintln!("bench: {}", why);
    std::process::exit(1)
}
