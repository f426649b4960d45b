//! The other side: the port, and a copy of the Rust for the calls that the port lacks.
//!
//! The state stands in the lent memory from the first call on, in the slots that the port itself chose. A second memory follows what
//! each call may write there (`watch`). While the port lacks a call, a copy of the Rust makes every call beside it, so that it can make
//! that one; its numbers are then laid into the memory, whose payloads no such call changes.
//!
//! In half of the sequences the state is read out now and then and laid elsewhere, so that the port meets rings at their wrap, gaps and
//! stale words that its own calls seldom lead to; and it is laid into the copy, which so loses the numbers that the memory does not keep.

use crate::exports;
use crate::memory::{Lent, Memory, Shape, ROW};
use crate::out::Out;
use crate::watch::Shadow;
use driver::call::{Call, Sizes, LEAVES};
use driver::side::{Outcome, Side};
use state::{State, Touched};

/// Once in so many flushes a state is laid elsewhere.
const ELSEWHERE: u64 = 8;

pub struct Joined<S: Side> {
    copy: Option<S>,
    memory: Memory,
    shadow: Shadow,
    /// What is not lent at present, with what the shadow holds of it: memory of other sizes, kept since it is dear to make.
    shelf: Vec<[Lent; 2]>,
    out: Out,
    /// Whether segments stay in the slots that the port chose.
    stay: bool,
    s: State,
    unheard: Outcome,
}

/// Whether the call is a flush of any kind.
fn flushes(call: &Call) -> bool {
    match call {
        Call::Flush | Call::FlushAck | Call::Update(_) => true,
        _ => false,
    }
}

impl<S: Side> Joined<S> {
    pub fn new(copy: S) -> Joined<S> {
        let memory = Memory::new(Sizes { receive: 1024, send: 1024, acks: 4096 });
        let shadow = Shadow::of(&memory);
        Joined {
            copy: if exports::has_flushes() { None } else { Some(copy) },
            memory,
            shadow,
            shelf: Vec::new(),
            out: Out::new(0, 0),
            stay: false,
            s: State::default(),
            unheard: Outcome::new(),
        }
    }

    /// Lends memory of these sizes, with the contents that it had when it was lent last.
    fn lend(&mut self, sizes: Sizes) {
        let (m, was) = (&mut self.memory, self.shadow.memory());
        swap_lent(&mut self.shelf, &mut m.receive, &mut was.receive, sizes.receive, 1);
        swap_lent(&mut self.shelf, &mut m.send, &mut was.send, sizes.send, 1 + ROW);
        m.acks.resize(2 * sizes.acks, 0);
        was.acks.clone_from(&m.acks);
    }

    /// Now and then lays the state that the memory holds at other places, in the shadow too; what was written astray before, in words,
    /// since it would be lost.
    fn lay_elsewhere(&mut self) -> Option<String> {
        self.memory.read_numbers(&mut self.s);
        if Shape::seed(&self.s) % ELSEWHERE != 0 {
            return None;
        }
        if let Some(stray) = self.shadow.look_over(&self.memory, false) {
            return Some(stray);
        }
        self.memory.read(&mut self.s);
        self.lay_both();
        // the copy too goes on with what the memory keeps, which leaves out what nothing reads again
        if let Some(copy) = &mut self.copy {
            copy.lay(&self.s, self.memory.sizes());
        }
        None
    }

    fn lay_both(&mut self) {
        let shape = Shape::of(&self.s, self.memory.sizes());
        self.memory.lay_as(&self.s, &shape);
        self.shadow.memory().lay_as(&self.s, &shape);
        assert_eq!(self.memory.fault(), None, "a state was laid that is not well formed");
    }

    /// The copy makes a call that the port lacks, and the memory takes its numbers over.
    fn make_by_copy(&mut self, call: &Call, out: &mut Outcome) {
        let copy = match &mut self.copy {
            Some(copy) => copy,
            None => return,
        };
        copy.make(call, &[], out);
        if let Call::Check(_) = call {
            return;
        }
        copy.read_numbers(&mut self.s, Touched::ALL);
        if self.s.snd_buf.len() + self.s.snd_queue.len() != self.memory.snd_ring().segments() {
            out.stray = Some("not the segments that the copy of the Rust has to send".to_string());
            return;
        }
        // what was written astray before would be lost
        out.stray = self.shadow.look_over(&self.memory, false);
        if out.stray.is_some() {
            return;
        }
        self.memory.lay_numbers(&self.s);
        self.shadow.take_numbers(&self.memory);
    }
}

/// Puts what is lent onto the shelf where it is not of this size, and takes from there what is.
fn swap_lent(shelf: &mut Vec<[Lent; 2]>, lent: &mut Lent, was: &mut Lent, slots: usize, width: usize) {
    let fits = |lent: &Lent| lent.records.len() == slots * width && lent.room.len() == Lent::bytes(slots);
    if fits(lent) {
        return;
    }
    let [mut new, mut follows] = match shelf.iter().position(|x| fits(&x[0])) {
        Some(i) => shelf.swap_remove(i),
        None => [Lent::new(slots, width), Lent::new(slots, width)],
    };
    std::mem::swap(lent, &mut new);
    std::mem::swap(was, &mut follows);
    shelf.push([new, follows]);
}

impl<S: Side> Side for Joined<S> {
    fn name(&self) -> &'static str {
        "other"
    }

    fn has(&self, _: &str) -> bool {
        true
    }

    fn keeps_all(&self) -> bool {
        false
    }

    fn make(&mut self, call: &Call, bytes: &[u8], out: &mut Outcome) {
        let name = call.name();
        if LEAVES.contains(&name) {
            return exports::apply_leaf(call, out);
        }
        if let Call::Start { rcv, snd, sizes, .. } = call {
            self.stay = (rcv ^ snd) % 2 == 0;
            self.lend(*sizes);
        }
        if exports::FLUSHES.contains(&name) && !exports::has(name) {
            self.make_by_copy(call, out);
        } else {
            exports::apply(&mut self.memory, call, bytes, &mut self.out, out);
            if let Call::Tune(..) = call {
                self.shadow.take_numbers(&self.memory);
            }
            let stray = self.shadow.follow(&self.memory, call, out);
            out.stray = out.stray.take().or(stray);
            if let Some(copy) = &mut self.copy {
                copy.make(call, bytes, &mut self.unheard);
            }
        }
        if flushes(call) && !self.stay && out.stray.is_none() {
            out.stray = self.lay_elsewhere();
        }
    }

    fn read(&self, into: &mut State) {
        self.memory.read(into);
        into.forget_unread();
    }

    fn read_numbers(&self, into: &mut State, _: Touched) {
        self.memory.read_numbers(into);
    }

    fn agrees(&mut self, s: &State, touched: Touched) -> bool {
        self.memory.agrees(s, touched)
    }

    fn payloads(&self) -> Box<dyn Iterator<Item = &[u8]> + '_> {
        Box::new(self.memory.payloads())
    }

    fn stored(&self, sn: u32) -> Option<&[u8]> {
        self.memory.stored(sn)
    }

    fn waiting(&self, i: usize) -> Option<&[u8]> {
        self.memory.waiting_payload(i)
    }

    fn look_over(&mut self, rooms: bool) -> Option<String> {
        self.shadow.look_over(&self.memory, rooms).or_else(|| exports::tested(&self.memory))
    }

    fn lay(&mut self, state: &State, sizes: Sizes) {
        self.lend(sizes);
        self.s.clone_from(state);
        assert!(self.memory.fits(&self.s), "a state of the domain does not fit the memory that is lent: {:?}", sizes);
        self.lay_both();
        if let Some(copy) = &mut self.copy {
            copy.lay(state, sizes);
        }
    }
}
