//! What a call of the port may write into the lent memory: all else must stay as it was. That what it wrote is right shows in the
//! state, which is compared by itself.
//!
//! A second memory, the shadow, follows the first: after each call it takes over what that call may have written, and no more. So
//! whatever was written astray is a difference between the two, and stays one. A call's own part of the records, of the ack list and
//! of the waiting bytes is held to the shadow after the call; everything that is lent, and the rooms, which are large, now and then.

use crate::exports;
use crate::memory::{at, Lent, Memory, Places, RcvRing, SndRing, MARK, ROOM, ROW};
use crate::out::Out;
use driver::call::Call;
use driver::side::{Answer, Outcome};
use std::ops::Range;

/// The numbers of a send slot that calls write by themselves; a flush writes all from the time-stamp on.
const FRG: usize = 1;
const TS: usize = 3;
const FASTACK: usize = 6;
/// The words of the receive ring, and those of the send ring.
const RECEIVE: Range<usize> = 6..9;
const SEND: Range<usize> = 9..13;

/// Whether a call with this answer leaves all as it was.
fn leaves_all(call: &Call, out: &Outcome, stream: bool) -> bool {
    match (&out.answer, call) {
        (Answer::Refused { number, .. }, Call::Input(_)) => ![2, 3, 4].contains(number),
        (Answer::Refused { number, .. }, Call::Send(_)) => *number != 8 || !stream,
        (Answer::Refused { .. }, _) => true,
        (_, Call::Peeksize) | (_, Call::Check(_)) => true,
        _ => false,
    }
}

/// Whether the call may change the numbers of the receive ring, and of the send ring.
fn touches(call: &Call) -> (bool, bool) {
    match call {
        Call::Recv(_) | Call::MoveBuf => (true, false),
        Call::Send(_) | Call::Flush | Call::Update(_) => (false, true),
        Call::Input(_) => (true, true),
        _ => (false, false),
    }
}

/// The bytes of a slot that a call may have written: the place, and which of its bytes.
type Written = (usize, Range<usize>);

pub struct Shadow {
    was: Memory,
    written: Vec<Written>,
    apart: Vec<usize>,
}

impl Shadow {
    pub fn of(m: &Memory) -> Shadow {
        Shadow { was: m.clone(), written: Vec::new(), apart: Vec::new() }
    }

    /// The shadow's own memory, for what is lent, and laid, to both.
    pub fn memory(&mut self) -> &mut Memory {
        &mut self.was
    }

    /// Takes all over but the rooms: what a call that is not the port's has changed.
    pub fn take_numbers(&mut self, m: &Memory) {
        self.was.words.clone_from(&m.words);
        self.was.send.records.clone_from(&m.send.records);
        self.was.acks.clone_from(&m.acks);
        self.was.waiting.clone_from(&m.waiting);
    }

    /// What a call wrote that should have stayed, in words; then follows it.
    pub fn follow(&mut self, m: &Memory, call: &Call, out: &Outcome) -> Option<String> {
        let stray = match call {
            Call::Start { .. } => None,
            _ => self.stray(m, call, out),
        };
        self.was.words.clone_from(&m.words);
        stray
    }

    fn stray(&mut self, m: &Memory, call: &Call, out: &Outcome) -> Option<String> {
        let words = &self.was.words;
        let leaves = leaves_all(call, out, at::STREAM.of(words) != 0);
        if leaves && *words != m.words {
            return Some("a call that leaves all changed the block's words".to_string());
        }
        let (receives, sends) = touches(call);
        if !receives && words[RECEIVE] != m.words[RECEIVE] || !sends && words[SEND] != m.words[SEND] {
            return Some(format!("{} changed the numbers of a ring that it does not touch", call.name()));
        }
        let stray = match call {
            Call::Input(_) | Call::Send(_) | Call::Flush | Call::Update(_) | Call::FlushAck if leaves => self.all_but_rooms(m),
            Call::Input(_) => self.input(m),
            Call::Send(_) => self.send(m),
            Call::Flush | Call::Update(_) => self.flush(m),
            Call::FlushAck => self.flush_ack(m),
            Call::Recv(_) | Call::Peeksize | Call::MoveBuf | Call::SetWndsize(..) if self.was.receive.records != m.receive.records => {
                Some("the receive records were written to".to_string())
            }
            _ => None,
        };
        stray.or_else(|| self.restarted(m))
    }

    /// A ring that the call has emptied starts at place 0.
    fn restarted(&self, m: &Memory) -> Option<String> {
        let used = |words: &[u32]| [RcvRing::of(words, 1).end(), SndRing::of(words, 1).end()];
        let (was, is) = (used(&self.was.words), used(&m.words));
        if was[0] > 0 && is[0] == 0 && m.at(at::RCV_START) != 0 || was[1] > 0 && is[1] == 0 && m.at(at::SND_START) != 0 {
            return Some("a ring that was emptied does not start at place 0".to_string());
        }
        None
    }

    // ---- all that is lent

    /// What differs from the shadow, the rooms among it if that is asked, or is not well formed.
    pub fn look_over(&self, m: &Memory, rooms: bool) -> Option<String> {
        let stray = self.all_but_rooms(m).or_else(|| if rooms { self.rooms(m) } else { None });
        stray.or_else(|| m.fault().map(|fault| format!("what is left is not well formed: {}", fault)))
    }

    fn all_but_rooms(&self, m: &Memory) -> Option<String> {
        let parts = [
            ("words", self.was.words == m.words),
            ("receive records", self.was.receive.records == m.receive.records),
            ("send records", self.was.send.records == m.send.records),
            ("ack list", self.was.acks == m.acks),
            ("waiting bytes", self.was.waiting == m.waiting),
        ];
        parts.iter().find(|part| !part.1).map(|part| format!("the {} were written to", part.0))
    }

    fn rooms(&self, m: &Memory) -> Option<String> {
        let astray = |name: &str, was: &Lent, is: &Lent| {
            if was.room == is.room {
                return None;
            }
            let byte = (0..was.room.len()).find(|i| was.room[*i] != is.room[*i])?;
            Some(format!("byte {} of slot {} of the {} room was written to", byte % ROOM, byte / ROOM, name))
        };
        astray("receive", &self.was.receive, &m.receive).or_else(|| astray("send", &self.was.send, &m.send))
    }

    // ---- what each call may write

    fn input(&mut self, m: &Memory) -> Option<String> {
        if self.was.waiting != m.waiting {
            return Some("the bytes that wait were written to".to_string());
        }
        let numbers = |m: &Memory| 2 * m.at(at::ACKS) as usize;
        let joined = numbers(&self.was)..numbers(m);
        if let Some(i) = follow(&mut self.was.acks, &m.acks, &mut self.apart, |_, i| joined.contains(&i)) {
            return Some(format!("number {} of the ack list was written to", i));
        }
        let (was, is) = (RcvRing::of(&self.was.words, m.receive.records.len()), m.rcv_ring());
        if was.places != is.places || was.queued > is.queued {
            return Some("an input moved the start of the receive ring".to_string());
        }
        let (before, after) = (&self.was.receive.records, &m.receive.records);
        let held = |i: usize| i < was.end() && before[was.places.place(i)] >= MARK;
        // the indices stay with their places, so that only those behind the queue can be taken
        let taken = |i: usize| was.queued <= i && i < is.end() && !held(i) && after[is.places.place(i)] >= MARK;
        self.written.clear();
        let slots = is.places.slots;
        self.written.extend((was.queued..is.end().min(slots)).filter(|i| taken(*i)).map(|i| {
            let place = is.places.place(i);
            (place, 0..after[place] as usize / MARK as usize - 1)
        }));
        // what comes to lie in reach and is not held is cleared
        let cleared = |i: usize| was.end() <= i && i < is.end();
        let may = |now: u32, place: usize| {
            let i = is.places.index(place);
            taken(i) || cleared(i) && now == 0
        };
        if let Some(i) = astray(before, after, &mut self.apart, may) {
            return Some(format!("number {} of the receive records was written to", i));
        }
        take(&mut self.was.receive.records, after, &self.apart);
        take_bytes(&mut self.was.receive.room, &m.receive.room, &self.written);
        self.acked(m)
    }

    /// Of the send ring an input makes gaps, and raises the fastack of those in flight.
    fn acked(&mut self, m: &Memory) -> Option<String> {
        let (was, is) = (self.was.snd_ring(), m.snd_ring());
        let marks = &m.send.records;
        let flies = |ring: &SndRing, place: usize| ring.places.index(place) < ring.reach;
        let may = |now: u32, i: usize| match column(&is.places, i) {
            (place, None) => flies(&was, place) && now == 0,
            (place, Some(column)) => column == FASTACK && flies(&is, place) && marks[place] > 0,
        };
        let i = follow(&mut self.was.send.records, &m.send.records, &mut self.apart, may)?;
        Some(format!("number {} of the send records was written to", i))
    }

    fn send(&mut self, m: &Memory) -> Option<String> {
        let (was, is) = (self.was.snd_ring(), m.snd_ring());
        // gaps are closed only where the places behind are too few
        let new = is.segments().saturating_sub(was.segments());
        let closes = was.end() + new > was.places.slots;
        if !closes && (is.places, is.reach) != (was.places, was.reach) {
            return Some("a send closed gaps with places enough behind".to_string());
        }
        let (before, after) = (&self.was.send.records, &m.send.records);
        let stream = at::STREAM.of(&self.was.words) != 0;
        let last = if stream && was.unsent > 0 { Some(was.places.place(was.end() - 1)) } else { None };
        let stands = |ring: &SndRing, marks: &[u32], place: usize| ring.places.index(place) < ring.end() && marks[place] > 0;
        let flew = |place: usize| was.places.index(place) < was.reach;
        let taken = |place: usize| stands(&is, after, place) && (!stands(&was, before, place) || closes && flew(place));
        let may = |_: u32, i: usize| match column(&is.places, i) {
            (place, None) => taken(place) || Some(place) == last,
            // a segment that is filled gets frg 0
            (place, Some(column)) => taken(place) || Some(place) == last && column == FRG,
        };
        self.written.clear();
        let first = if closes { 0 } else { was.end().min(is.end()) };
        let len = |marks: &[u32], place: usize| marks[place].saturating_sub(1) as usize;
        let new = (first..is.end()).map(|i| is.places.place(i)).filter(|place| taken(*place));
        self.written.extend(new.map(|place| (place, 0..len(after, place))));
        // the last that waited stays in its place, also where gaps are closed
        let filled = last.filter(|place| len(after, *place) > len(before, *place));
        self.written.extend(filled.map(|place| (place, len(before, place)..len(after, place))));
        if let Some(i) = astray(before, after, &mut self.apart, may) {
            return Some(format!("number {} of the send records was written to", i));
        }
        take(&mut self.was.send.records, &m.send.records, &self.apart);
        take_bytes(&mut self.was.send.room, &m.send.room, &self.written);
        None
    }

    /// A flush writes the numbers of those in flight: all of them where a segment has just gone there, and else those from the
    /// time-stamp on. Marks and payloads stay, and so do the ack list and the waiting bytes, of which there are none left.
    fn flush(&mut self, m: &Memory) -> Option<String> {
        let (was, is) = (self.was.snd_ring(), m.snd_ring());
        if is.places != was.places || is.end() != was.end() || is.reach < was.reach {
            return Some("a flush moved segments to send to other places".to_string());
        }
        let marks = &m.send.records;
        let may = |_: u32, i: usize| match column(&is.places, i) {
            (_, None) => false,
            (place, Some(column)) => {
                let i = is.places.index(place);
                marks[place] > 0 && i < is.reach && (column >= TS || i >= was.reach)
            }
        };
        if let Some(i) = follow(&mut self.was.send.records, &m.send.records, &mut self.apart, may) {
            return Some(format!("number {} of the send records was written to", i));
        }
        self.lists(m)
    }

    /// The ack list and the waiting bytes stay.
    fn lists(&self, m: &Memory) -> Option<String> {
        if self.was.acks != m.acks || self.was.waiting != m.waiting {
            return Some("the ack list or the bytes that wait were written to".to_string());
        }
        None
    }

    /// A flush of the acks alone writes the bytes that then wait.
    fn flush_ack(&mut self, m: &Memory) -> Option<String> {
        let waiting = (m.at(at::WAITING) as usize).min(m.waiting.len());
        self.was.waiting[..waiting].copy_from_slice(&m.waiting[..waiting]);
        self.lists(m)
    }
}

/// Makes one call, and looks over all that it could write.
pub fn watched(m: &mut Memory, call: &Call, out: &mut Outcome) {
    let mut shadow = Shadow::of(m);
    let mut bytes = Vec::new();
    call.put_bytes(&mut bytes);
    exports::apply(m, call, &bytes, &mut Out::new(0, 0), out);
    let stray = shadow.follow(m, call, out).or_else(|| shadow.look_over(m, true)).or_else(|| exports::tested(m));
    out.stray = out.stray.take().or(stray);
}

/// The place that number i of the send records is of, and which number of the row it is; none is the mark.
fn column(places: &Places, i: usize) -> (usize, Option<usize>) {
    match i.checked_sub(places.slots) {
        None => (i, None),
        Some(i) => (i / ROW, Some(i % ROW)),
    }
}

/// So many numbers are compared at once, since hardly any differ.
const CHUNK: usize = 32;

/// The first number that differs and may not, as `may` says by what it is now and by its index; all chunks that differ go to `apart`.
fn astray(was: &[u32], is: &[u32], apart: &mut Vec<usize>, may: impl Fn(u32, usize) -> bool) -> Option<usize> {
    apart.clear();
    if was == is {
        return None;
    }
    let chunks = was.chunks(CHUNK).zip(is.chunks(CHUNK)).enumerate();
    apart.extend(chunks.filter(|(_, (a, b))| a != b).map(|(i, _)| i * CHUNK));
    let in_chunk = |from: &usize| *from..(*from + CHUNK).min(was.len());
    apart.iter().flat_map(in_chunk).find(|i| was[*i] != is[*i] && !may(is[*i], *i))
}

/// Takes the chunks over that differ.
fn take(was: &mut [u32], is: &[u32], apart: &[usize]) {
    for from in apart {
        let chunk = *from..(*from + CHUNK).min(was.len());
        was[chunk.clone()].copy_from_slice(&is[chunk]);
    }
}

/// The first number that differs and may not; where there is none, takes over those that differ.
fn follow(was: &mut [u32], is: &[u32], apart: &mut Vec<usize>, may: impl Fn(u32, usize) -> bool) -> Option<usize> {
    let stray = astray(was, is, apart, may);
    if stray.is_none() {
        take(was, is, apart);
    }
    stray
}

fn take_bytes(was: &mut [u8], is: &[u8], written: &[Written]) {
    for (place, bytes) in written {
        let slot = place * ROOM + bytes.start.min(ROOM)..place * ROOM + bytes.end.min(ROOM);
        was[slot.clone()].copy_from_slice(&is[slot]);
    }
}
