//! 15: what is not well formed is refused, by every call that is handed it, all as it was; and what stands at a place that is not in
//! use is no fault.

use super::ground::*;
use crate::exports;
use crate::memory::{most, Memory, MARK, ROOM, ROW};
use state::State;

/// The calls that are handed the receive memory, and those that are handed the send memory.
const RECEIVING: [&str; 6] = ["recv", "peeksize", "move_buf", "set_wndsize", "input", "receive_test"];
const SENDING: [&str; 3] = ["send", "input", "send_test"];

fn is_there(name: &str) -> bool {
    exports::has(name) || exports::HAS_TESTS && name.ends_with("_test")
}

/// Each of these calls is refused by 15 and leaves all as it was; and the rules as the driver has them say the same.
fn refused(what: &str, m: &Memory, calls: &[&str]) -> Result<(), String> {
    same(&format!("{}: that it is well formed", what), m.fault().is_none(), false)?;
    for name in calls.iter().filter(|name| is_there(name)) {
        let mut now = m.clone();
        let (number, left) = call(name, &mut now);
        same(&format!("{}: the answer of {}", what, name), number, 15)?;
        same(&format!("{}: that {} leaves the memory", what, name), now == *m, true)?;
        same(&format!("{}: that {} leaves the places of its answers", what, name), left, true)?;
    }
    Ok(())
}

/// These calls are, on a block that is spoilt in this way, in every shape.
fn spoilt_for(calls: &[&str], what: &str, spoil: impl Fn(&mut Memory)) -> Result<(), String> {
    let (judge, m) = reached(SMALL, false, &busy_calls());
    for mut m in std::iter::once(m).chain(shapes(&judge, SMALL, 3)) {
        spoil(&mut m);
        refused(what, &m, calls)?;
    }
    Ok(())
}

/// All that are handed the receive memory are.
fn spoilt(what: &str, spoil: impl Fn(&mut Memory)) -> Result<(), String> {
    spoilt_for(&RECEIVING, what, spoil)
}

/// All that are handed the send memory are.
fn send_spoilt(what: &str, spoil: impl Fn(&mut Memory)) -> Result<(), String> {
    spoilt_for(&SENDING, what, spoil)
}

pub fn sound() -> Result<(), String> {
    for sizes in [SMALL, LARGE].iter() {
        let (judge, m) = reached(*sizes, false, &busy_calls());
        for m in std::iter::once(m).chain(shapes(&judge, *sizes, 40)) {
            same("what is not well formed", m.fault(), None)?;
            for name in RECEIVING.iter().chain(&SENDING).filter(|name| is_there(name)) {
                same(name, call(name, &mut m.clone()).0, 0)?;
            }
        }
    }
    Ok(())
}

// the block has 3 queued, and 1, 3 and 4 past them held; 5 in flight and 3 waiting

pub fn receive_marks_bad() -> Result<(), String> {
    for i in 0..3 {
        spoilt("a mark of 0 in the queue", |m| *m.received(i) %= MARK)?;
        spoilt("a mark of 1,478 in the queue", |m| *m.received(i) = 1478 * MARK)?;
    }
    for i in 3..8 {
        spoilt("a mark of 1,478 in the reach", |m| *m.received(i) = 1478 * MARK)?;
    }
    spoilt("the largest word in the queue", |m| *m.received(1) = u32::MAX)?;
    spoilt("the largest word in the reach", |m| *m.received(6) = u32::MAX)
}

pub fn receive_ring_bad() -> Result<(), String> {
    for start in [256, 257, 1023, 1024, u32::MAX].iter() {
        spoilt(&format!("start {}", start), |m| m.set_number("rcv_start", *start))?;
    }
    // so that the marks are no fault
    let full = |m: &mut Memory| m.receive.records.iter_mut().for_each(|word| *word = MARK);
    for (name, value) in [("queued", 129), ("queued", u32::MAX), ("rcv_reach", 129), ("rcv_reach", u32::MAX)].iter() {
        spoilt(&format!("{} {}", name, value), |m| {
            full(m);
            m.set_number(name, *value);
        })?;
    }
    let mut m = block(SMALL);
    full(&mut m);
    m.set_number("queued", 128);
    m.set_number("rcv_reach", 128);
    same("the answer with all slots in use", call("move_buf", &mut m).0, 0)
}

pub fn sizes_bad() -> Result<(), String> {
    for slots in [0, 8, 255, 1025].iter() {
        spoilt(&format!("{} slots", slots), |m| m.receive.resize(*slots, 1))?;
    }
    spoilt("records too short", |m| m.receive.records.truncate(255))?;
    spoilt("records too long", |m| m.receive.records.push(0))?;
    spoilt("a room too short", |m| m.receive.room.truncate(256 * ROOM - 1))?;
    spoilt("a room too long", |m| m.receive.room.push(0))
}

/// Words that are no block: each of these calls is refused.
fn no_block(calls: &[&str]) -> Result<(), String> {
    spoilt_for(calls, "no words", |m| m.words.clear())?;
    spoilt_for(calls, "34 words", |m| m.words.truncate(34))?;
    spoilt_for(calls, "36 words", |m| m.words.push(0))?;
    for bit in [6, 7, 16, 31].iter() {
        spoilt_for(calls, &format!("bit {} of word 0", bit), |m| m.words[0] |= 1 << bit)?;
    }
    spoilt_for(calls, "word 0 = 64", |m| m.words[0] = 64)
}

pub fn words_bad() -> Result<(), String> {
    no_block(&RECEIVING)
}

/// Numbers that no block has, whatever is lent.
const NUMBERS: [(&str, u32); 31] = [
    ("mtu", 49), ("mtu", 1501), ("mtu", 0), ("mss", 1375), ("mss", 0), ("rcv_wnd", 127), ("rcv_wnd", 129), ("rcv_wnd", 0),
    ("largest", 127), ("largest", 0), ("largest", 513), ("queued", 129), ("queued", u32::MAX), ("rcv_reach", 129),
    ("rcv_reach", u32::MAX), ("rcv_start", 1024), ("rcv_start", u32::MAX), ("snd_start", 1024), ("snd_start", u32::MAX),
    ("snd_reach", 4), ("snd_reach", u32::MAX), ("unsent", u32::MAX), ("flying", 0), ("flying", u32::MAX), ("probe_wait", 1),
    ("probe_wait", 6999), ("probe_wait", 120_001), ("acks", 4097), ("acks", u32::MAX), ("waiting", 1501), ("waiting", u32::MAX),
];

/// Those that have no limit.
const UNLIMITED: [&str; 25] = [
    "rcv_nxt", "probe", "conv", "snd_una", "snd_nxt", "snd_wnd", "rmt_wnd", "cwnd", "ssthresh", "incr_low", "incr_high", "rx_srtt",
    "rx_rttval", "rx_rto", "rx_minrto", "current", "interval", "ts_flush", "ts_probe", "xmit", "fastresend", "fastlimit", "dead_link",
    "nodelay", "dead",
];

fn own_numbers_bad(calls: &[&str]) -> Result<(), String> {
    let sound = block(SMALL);
    for (name, value) in NUMBERS.iter() {
        let mut m = sound.clone();
        m.set_number(name, *value);
        refused(&format!("{} {}", name, value), &m, calls)?;
    }
    let mut m = sound.clone();
    m.set_number("mtu", 49);
    m.set_number("mss", 25);
    refused("mtu 49 and its mss", &m, calls)?;
    for name in UNLIMITED.iter() {
        let mut m = sound.clone();
        m.set_number(name, most(name));
        for it in calls.iter().filter(|it| is_there(it)) {
            same(&format!("that {} with the largest {} answers 15", it, name), call(it, &mut m.clone()).0 == 15, false)?;
        }
    }
    Ok(())
}

pub fn numbers_bad() -> Result<(), String> {
    own_numbers_bad(&RECEIVING)?;
    spoilt("a largest window over half of the slots", |m| m.set_number("largest", 129))
}

pub fn send_numbers_bad() -> Result<(), String> {
    own_numbers_bad(&SENDING)?;
    no_block(&SENDING)
}

/// The index of the k-th segment in flight, and that of one that waits.
fn flies(m: &Memory, k: usize) -> usize {
    let ring = m.snd_ring();
    let live = |i: &usize| m.send.records[ring.places.place(*i)] > 0;
    (0..ring.reach).filter(live).nth(k).unwrap_or(0)
}

fn waits(m: &Memory, k: usize) -> usize {
    m.snd_ring().reach + k
}

pub fn send_marks_bad() -> Result<(), String> {
    for mark in [1478, 65536, u32::MAX].iter() {
        for k in 0..5 {
            send_spoilt(&format!("a mark of {} in flight", mark), |m| {
                let i = flies(m, k);
                *m.mark(i) = *mark;
            })?;
        }
        for k in 0..3 {
            send_spoilt(&format!("a mark of {} in what waits", mark), |m| {
                let i = waits(m, k);
                *m.mark(i) = *mark;
            })?;
        }
    }
    for k in 0..3 {
        send_spoilt("a mark of 0 in what waits", |m| {
            let i = waits(m, k);
            *m.mark(i) = 0;
        })?;
    }
    Ok(())
}

pub fn flying_bad() -> Result<(), String> {
    send_spoilt("one more than are in flight", |m| m.set_number("flying", 6))?;
    send_spoilt("one less than are in flight", |m| m.set_number("flying", 4))?;
    for k in 1..5 {
        send_spoilt("a gap that is counted", |m| {
            let i = flies(m, k);
            *m.mark(i) = 0;
        })?;
    }
    send_spoilt("a gap at the front", |m| {
        *m.mark(0) = 0;
        m.set_number("flying", 4);
    })?;
    // a reach that is all gaps
    send_spoilt("no segment in the reach", |m| {
        let reach = m.snd_ring().reach;
        (0..reach).for_each(|i| *m.mark(i) = 0);
        m.set_number("flying", 0);
    })
}

pub fn send_ring_bad() -> Result<(), String> {
    for start in [128, 129, 1023, 1024, u32::MAX].iter() {
        send_spoilt(&format!("start {}", start), |m| m.set_number("snd_start", *start))?;
    }
    // so that the marks are no fault
    let full = |m: &mut Memory| m.send.records[..128].iter_mut().for_each(|mark| *mark = 1);
    for (reach, unsent) in [(126, 3), (5, 124), (128, 1), (0, 129), (129, 0), (u32::MAX, 0), (0, u32::MAX), (u32::MAX - 2, 3)].iter() {
        send_spoilt(&format!("a reach of {} and {} waiting", reach, unsent), |m| {
            full(m);
            m.set_number("snd_reach", *reach);
            m.set_number("flying", *reach);
            m.set_number("unsent", *unsent);
        })?;
    }
    let mut m = block(SMALL);
    full(&mut m);
    m.set_number("snd_reach", 125);
    m.set_number("flying", 125);
    same("the answer with all slots in use", send(&mut m, 1), (12, 77))
}

pub fn send_sizes_bad() -> Result<(), String> {
    for slots in [0, 8, 127, 1025].iter() {
        send_spoilt(&format!("{} slots", slots), |m| m.send.resize(*slots, 1 + ROW))?;
    }
    send_spoilt("the marks alone", |m| m.send.records.truncate(128))?;
    send_spoilt("records too short", |m| m.send.records.truncate(9 * 128 - 1))?;
    send_spoilt("records of a slot less", |m| m.send.records.truncate(9 * 127))?;
    send_spoilt("records too long", |m| m.send.records.push(0))?;
    send_spoilt("a room too short", |m| m.send.room.truncate(128 * ROOM - 1))?;
    send_spoilt("a room too long", |m| m.send.room.push(0))
}

/// Everything at a place that is not in use becomes the same odd number, the row of a gap too, and the bytes past a payload others:
/// all answers stay what they were, and the blocks that are left.
pub fn free_damaged() -> Result<(), String> {
    let (judge, m) = reached(SMALL, false, &busy_calls());
    for m in std::iter::once(m).chain(shapes(&judge, SMALL, 6)) {
        for odd in [0, 1, 1478, 1478 * MARK, u32::MAX].iter() {
            let mut damaged = m.clone();
            damage(&mut damaged, *odd);
            for name in RECEIVING.iter().chain(&SENDING).filter(|name| is_there(name)) {
                let (mut x, mut y) = (m.clone(), damaged.clone());
                same(&format!("the answers of {} beside {}", name, odd), (call(name, &mut x).0, call(name, &mut y).0), (0, 0))?;
                let (mut a, mut b) = (State::default(), State::default());
                x.read(&mut a);
                y.read(&mut b);
                same(&format!("that {} leaves the same block beside {}", name, odd), a == b, true)?;
            }
        }
    }
    Ok(())
}

fn damage(m: &mut Memory, odd: u32) {
    let (rcv, snd) = (m.rcv_ring(), m.snd_ring());
    let past = |room: &mut [u8], place: usize, mark: u32| {
        let from = place * ROOM + mark.saturating_sub(1) as usize;
        room[from..(place + 1) * ROOM].iter_mut().for_each(|b| *b ^= 0x5A)
    };
    for i in 0..rcv.places.slots {
        let place = rcv.places.place(i);
        if i >= rcv.end() {
            m.receive.records[place] = odd;
        }
        let mark = if i < rcv.end() { m.receive.records[place] / MARK } else { 0 };
        past(&mut m.receive.room, place, mark);
    }
    for i in 0..snd.places.slots {
        let place = snd.places.place(i);
        if i >= snd.end() {
            m.send.records[place] = odd;
        }
        let mark = if i < snd.end() { m.send.records[place] } else { 0 };
        if mark == 0 {
            m.send.records[snd.places.slots + place * ROW..][..ROW].iter_mut().for_each(|n| *n = odd);
        }
        past(&mut m.send.room, place, mark);
    }
}

pub fn acks_bad() -> Result<(), String> {
    let with = |what: &str, spoil: &dyn Fn(&mut Memory)| {
        let mut m = block(SMALL);
        spoil(&mut m);
        refused(what, &m, &["input"])
    };
    with("129 acks of 128", &|m| m.set_number("acks", 129))?;
    with("2^32 - 1 acks", &|m| m.set_number("acks", u32::MAX))?;
    with("no list", &|m| m.acks.clear())?;
    with("a list of 127", &|m| m.acks.truncate(254))?;
    with("a list of 4,097", &|m| m.acks.resize(2 * 4097, 0))?;
    with("half a pair", &|m| m.acks.push(0))?;
    with("1,499 bytes for what waits", &|m| m.waiting.truncate(1499))?;
    with("1,501 bytes for what waits", &|m| m.waiting.push(0))
}
