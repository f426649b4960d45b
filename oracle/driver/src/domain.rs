//! Document 01's domain of equality: where the port and the Rust must agree. A call leaves it where the port would answer 11 to 16
//! or skip a push, where mtu passes 1,500, or where peeksize meets a front segment with frg 255.

use crate::call::{Call, Sizes, Tuned, PUSH};
use state::State;

/// The longest message, buffer and setting that a script may name.
pub const LONGEST: usize = 1 << 24;

/// Why the call leaves the domain, made with these bytes on a block in this state; `None` where it stays.
pub fn leaves(call: &Call, bytes: &[u8], s: &State, sizes: Sizes) -> Option<&'static str> {
    match call {
        Call::Input(_) => {
            if bytes.len() > 1500 {
                return Some("a datagram over 1,500 bytes");
            }
            if skips(bytes, s, sizes.acks) {
                return Some("a push that the ack list has no room for");
            }
            None
        }
        Call::Send(fill) if !send_fits(s, fill.len, sizes.send) => Some("a send that finds no free slots"),
        Call::SetWndsize(_, rcv) if *rcv > 0 && 2 * (*rcv).max(128) as usize > sizes.receive => {
            Some("a receive window over half of the slots")
        }
        Call::SetMtu(mtu) if *mtu > 1500 => Some("an mtu over 1,500"),
        Call::Recv(_) | Call::Peeksize if s.rcv_queue.first().map_or(false, |x| x.frg == 255) => {
            Some("a front segment with frg 255")
        }
        Call::Start { sizes, .. } if !lendable(*sizes) => Some("sizes outside the limits"),
        Call::Tune(Tuned::Ahead, by) if (*by as u32) < s.snd_nxt.wrapping_sub(s.snd_una) => {
            Some("numbers in flight that would no longer rise")
        }
        _ => None,
    }
}

fn lendable(s: Sizes) -> bool {
    (256..=1024).contains(&s.receive) && (128..=1024).contains(&s.send) && (128..=4096).contains(&s.acks)
}

/// Whether a push of the datagram would be acknowledged with the list full. It walks as input does; since a push can move
/// rcv_nxt on by what it takes, it takes each that could be acknowledged before or after for one that is.
fn skips(bytes: &[u8], s: &State, most: usize) -> bool {
    let mut acks = s.acklist.len();
    let mut at = 0;
    let mut moved = 0;
    while at + 24 <= bytes.len() {
        let word = |i: usize| u32::from_le_bytes([bytes[at + i], bytes[at + i + 1], bytes[at + i + 2], bytes[at + i + 3]]);
        if bytes[at + 4] == PUSH {
            let d = word(12).wrapping_sub(s.rcv_nxt);
            let wnd = s.rcv_wnd as u32;
            if d < wnd + moved || d >= (1 << 31) + wnd {
                acks += 1;
                moved += 1 + s.rcv_buf.len() as u32;
            }
        }
        at = at.saturating_add(24).saturating_add(word(20) as usize);
    }
    acks > most
}

/// Whether a send gets no answer 12: it is refused by 8, or its segments find slots.
fn send_fits(s: &State, len: usize, slots: usize) -> bool {
    let mut rest = len;
    if s.stream {
        let last = s.snd_queue.last().map_or(s.mss, |x| x.len);
        rest -= rest.min(s.mss.saturating_sub(last));
        if rest == 0 {
            return true;
        }
    }
    let count = ((rest + s.mss - 1) / s.mss).max(1);
    count >= 128 || s.snd_buf.len() + s.snd_queue.len() + count <= slots
}
