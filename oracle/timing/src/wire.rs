//! Datagrams, the same for both sides: written by the Rust's own writer, and renumbered for each stretch, since a block's
//! numbers only rise.

use kcp_judge::inside;
use state::Segment;

pub const CONV: u32 = 0x1122_3344;
pub const HEADER: usize = 24;
pub const PUSH: u8 = 81;
pub const ACK: u8 = 82;
pub const TELL: u8 = 84;
pub const KIB: usize = 1024;

/// One segment as it goes out.
pub fn datagram_of(cmd: u8, sn: u32, wnd: u16, payload: &[u8]) -> Vec<u8> {
    inside::encode_of(&Segment { conv: CONV, cmd, sn, wnd, data: payload.to_vec(), ..Segment::default() })
}

pub fn acks(numbers: impl Iterator<Item = u32>) -> Vec<u8> {
    numbers.flat_map(|sn| datagram_of(ACK, sn, 128, &[])).collect()
}

/// Raises the number of every segment of a datagram.
pub fn raise(datagram: &mut [u8], by: u32) {
    let mut at = 0;
    while at < datagram.len() {
        add(&mut datagram[at + 12..at + 16], by);
        at += HEADER + number(&datagram[at + 20..at + 24]) as usize;
    }
}

fn number(bytes: &[u8]) -> u32 {
    bytes.iter().rev().fold(0, |n, &byte| n << 8 | byte as u32)
}

/// Adds to a number of four bytes.
pub fn add(bytes: &mut [u8], by: u32) {
    let sum = number(bytes) + by;
    bytes.copy_from_slice(&sum.to_le_bytes());
}
