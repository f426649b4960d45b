//! What is lent for datagrams: bytes and lengths, with a pattern in both, so that what a call writes past its own shows.

use crate::memory::{at, Memory};
use driver::side::Datagrams;

const BYTE: u8 = 0x5A;
const LENGTH: u16 = 0xA55A;
/// What the count holds before a call puts it there.
const COUNT: usize = 0x5555_5555;

#[derive(Clone, PartialEq, Eq)]
pub struct Out {
    pub bytes: Vec<u8>,
    pub lengths: Vec<u16>,
    pub datagrams: usize,
}

/// The most bytes and datagrams that a flush of this block can put out.
pub fn most(m: &Memory) -> (usize, usize) {
    let ring = m.snd_ring();
    let segments = ring.segments().min(ring.places.slots);
    let marks = (0..ring.end().min(ring.places.slots)).map(|i| m.send.records[ring.places.place(i)] as usize);
    let pieces = m.at(at::ACKS) as usize + 2 + segments;
    (m.at(at::WAITING) as usize + 24 * pieces + marks.sum::<usize>(), 1 + pieces)
}

impl Out {
    /// So many bytes and lengths.
    pub fn new(bytes: usize, lengths: usize) -> Out {
        Out { bytes: vec![BYTE; bytes], lengths: vec![LENGTH; lengths], datagrams: COUNT }
    }

    /// Lends enough for any flush of this block, and hardly more.
    pub fn lend(&mut self, m: &Memory) {
        let (bytes, lengths) = most(m);
        self.bytes.resize(bytes, BYTE);
        self.lengths.resize(lengths, LENGTH);
        self.datagrams = COUNT;
    }

    /// Takes the datagrams of a call with this answer, and puts the pattern back; what else the call wrote, in words.
    pub fn collect(&mut self, number: u32, into: &mut Datagrams) -> Option<String> {
        let count = if number == 0 { self.datagrams } else { 0 };
        if number != 0 && self.datagrams != COUNT {
            return Some("a refused call wrote the count of datagrams".to_string());
        }
        if count > self.lengths.len() {
            return Some(format!("{} datagrams, for which {} lengths were lent", count, self.lengths.len()));
        }
        let mut end = 0;
        for length in &mut self.lengths[..count] {
            let from = end;
            end += *length as usize;
            match self.bytes.get(from..end) {
                Some(datagram) if from < end => into.push(datagram),
                Some(_) => return Some("an empty datagram".to_string()),
                None => return Some("datagrams longer than the bytes lent".to_string()),
            }
            *length = LENGTH;
        }
        self.bytes[..end].iter_mut().for_each(|byte| *byte = BYTE);
        self.untouched()
    }

    /// What differs from the pattern, in words.
    pub fn untouched(&self) -> Option<String> {
        if let Some(i) = self.bytes.iter().position(|byte| *byte != BYTE) {
            return Some(format!("byte {} was written to, past the datagrams", i));
        }
        self.lengths.iter().position(|length| *length != LENGTH).map(|i| format!("length {} was written to, past the datagrams", i))
    }
}
