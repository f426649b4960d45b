//! The whole of a control block as plain values: what two sides are compared by, and what is laid from one into another.

/// A segment with every number that the Rust keeps of it, and the length of its payload. Where a state is read without the payloads,
/// `data` is empty, whatever `len` is.
#[derive(Clone, PartialEq, Eq, Debug, Default)]
pub struct Segment {
    pub conv: u32,
    pub cmd: u8,
    pub frg: u8,
    pub wnd: u16,
    pub ts: u32,
    pub sn: u32,
    pub una: u32,
    pub resendts: u32,
    pub rto: u32,
    pub fastack: u32,
    pub xmit: u32,
    pub len: usize,
    pub data: Vec<u8>,
}

/// Every field of the block, under the Rust's names, and `largest`, the largest receive window yet set.
#[derive(Clone, PartialEq, Eq, Debug, Default)]
pub struct State {
    pub conv: u32,
    pub mtu: usize,
    pub mss: usize,
    pub state: i32,
    pub snd_una: u32,
    pub snd_nxt: u32,
    pub rcv_nxt: u32,
    pub ssthresh: u16,
    pub rx_rttval: u32,
    pub rx_srtt: u32,
    pub rx_rto: u32,
    pub rx_minrto: u32,
    pub snd_wnd: u16,
    pub rcv_wnd: u16,
    pub rmt_wnd: u16,
    pub cwnd: u16,
    pub probe: u32,
    pub current: u32,
    pub interval: u32,
    pub ts_flush: u32,
    pub xmit: u32,
    pub nodelay: bool,
    pub updated: bool,
    pub ts_probe: u32,
    pub probe_wait: u32,
    pub dead_link: u32,
    pub incr: usize,
    pub fastresend: u32,
    pub fastlimit: u32,
    pub nocwnd: bool,
    pub stream: bool,
    pub input_conv: bool,
    pub snd_queue: Vec<Segment>,
    pub rcv_queue: Vec<Segment>,
    pub snd_buf: Vec<Segment>,
    pub rcv_buf: Vec<Segment>,
    pub acklist: Vec<(u32, u32)>,
    pub buf: Vec<u8>,
    pub largest: u16,
}

impl Segment {
    /// A segment with this payload, and no other number.
    pub fn holding(data: Vec<u8>) -> Segment {
        Segment { len: data.len(), data, ..Segment::default() }
    }

    /// Overwrites this segment with another's numbers and payload, keeping the memory.
    pub fn set(&mut self, numbers: Segment, data: &[u8]) {
        self.set_numbers(numbers);
        self.data.extend_from_slice(data);
    }

    /// Overwrites its numbers, and empties its payload.
    #[inline]
    pub fn set_numbers(&mut self, numbers: Segment) {
        let mut kept = std::mem::take(&mut self.data);
        kept.clear();
        *self = numbers;
        self.data = kept;
    }
}

/// Which lists of segments a call can change: those of the receive side, those of the sending side.
#[derive(Clone, Copy, PartialEq, Eq, Debug)]
pub struct Touched {
    pub received: bool,
    pub to_send: bool,
}

impl Touched {
    pub const ALL: Touched = Touched { received: true, to_send: true };
}

/// What a state is called where it differs from another.
pub type Difference = (String, String, String);

macro_rules! compare {
    ($a:expr, $b:expr, $out:expr, $($field:ident)*) => {
        $( if $a.$field != $b.$field {
            $out.push((stringify!($field).to_string(), format!("{:?}", $a.$field), format!("{:?}", $b.$field)));
        } )*
    };
}

fn segments(name: &str, a: &[Segment], b: &[Segment], out: &mut Vec<Difference>) {
    if a.len() != b.len() {
        out.push((format!("{}.len", name), a.len().to_string(), b.len().to_string()));
    }
    for (i, (x, y)) in a.iter().zip(b).enumerate() {
        if x != y {
            out.push((format!("{}[{}]", name, i), format!("{:?}", x), format!("{:?}", y)));
            return;
        }
    }
}

impl State {
    /// The fields in which two states differ, with both values.
    pub fn differences(&self, other: &State) -> Vec<Difference> {
        let mut out = Vec::new();
        compare!(self, other, out,
            conv mtu mss state snd_una snd_nxt rcv_nxt ssthresh rx_rttval rx_srtt rx_rto rx_minrto snd_wnd rcv_wnd rmt_wnd
            cwnd probe current interval ts_flush xmit nodelay updated ts_probe probe_wait dead_link incr fastresend fastlimit
            nocwnd stream input_conv acklist buf largest);
        segments("snd_queue", &self.snd_queue, &other.snd_queue, &mut out);
        segments("rcv_queue", &self.rcv_queue, &other.rcv_queue, &mut out);
        segments("snd_buf", &self.snd_buf, &other.snd_buf, &mut out);
        segments("rcv_buf", &self.rcv_buf, &other.rcv_buf, &mut out);
        out
    }

    /// Forgets what the port does not keep since nothing reads it again: of a received segment all but sn, frg and payload,
    /// of a segment in flight wnd and una, which each transmission writes anew.
    pub fn forget_unread(&mut self) {
        for s in self.rcv_queue.iter_mut().chain(self.rcv_buf.iter_mut()) {
            s.conv = 0;
            s.cmd = 0;
            s.wnd = 0;
            s.ts = 0;
            s.una = 0;
        }
        for s in self.snd_buf.iter_mut() {
            s.wnd = 0;
            s.una = 0;
        }
    }
}
