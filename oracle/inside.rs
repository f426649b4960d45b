
/// Not published: appended to kcp.rs when the judge is built, so that the drivers can read and lay the private state.
/// The text above it is the published one.
pub mod inside {
    use super::*;
    use state::{Segment, State, Touched};

    fn plain(s: &KcpSegment) -> Segment {
        Segment {
            conv: s.conv,
            cmd: s.cmd,
            frg: s.frg,
            wnd: s.wnd,
            ts: s.ts,
            sn: s.sn,
            una: s.una,
            resendts: s.resendts,
            rto: s.rto,
            fastack: s.fastack,
            xmit: s.xmit,
            len: s.data.len(),
            data: Vec::new(),
        }
    }

    fn own(s: &Segment) -> KcpSegment {
        KcpSegment {
            conv: s.conv,
            cmd: s.cmd,
            frg: s.frg,
            wnd: s.wnd,
            ts: s.ts,
            sn: s.sn,
            una: s.una,
            resendts: s.resendts,
            rto: s.rto,
            fastack: s.fastack,
            xmit: s.xmit,
            data: BytesMut::from(&s.data[..]),
        }
    }

    fn read_all(from: &VecDeque<KcpSegment>, to: &mut Vec<Segment>, touched: bool, whole: bool) {
        if !touched && from.len() == to.len() {
            return;
        }
        to.resize_with(from.len(), Segment::default);
        for (s, t) in from.iter().zip(to) {
            t.set_numbers(plain(s));
            if whole {
                t.data.extend_from_slice(&s.data);
            }
        }
    }

    /// The whole state, but for `largest`, which the Rust does not keep.
    pub fn read<O>(k: &Kcp<O>, s: &mut State) {
        read_parts(k, s, Touched::ALL, true)
    }

    /// The same without the payloads, of which the lengths are told; and without the lists that the last call could not change.
    pub fn read_numbers<O>(k: &Kcp<O>, s: &mut State, touched: Touched) {
        read_parts(k, s, touched, false)
    }

    fn read_parts<O>(k: &Kcp<O>, s: &mut State, touched: Touched, whole: bool) {
        s.conv = k.conv;
        s.mtu = k.mtu;
        s.mss = k.mss;
        s.state = k.state;
        s.snd_una = k.snd_una;
        s.snd_nxt = k.snd_nxt;
        s.rcv_nxt = k.rcv_nxt;
        s.ssthresh = k.ssthresh;
        s.rx_rttval = k.rx_rttval;
        s.rx_srtt = k.rx_srtt;
        s.rx_rto = k.rx_rto;
        s.rx_minrto = k.rx_minrto;
        s.snd_wnd = k.snd_wnd;
        s.rcv_wnd = k.rcv_wnd;
        s.rmt_wnd = k.rmt_wnd;
        s.cwnd = k.cwnd;
        s.probe = k.probe;
        s.current = k.current;
        s.interval = k.interval;
        s.ts_flush = k.ts_flush;
        s.xmit = k.xmit;
        s.nodelay = k.nodelay;
        s.updated = k.updated;
        s.ts_probe = k.ts_probe;
        s.probe_wait = k.probe_wait;
        s.dead_link = k.dead_link;
        s.incr = k.incr;
        s.fastresend = k.fastresend;
        s.fastlimit = k.fastlimit;
        s.nocwnd = k.nocwnd;
        s.stream = k.stream;
        s.input_conv = k.input_conv;
        read_all(&k.snd_queue, &mut s.snd_queue, touched.to_send, whole);
        read_all(&k.rcv_queue, &mut s.rcv_queue, touched.received, whole);
        read_all(&k.snd_buf, &mut s.snd_buf, touched.to_send, whole);
        read_all(&k.rcv_buf, &mut s.rcv_buf, touched.received, whole);
        s.acklist.clear();
        s.acklist.extend(k.acklist.iter().copied());
        s.buf.clear();
        s.buf.extend_from_slice(&k.buf);
    }

    /// The payload of the received segment with this number, in the queue or held.
    pub fn stored<O>(k: &Kcp<O>, sn: u32) -> Option<&[u8]> {
        let held = sn.wrapping_sub(k.rcv_nxt);
        let segment = if held < 1 << 31 {
            let at = k.rcv_buf.binary_search_by_key(&held, |x| x.sn.wrapping_sub(k.rcv_nxt)).ok()?;
            &k.rcv_buf[at]
        } else {
            let at = k.rcv_queue.len().checked_sub(k.rcv_nxt.wrapping_sub(sn) as usize)?;
            &k.rcv_queue[at]
        };
        Some(&segment.data)
    }

    /// The payload of a segment that waits to be sent, by its index in the queue.
    pub fn waiting<O>(k: &Kcp<O>, i: usize) -> Option<&[u8]> {
        k.snd_queue.get(i).map(|x| &x.data[..])
    }

    /// All payloads: queue and held, in flight and waiting.
    pub fn payloads<O>(k: &Kcp<O>) -> impl Iterator<Item = &[u8]> + '_ {
        k.rcv_queue.iter().chain(&k.rcv_buf).chain(&k.snd_buf).chain(&k.snd_queue).map(|x| &x.data[..])
    }

    /// Makes the block's state this one.
    pub fn lay<O>(k: &mut Kcp<O>, s: &State) {
        lay_fields(k, s);
        k.snd_queue = s.snd_queue.iter().map(own).collect();
        k.rcv_queue = s.rcv_queue.iter().map(own).collect();
        k.snd_buf = s.snd_buf.iter().map(own).collect();
        k.rcv_buf = s.rcv_buf.iter().map(own).collect();
        k.acklist = s.acklist.iter().copied().collect();
        k.buf.clear();
        k.buf.extend_from_slice(&s.buf);
    }

    /// Makes the block's own numbers this state's, and of its segments in flight those that a script may set.
    pub fn lay_numbers<O>(k: &mut Kcp<O>, s: &State) {
        lay_fields(k, s);
        for (x, y) in k.snd_buf.iter_mut().zip(&s.snd_buf) {
            x.rto = y.rto;
            x.fastack = y.fastack;
            x.xmit = y.xmit;
        }
    }

    fn lay_fields<O>(k: &mut Kcp<O>, s: &State) {
        k.conv = s.conv;
        k.mtu = s.mtu;
        k.mss = s.mss;
        k.state = s.state;
        k.snd_una = s.snd_una;
        k.snd_nxt = s.snd_nxt;
        k.rcv_nxt = s.rcv_nxt;
        k.ssthresh = s.ssthresh;
        k.rx_rttval = s.rx_rttval;
        k.rx_srtt = s.rx_srtt;
        k.rx_rto = s.rx_rto;
        k.rx_minrto = s.rx_minrto;
        k.snd_wnd = s.snd_wnd;
        k.rcv_wnd = s.rcv_wnd;
        k.rmt_wnd = s.rmt_wnd;
        k.cwnd = s.cwnd;
        k.probe = s.probe;
        k.current = s.current;
        k.interval = s.interval;
        k.ts_flush = s.ts_flush;
        k.xmit = s.xmit;
        k.nodelay = s.nodelay;
        k.updated = s.updated;
        k.ts_probe = s.ts_probe;
        k.probe_wait = s.probe_wait;
        k.dead_link = s.dead_link;
        k.incr = s.incr;
        k.fastresend = s.fastresend;
        k.fastlimit = s.fastlimit;
        k.nocwnd = s.nocwnd;
        k.stream = s.stream;
        k.input_conv = s.input_conv;
    }

    /// The writer that the block was made with.
    pub fn output<O>(k: &mut Kcp<O>) -> &mut O {
        &mut k.output.0
    }

    pub fn timediff_of(later: u32, earlier: u32) -> i32 {
        timediff(later, earlier)
    }

    pub fn bound_of(lower: u32, v: u32, upper: u32) -> u32 {
        bound(lower, v, upper)
    }

    pub fn update_ack_of<O>(k: &mut Kcp<O>, rtt: u32) {
        k.update_ack(rtt)
    }

    /// What input does with a push, from its number tests on: una, wnd and the conv have been seen to.
    pub fn push_of<O>(k: &mut Kcp<O>, sn: u32, frg: u8, ts: u32, payload: &[u8]) {
        let mut buf = Cursor::new(payload);
        let len = payload.len();
        if timediff(sn, k.rcv_nxt + k.rcv_wnd as u32) < 0 {
            k.ack_push(sn, ts);
            if timediff(sn, k.rcv_nxt) >= 0 {
                let mut sbuf = BytesMut::with_capacity(len);
                unsafe {
                    sbuf.set_len(len);
                }
                buf.read_exact(&mut sbuf).unwrap();
                let mut segment = KcpSegment::new_with_data(sbuf);
                segment.conv = k.conv;
                segment.cmd = KCP_CMD_PUSH;
                segment.frg = frg;
                segment.ts = ts;
                segment.sn = sn;
                k.parse_data(segment);
            }
        }
    }

    /// Empties the ack list, as a flush does.
    pub fn forget_acks<O>(k: &mut Kcp<O>) {
        k.acklist.clear();
    }

    /// A segment as it is written on the wire.
    pub fn encode_of(s: &Segment) -> Vec<u8> {
        let mut out = BytesMut::new();
        own(s).encode(&mut out);
        out.to_vec()
    }
}
