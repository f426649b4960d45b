//! Document 01's worked values that concern the Rust, run on a side, and after them two of its plausible slips. The rows that only
//! the port can show (a window over half of the slots, mtu 1,501, input of 1,501 bytes) are with its departures.

use crate::call::{Call, Fill, Header, Piece, Sizes, ACK, PUSH, TELL};
use crate::side::{Answer, Outcome, Side};
use state::State;

/// A side under a row, with what the last call showed.
pub struct Bench<'a> {
    side: &'a mut dyn Side,
    out: Outcome,
    s: State,
}

type Row = fn(&mut Bench) -> Result<(), String>;

pub const ROWS: [(&str, Row); 13] = [
    ("timediff(0, 4294967295) = 1; timediff(2147483648, 0) = -2147483648", timediff),
    ("rcv_nxt 4294967290, window 128: 121 taken, 122 neither, 4294967289 acked only", around_the_wrap),
    ("rcv_nxt 0, window 128: 2147483775 not acked, 2147483776 acked", around_half),
    ("estimator: 50, then 90; 0; 10", estimator),
    ("probe waits", probe_waits),
    ("mss 1376: sends of 1376, 1377, 174752, 174753", sends),
    ("empty send: plain one segment, stream none", empty_send),
    ("\"hi\": update(0), update(100), resendts 325", hi),
    ("mtu 49 gets 10", mtu_low),
    ("clock 10,000 before ts_flush only stored; 10,001 before: restart and flush", clock_leap),
    ("input of 1,500 bytes is read", input_1500),
    ("acks carry sn and ts; a refused segment stops the input", refused_midway),
    ("a waiting block adopts a conv before len is looked at", adoption),
];

/// Runs every row; the first word of each line says how it went.
pub fn run(side: &mut dyn Side) -> (usize, Vec<String>) {
    let mut bad = 0;
    let mut lines = Vec::new();
    for (name, row) in ROWS.iter() {
        let mut bench = Bench { side: &mut *side, out: Outcome::new(), s: State::default() };
        match row(&mut bench) {
            Ok(()) => lines.push(format!("ok      {}", name)),
            Err(e) => {
                bad += 1;
                lines.push(format!("WRONG   {}: {}", name, e));
            }
        }
    }
    (bad, lines)
}

fn same<T: PartialEq + std::fmt::Debug>(what: &str, got: T, wanted: T) -> Result<(), String> {
    if got == wanted {
        Ok(())
    } else {
        Err(format!("{} is {:?} and should be {:?}", what, got, wanted))
    }
}

const SIZES: Sizes = Sizes { receive: 1024, send: 1024, acks: 4096 };

impl<'a> Bench<'a> {
    fn fresh(&mut self, conv: u32, stream: bool, rcv: u32) {
        self.call(Call::Start { conv, stream, rcv, snd: 0, sizes: SIZES });
    }

    fn call(&mut self, call: Call) -> Answer {
        self.side.apply(&call, &mut self.out);
        self.out.answer.clone()
    }

    fn state(&mut self) -> &State {
        self.side.read(&mut self.s);
        &self.s
    }

    fn input(&mut self, cmd: u8, sn: u32, ts: u32, wnd: u16, len: usize) -> Answer {
        let conv = self.state().conv;
        let h = Header { conv, cmd, frg: 0, wnd, ts, sn, una: 0, len: None };
        self.call(Call::Input(vec![Piece::Segment(h, Fill { len, seed: 1 })]))
    }

    fn refused(&self, number: u8) -> bool {
        match self.out.answer {
            Answer::Refused { number: n, .. } => n == number,
            _ => false,
        }
    }
}

fn timediff(b: &mut Bench) -> Result<(), String> {
    same("the first", b.call(Call::Timediff(0, 4294967295)), Answer::Signed(1))?;
    same("the second", b.call(Call::Timediff(2147483648, 0)), Answer::Signed(-2147483648))
}

/// How many acks and segments a push with this number adds to a fresh block.
fn pushed(b: &mut Bench, rcv: u32, sn: u32) -> (usize, usize) {
    b.fresh(1, false, rcv);
    b.input(PUSH, sn, 0, 128, 1);
    let s = b.state();
    (s.acklist.len(), s.rcv_buf.len() + s.rcv_queue.len())
}

fn around_the_wrap(b: &mut Bench) -> Result<(), String> {
    same("121", pushed(b, 4294967290, 121), (1, 1))?;
    same("122", pushed(b, 4294967290, 122), (0, 0))?;
    same("4294967289", pushed(b, 4294967290, 4294967289), (1, 0))
}

fn around_half(b: &mut Bench) -> Result<(), String> {
    same("2147483775", pushed(b, 0, 2147483775), (0, 0))?;
    same("2147483776", pushed(b, 0, 2147483776), (1, 0))
}

/// srtt, rttval and rto after acks with these round trips.
fn measured(b: &mut Bench, trips: &[u32]) -> (u32, u32, u32) {
    b.fresh(1, false, 0);
    b.call(Call::Update(1000));
    for rtt in trips {
        b.input(ACK, 0, 1000 - rtt, 128, 0);
    }
    let s = b.state();
    (s.rx_srtt, s.rx_rttval, s.rx_rto)
}

fn estimator(b: &mut Bench) -> Result<(), String> {
    same("50", measured(b, &[50]), (50, 25, 150))?;
    same("50, 90", measured(b, &[50, 90]), (55, 28, 167))?;
    same("0", measured(b, &[0]), (0, 0, 100))?;
    same("10", measured(b, &[10]).2, 110)
}

fn probe_waits(b: &mut Bench) -> Result<(), String> {
    b.fresh(1, false, 0);
    b.call(Call::Update(0));
    b.input(TELL, 0, 0, 0, 0);
    b.call(Call::Flush);
    let mut waits = Vec::new();
    for _ in 0..10 {
        let s = b.state();
        let at = s.ts_probe;
        waits.push(s.probe_wait);
        b.call(Call::Update(at));
    }
    same("the row", waits, vec![7000, 10500, 15750, 23625, 35437, 53155, 79732, 119598, 120000, 120000])
}

fn sends(b: &mut Bench) -> Result<(), String> {
    for (len, frgs) in [(1376, vec![0]), (1377, vec![1, 0])].iter() {
        b.fresh(1, false, 0);
        same("the answer", b.call(Call::Send(Fill { len: *len, seed: 0 })), Answer::Number(*len as u64))?;
        let got: Vec<u8> = b.state().snd_queue.iter().map(|x| x.frg).collect();
        same("frg", got, frgs.clone())?;
    }
    b.fresh(1, false, 0);
    b.call(Call::Send(Fill { len: 174_752, seed: 0 }));
    same("segments of 174,752", b.state().snd_queue.len(), 127)?;
    b.fresh(1, false, 0);
    b.call(Call::Send(Fill { len: 174_753, seed: 0 }));
    same("174,753 refused by 8", b.refused(8), true)
}

fn empty_send(b: &mut Bench) -> Result<(), String> {
    for (stream, segments) in [(false, 1), (true, 0)].iter() {
        b.fresh(1, *stream, 0);
        same("the answer", b.call(Call::Send(Fill { len: 0, seed: 0 })), Answer::Number(0))?;
        same("segments", b.state().snd_queue.len(), *segments)?;
    }
    Ok(())
}

fn hi(b: &mut Bench) -> Result<(), String> {
    b.fresh(0x1122_3344, false, 0);
    // a script's payloads are made of a seed; this one is written as document 01 has it
    b.call(Call::Send(Fill { len: 1, seed: b'h' }));
    let mut s = b.state().clone();
    s.snd_queue[0].data = b"hi".to_vec();
    b.side.lay(&s, SIZES);
    b.call(Call::Update(0));
    same("datagrams of update(0)", b.out.datagrams.lengths.len(), 0)?;
    same("cwnd", b.state().cwnd, 1)?;
    b.call(Call::Update(100));
    let wanted = vec![
        0x44, 0x33, 0x22, 0x11, 0x51, 0, 0x80, 0, 0x64, 0, 0, 0, 0, 0, 0, 0, 0, 0, 0, 0, 2, 0, 0, 0, 0x68, 0x69,
    ];
    same("the datagrams", b.out.datagrams.iter().map(|d| d.to_vec()).collect(), vec![wanted])?;
    same("resendts", b.state().snd_buf[0].resendts, 325)
}

fn mtu_low(b: &mut Bench) -> Result<(), String> {
    b.fresh(1, false, 0);
    same("the answer", b.call(Call::SetMtu(49)), Answer::Refused { number: 10, values: vec![49] })
}

fn clock_leap(b: &mut Bench) -> Result<(), String> {
    for (back, flushed) in [(10_000u32, false), (10_001, true)].iter() {
        b.fresh(1, false, 0);
        b.call(Call::Update(50_000));
        let flush = b.state().ts_flush;
        b.call(Call::Send(Fill { len: 1, seed: 0 }));
        let clock = flush - back;
        b.call(Call::Update(clock));
        same("a flush", !b.out.datagrams.is_empty(), *flushed)?;
        same("current", b.state().current, clock)?;
        same("ts_flush", b.state().ts_flush, if *flushed { clock + 100 } else { flush })?;
    }
    Ok(())
}

fn input_1500(b: &mut Bench) -> Result<(), String> {
    b.fresh(1, false, 0);
    same("the answer", b.input(PUSH, 0, 0, 128, 1476), Answer::Number(1500))
}

fn refused_midway(b: &mut Bench) -> Result<(), String> {
    b.fresh(1, false, 0);
    let good = Header { conv: 1, cmd: PUSH, frg: 0, wnd: 77, ts: 5, sn: 0, una: 0, len: None };
    let bad = Header { cmd: 99, wnd: 11, ..good };
    let fill = Fill { len: 0, seed: 0 };
    let answer = b.call(Call::Input(vec![Piece::Segment(good, fill), Piece::Segment(bad, fill)]));
    same("the answer", answer, Answer::Refused { number: 4, values: vec![99] })?;
    let s = b.state();
    same("rmt_wnd", s.rmt_wnd, 77)?;
    same("the ack list", s.acklist.clone(), vec![(0, 5)])
}

fn adoption(b: &mut Bench) -> Result<(), String> {
    b.fresh(1, false, 0);
    b.call(Call::InputConv);
    let h = Header { conv: 7, cmd: PUSH, frg: 0, wnd: 1, ts: 0, sn: 0, una: 0, len: Some(9) };
    let answer = b.call(Call::Input(vec![Piece::Segment(h, Fill { len: 0, seed: 0 })]));
    same("the answer", answer, Answer::Refused { number: 3, values: vec![9, 0] })?;
    let s = b.state();
    same("conv and waiting", (s.conv, s.input_conv), (7, false))
}
