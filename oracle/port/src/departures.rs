//! The port's departures from the Rust, as document 01 makes them, run on the port: what only the port can show. Each row says what
//! it runs; one whose calls the library lacks is named and not run.

mod damage;
mod ground;
mod outs;
mod rings;

use crate::exports;
use crate::memory::Memory;
use driver::call::{Call, Fill, Header, Piece, Sizes, ACK, ASK, PUSH, TELL};
use driver::side::{Answer, Outcome, Side};
use driver::Judge;
use ground::*;
use state::State;

type Row = fn() -> Result<(), String>;

/// Name, the calls that it needs, what it runs.
const ROWS: [(&str, &[&str], Row); 42] = [
    ("a sound block, wherever it is laid: none of the calls below is refused", &["recv"], damage::sound),
    ("14: R = 256, rcvwnd 128 passes", &["set_wndsize"], window_passes),
    ("14: R = 256, rcvwnd 129 is refused, both windows as they were", &["set_wndsize"], window_refused),
    ("14: the same with a sndwnd given", &["set_wndsize"], window_refused_with_send),
    ("14: R = 1,024, rcvwnd 512 passes, 513 is refused", &["set_wndsize"], window_of_1024),
    ("15: a mark of 0 in the queue, of 1,478 in the queue and in the reach", &["recv"], damage::receive_marks_bad),
    ("15: a receive ring that starts past its slots; queue or reach over the largest window", &["recv"], damage::receive_ring_bad),
    ("15: lists of a size outside the limits, or too short", &["recv"], damage::sizes_bad),
    ("15: words that are no block: 34 or 36, a bit past the flags", &["recv"], damage::words_bad),
    ("15: numbers outside their limits: mtu, mss, windows, rings, acks, probe_wait, waiting", &["recv"], damage::numbers_bad),
    ("15: a mark of 0 in what waits, of 1,478 in flight and in what waits", &["send", "input"], damage::send_marks_bad),
    ("15: a gap at the front in flight; flying wrong by one, and not as counted", &["send", "input"], damage::flying_bad),
    ("15: a send ring that starts past its slots; more in flight and waiting than slots", &["send", "input"], damage::send_ring_bad),
    ("15: send lists of a size outside the limits, or too short", &["send", "input"], damage::send_sizes_bad),
    ("15: words that are no block, and numbers outside their limits, for a send", &["send"], damage::send_numbers_bad),
    ("15: more acks than the list holds; a list or waiting bytes of a size outside the limits", &["input"], damage::acks_bad),
    ("no 15: any word, number and byte at a place that is not in use", &["recv", "send", "input"], damage::free_damaged),
    ("11: 1,500 bytes are read and 1,501 refused, where the Rust reads both; 15 comes before", &["input"], datagram_long),
    ("1: under 24 bytes, with the size, all as it was; 15 comes before", &["input"], datagram_short),
    ("12: as many as are free pass, one more is refused, all as it was", &["send"], send_full),
    ("12: in a stream: the fill is not kept; a send that joins the last segment whole passes", &["send"], send_full_stream),
    ("12: 8 comes before; 8 in a stream keeps the fill", &["send"], send_8_before_12),
    ("12: P = 128, the front stuck, the rest acked: sends fit as gaps are closed, the next gets 12", &["send", "input"], rings::one_by_one),
    ("12: the same in one send of as many segments as are free, and with segments that wait", &["send", "input"], rings::at_once),
    ("12: gaps at any place, and the ring at any start: as many as are free, and no more", &["send"], rings::anywhere),
    ("gaps are not closed while there are places behind; a refused send closes none", &["send"], rings::left),
    ("the receive ring goes round: a segment always queued, others held", &["input", "recv"], rings::receive_round),
    ("the receive ring laid over its wrap: recv, move_buf and pushes, as the Rust", &["input", "recv"], rings::receive_wrap),
    ("the send ring goes round: a segment always in flight, acks from the middle", &["input", "send"], rings::send_round),
    ("the send ring laid over its wrap: sends, una and acks, as the Rust", &["input", "send"], rings::send_wrap),
    ("skipped: a push with the ack list full, in the window and old: nothing changes", &["input"], skipped),
    ("skipped: a push that would move held segments moves none", &["input"], skipped_moves_none),
    ("skipped: the other segments of the datagram act as if it were not there", &["input"], skipped_alone),
    ("skipped: the count also beside a refusal, with the effects so far", &["input"], skipped_refused),
    ("frg 255: two queued, peeksize and recv answer 6", &["recv"], frg_255),
    ("frg 255: 256 queued are one message", &["recv"], frg_255_whole),
    ("15: a block made with sizes outside the limits; those on them pass", &["new"], made),
    ("10: mtu 1,501 and 49 are refused, 1,500 and 50 pass", &["set_mtu"], mtu),
    ("13: flush with bytes and lengths of every size: too small, all as it was; enough, as the Rust", &["flush"], outs::flush),
    ("13: flush_ack the same", &["flush_ack"], outs::flush_ack),
    ("13: update the same, the clock too, and `updated` at the first", &["update"], outs::update),
    ("13: 15 and 9 come before; what puts nothing out needs no room", &["flush", "flush_ack", "update"], outs::order),
];

/// Runs every row that the library has the calls for: how many are wrong, and a line for each.
pub fn run() -> (usize, Vec<String>) {
    let mut bad = 0;
    let mut lines = Vec::new();
    for (name, needs, row) in ROWS.iter() {
        if !needs.iter().all(|call| exports::has(call)) {
            lines.push(format!("not yet {}", name));
            continue;
        }
        match row() {
            Ok(()) => lines.push(format!("ok      {}", name)),
            Err(e) => {
                bad += 1;
                lines.push(format!("WRONG   {}: {}", name, e));
            }
        }
    }
    (bad, lines)
}

// ---- the rows

fn windows(m: &Memory) -> (u32, u32, u32) {
    (m.number("snd_wnd"), m.number("rcv_wnd"), m.number("largest"))
}

fn window_passes() -> Result<(), String> {
    let mut m = block(SMALL);
    same("the answer", exports::set_wndsize(&mut m, 0, 128), 0)?;
    same("the windows", windows(&m), (32, 128, 128))?;
    same("the answer with a sndwnd alone", exports::set_wndsize(&mut m, 64, 0), 0)?;
    same("the windows", windows(&m), (64, 128, 128))?;
    same("the answer of rcvwnd 1", exports::set_wndsize(&mut m, 0, 1), 0)?;
    same("the windows", windows(&m), (64, 128, 128))
}

/// Refused by 14, all as it was.
fn too_large(m: &mut Memory, sndwnd: u16, rcvwnd: u16) -> Result<(), String> {
    let before = m.clone();
    same(&format!("the answer of {}", rcvwnd), exports::set_wndsize(m, sndwnd, rcvwnd), 14)?;
    same("the windows", windows(m), windows(&before))?;
    same("that all is as it was", *m == before, true)
}

fn window_refused() -> Result<(), String> {
    too_large(&mut block(SMALL), 0, 129)?;
    too_large(&mut block(SMALL), 0, 65535)?;
    too_large(&mut block(Sizes { receive: 257, ..SMALL }), 0, 129)
}

fn window_refused_with_send() -> Result<(), String> {
    too_large(&mut block(SMALL), 64, 129)?;
    too_large(&mut block(SMALL), 65535, 65535)
}

fn window_of_1024() -> Result<(), String> {
    let mut m = block(LARGE);
    too_large(&mut m, 0, 513)?;
    same("the answer of 512", exports::set_wndsize(&mut m, 0, 512), 0)?;
    same("the windows", windows(&m), (32, 512, 512))?;
    same("the answer of 128", exports::set_wndsize(&mut m, 0, 128), 0)?;
    same("the windows", windows(&m), (32, 128, 512))
}

fn datagram_long() -> Result<(), String> {
    let m = block(SMALL);
    // a push of 1,476 bytes in all, and an ask with these bytes behind it
    let long = |tail: usize| vec![piece(PUSH, 3, 1452), piece(ASK, 0, tail)];
    for (tail, len) in [(0, 1500), (1, 1501)].iter() {
        let mut out = Outcome::new();
        let (mut judge, _) = reached(SMALL, false, &[]);
        judge.apply(&Call::Input(long(*tail)), &mut out);
        same("what the Rust answers", out.answer, Answer::Number(*len))?;
    }
    same("the answer of 1,500", input(&mut m.clone(), &long(0)), (0, [1500, 0], 0))?;
    same("the answer of 1,501", stays("1,501", &m, |m| input(m, &long(1)))?, (11, [0, 0], 0))?;
    same("the answer of 65,536", stays("65,536", &m, |m| input(m, &[piece(TELL, 0, 65_512)]))?, (11, [0, 0], 0))?;
    let mut bad = m;
    *bad.mark(0) = 0;
    same("the answer of 1,501 with bad memory", stays("bad memory", &bad, |m| input(m, &long(1)))?, (15, [0, 0], 0))
}

fn datagram_short() -> Result<(), String> {
    let m = block(SMALL);
    for len in [0, 1, 23].iter() {
        let raw = [Piece::Raw(vec![81; *len])];
        same(&format!("the answer of {}", len), stays("short", &m, |m| input(m, &raw))?, (1, [*len, 0], 0))?;
    }
    let mut bad = m;
    *bad.received(0) = 0;
    same("the answer with bad memory", stays("bad memory", &bad, |m| input(m, &[Piece::Raw(vec![0; 23])]))?, (15, [0, 0], 0))
}

/// The memory of a block with mss 26 and 60 segments in flight; of those that wait the last has 10 bytes; `free` slots are left.
fn nearly_full(stream: bool, free: usize) -> (Judge, Memory) {
    let mut calls = vec![Call::SetMtu(50), Call::SetNodelay(true, 10, 0, true), Call::SetWndsize(1024, 0), Call::Update(10)];
    calls.extend(messages(60, 26));
    calls.push(Call::Flush);
    calls.extend(messages(128 - 60 - 1 - free, 26));
    calls.push(Call::Send(Fill { len: 10, seed: 4 }));
    reached(SMALL, stream, &calls)
}

/// A send passes, and the block is then what the Rust's is.
fn passes(mut m: Memory, mut judge: Judge, len: usize) -> Result<Memory, String> {
    let mut out = Outcome::new();
    same(&format!("the answer of {}", len), send(&mut m, len), (0, len))?;
    judge.apply(&Call::Send(Fill { len, seed: 5 }), &mut out);
    agrees(&format!("after {}", len), &m, &judge)?;
    Ok(m)
}

fn send_full() -> Result<(), String> {
    let (judge, m) = nearly_full(false, 3);
    same("in flight and waiting", (m.number("flying"), m.number("unsent")), (60, 65))?;
    for len in [79, 80, 200, 127 * 26].iter() {
        same(&format!("the answer of {}", len), stays("12", &m, |m| send(m, *len))?, (12, 77))?;
    }
    let m = passes(m, judge, 78)?;
    for len in [0, 1, 26, 27].iter() {
        same(&format!("the answer of {} with none free", len), stays("none free", &m, |m| send(m, *len))?, (12, 77))?;
    }
    Ok(())
}

fn send_full_stream() -> Result<(), String> {
    // 16 bytes join the last segment
    let (judge, m) = nearly_full(true, 2);
    same("in flight and waiting", (m.number("flying"), m.number("unsent")), (60, 66))?;
    for len in [16 + 53, 16 + 127 * 26].iter() {
        same(&format!("the answer of {}", len), stays("12", &m, |m| send(m, *len))?, (12, 77))?;
    }
    passes(m, judge, 16 + 52)?;
    let (_, m) = nearly_full(true, 0);
    same("the answer of 17 with none free", stays("none free", &m, |m| send(m, 17))?, (12, 77))?;
    for len in [0, 1, 15, 16].iter() {
        let (judge, m) = nearly_full(true, 0);
        passes(m, judge, *len)?;
    }
    Ok(())
}

fn send_8_before_12() -> Result<(), String> {
    let (_, m) = nearly_full(false, 0);
    same("the answer of 127 segments", stays("127", &m, |m| send(m, 127 * 26))?, (12, 77))?;
    same("the answer of 128 segments", stays("128", &m, |m| send(m, 127 * 26 + 1))?, (8, 77))?;
    let (mut judge, mut m) = nearly_full(true, 0);
    let len = 16 + 127 * 26 + 1;
    same("the answer of 127 segments in a stream", stays("127", &m, |m| send(m, len - 1))?, (12, 77))?;
    same("the answer of 128 segments in a stream", send(&mut m, len), (8, 77))?;
    judge.apply(&Call::Send(Fill { len, seed: 5 }), &mut Outcome::new());
    agrees("the fill is kept", &m, &judge)
}

/// A block with these calls behind it and its ack list full.
fn filled(calls: &[Call]) -> (Judge, Memory) {
    let mut calls = calls.to_vec();
    // old pushes: acked, not stored
    let acked = calls.iter().filter(|call| call.name() == "input").count();
    calls.extend(pushes((acked..128).map(|_| u32::MAX)));
    reached(SMALL, false, &calls)
}

fn full(calls: &[Call]) -> Memory {
    filled(calls).1
}

/// A push of this number is skipped, and nothing changes.
fn skips(m: &Memory, sn: u32) -> Result<(), String> {
    same("the acks before", m.number("acks"), 128)?;
    let answer = stays(&format!("{}", sn), m, |m| input(m, &[piece(PUSH, sn, 7)]))?;
    same(&format!("the answer of {}", sn), answer, (0, [31, 0], 1))
}

fn skipped() -> Result<(), String> {
    let m = full(&pushes([0, 1, 2, 4, 6, 7].iter().copied()));
    for sn in [3, 4, 5, 8, 130, 2, 0, u32::MAX, (1 << 31) + 131].iter() {
        skips(&m, *sn)?;
    }
    // neither acknowledged nor taken: not skipped either
    for sn in [131, 1 << 31, (1 << 31) + 130].iter() {
        let answer = stays(&format!("{}", sn), &m, |m| input(m, &[piece(PUSH, *sn, 7)]))?;
        same(&format!("the answer of {}", sn), answer, (0, [31, 0], 0))?;
    }
    let many: Vec<Piece> = (0..62).map(|sn| piece(PUSH, sn, 0)).collect();
    same("the answer of 62 in one datagram", stays("62", &m, |m| input(m, &many))?, (0, [1488, 0], 62))
}

/// Held segments that the awaited number would let move; and such as any push in the window would, since it was raised over them.
fn skipped_moves_none() -> Result<(), String> {
    skips(&full(&pushes([1, 2, 3].iter().copied())), 0)?;
    let mut calls = pushes(0..128);
    calls.push(Call::Update(0));
    calls.extend(pushes(128..132));
    calls.push(Call::SetWndsize(0, 256));
    calls.extend(pushes((4..128).map(|_| 0)));
    let m = after(Sizes { receive: 1024, ..SMALL }, &calls);
    same("queued and held", (m.number("queued"), m.held()), (128, 4))?;
    for sn in [128, 131, 140, 0].iter() {
        skips(&m, *sn)?;
    }
    Ok(())
}

/// The block with 5 in flight, 3 waiting, 6 pushes received and its ack list full.
fn busy() -> (Judge, Memory) {
    filled(&busy_calls())
}

/// The pieces are input to the port; to the Rust those that are not marked as skipped. The number, the values of the port and the
/// number of marks are as they should be, and then the blocks are the same.
fn acts(what: &str, (mut judge, mut m): (Judge, Memory), pieces: &[(bool, Piece)], answer: (u32, [usize; 2])) -> Result<(), String> {
    let all: Vec<Piece> = pieces.iter().map(|p| p.1.clone()).collect();
    let rest: Vec<Piece> = pieces.iter().filter(|p| !p.0).map(|p| p.1.clone()).collect();
    let marks = pieces.iter().filter(|p| p.0).count() as u32;
    same(&format!("{}: the answer", what), input(&mut m, &all), (answer.0, answer.1, marks))?;
    judge.apply(&Call::Input(rest), &mut Outcome::new());
    agrees(what, &m, &judge)
}

fn skipped_alone() -> Result<(), String> {
    let skipped = |sn| (true, piece(PUSH, sn, 7));
    let acts_still = |p: Piece| (false, p);
    // an ack of number 3 behind a skipped push: removed, measured, and 0 to 2 gain a fastack
    let ack = with(piece(ACK, 3, 0), |h| h.ts = 10);
    acts("an ack", busy(), &[skipped(3), acts_still(ack.clone())], (0, [55, 0]))?;
    let una = with(piece(TELL, 0, 0), |h| {
        h.una = 2;
        h.wnd = 77;
    });
    let pieces = [
        skipped(3), acts_still(piece(ASK, 0, 2)), skipped(u32::MAX), acts_still(ack), skipped(5), acts_still(piece(PUSH, 131, 7)), skipped(0),
        acts_still(una),
    ];
    acts("all kinds", busy(), &pieces, (0, [8 * 24 + 5 * 7 + 2, 0]))?;
    // the skipped push's own wnd and una are taken
    let (_, mut m) = busy();
    let own = with(piece(PUSH, 3, 7), |h| {
        h.una = 2;
        h.wnd = 77;
    });
    same("the answer of a push with una 2 and wnd 77", input(&mut m, &[own]), (0, [31, 0], 1))?;
    same("in flight, snd_una and rmt_wnd", (m.number("flying"), m.number("snd_una"), m.number("rmt_wnd")), (3, 2, 77))?;
    // one place left: the first of two is acked and taken
    let mut calls = pushes([0, 1, 2, 4, 6, 7].iter().copied());
    calls.extend(pushes((6..127).map(|_| u32::MAX)));
    acts("one place", reached(SMALL, false, &calls), &[acts_still(piece(PUSH, 3, 7)), skipped(5)], (0, [62, 0]))
}

fn skipped_refused() -> Result<(), String> {
    let skipped = |sn| (true, piece(PUSH, sn, 7));
    let bad = |change: &dyn Fn(&mut Header)| (false, with(piece(PUSH, 3, 0), change));
    let ack = (false, with(piece(ACK, 3, 0), |h| h.ts = 10));
    acts("4", busy(), &[skipped(3), ack.clone(), skipped(5), bad(&|h| h.cmd = 99)], (4, [99, 0]))?;
    acts("2", busy(), &[skipped(3), ack.clone(), skipped(5), bad(&|h| h.conv = 9)], (2, [1, 9]))?;
    acts("3", busy(), &[skipped(3), ack, skipped(5), bad(&|h| h.len = Some(9))], (3, [9, 0]))?;
    // a refused push is not counted, nor are those behind it
    let mut pieces = vec![skipped(3), bad(&|h| h.cmd = 99)];
    pieces.push((false, piece(PUSH, 5, 7)));
    acts("4 and a push behind it", busy(), &pieces, (4, [99, 0]))
}

fn answers_6(m: &Memory) -> Result<(), String> {
    let mut now = m.clone();
    let mut length = 77;
    let mut buffer = vec![5; 4000];
    same("peeksize", exports::peeksize(&now, &mut length), 6)?;
    same("recv", exports::recv(&mut now, &mut buffer, &mut length), 6)?;
    same("that all is as it was", (now == *m, length, buffer.iter().all(|b| *b == 5)), (true, 77, true))
}

/// A front segment with frg 255, and others behind it, so many in all.
fn marked(count: u32) -> Memory {
    let mut calls = vec![Call::SetWndsize(0, 512), fragment(0, 255)];
    calls.extend((1..count).map(|sn| fragment(sn, (255 - sn) as u8)));
    after(LARGE, &calls)
}

fn frg_255() -> Result<(), String> {
    answers_6(&marked(2))?;
    answers_6(&marked(1))?;
    answers_6(&marked(255))
}

fn frg_255_whole() -> Result<(), String> {
    let mut m = marked(256);
    let mut length = 0;
    let mut buffer = vec![5; 4000];
    same("peeksize", (exports::peeksize(&m, &mut length), length), (0, 512))?;
    same("recv", exports::recv(&mut m, &mut buffer, &mut length), 0)?;
    same("its length, and what is left", (length, m.number("queued")), (512, 0))
}

fn made() -> Result<(), String> {
    let sizes = |receive, send, acks| Sizes { receive, send, acks };
    for stream in [false, true].iter() {
        for good in [sizes(256, 128, 128), sizes(1024, 1024, 4096), sizes(257, 129, 129)].iter() {
            let mut m = Memory::new(*good);
            same(&format!("the answer with {:?}", good), exports::new(&mut m, 7, *stream), 0)?;
            let mut s = State::default();
            m.read(&mut s);
            same("conv, stream", (s.conv, s.stream), (7, *stream))?;
            same("segments and acks", (s.rcv_queue.len() + s.rcv_buf.len() + s.snd_buf.len() + s.snd_queue.len(), s.acklist.len()), (0, 0))?;
        }
        let bad = [
            sizes(255, 128, 128), sizes(1025, 128, 128), sizes(256, 127, 128), sizes(256, 1025, 128), sizes(256, 128, 127),
            sizes(256, 128, 4097), sizes(0, 128, 128),
        ];
        for bad in bad.iter() {
            let mut m = Memory::new(*bad);
            let before = m.clone();
            same(&format!("the answer with {:?}", bad), exports::new(&mut m, 7, *stream), 15)?;
            same("that all is as it was", m == before, true)?;
        }
        for words in [0, 34, 36].iter() {
            let mut m = Memory::new(SMALL);
            m.words.resize(*words, 0);
            let before = m.clone();
            same(&format!("the answer with {} words", words), exports::new(&mut m, 7, *stream), 15)?;
            same("that all is as it was", m == before, true)?;
        }
    }
    Ok(())
}

fn mtu() -> Result<(), String> {
    let mut m = block(SMALL);
    for bad in [49, 1501, 0, usize::MAX, (1 << 32) + 1400].iter() {
        let before = m.clone();
        same(&format!("the answer of {}", bad), exports::set_mtu(&mut m, *bad), 10)?;
        same("that all is as it was", m == before, true)?;
    }
    for good in [50, 1500].iter() {
        same(&format!("the answer of {}", good), exports::set_mtu(&mut m, *good), 0)?;
        same("mtu and mss", (m.number("mtu"), m.number("mss")), (*good as u32, *good as u32 - 24))?;
    }
    Ok(())
}
