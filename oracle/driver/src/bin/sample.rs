//! oracle/replay-sample: writes a recording of the Rust's own answers, for a program that makes the same calls on the port and holds its
//! answers to them. The script of that name has the usage.
//!
//! `sample SEED COUNT FILE` makes COUNT calls of the generator's sequences, the same for the same SEED, and writes FILE, a step for each.
//! A step is eleven numbers of 32 bits, little-endian, and the bytes that it is handed:
//!
//!      0       code, below
//!      1 .. 4  the arguments, 0 where there are fewer
//!      5       how many bytes follow the eleven numbers
//!      6       the refusal's number, 0 where the call is not refused
//!      7, 8    the refusal's values; of a call that is not refused the number that it answers; of flush_ack, flush and update how many
//!              datagrams went out, and the sum of their lengths' list
//!      9       the sum of what comes out: the bytes handed out by recv, the datagrams end to end, the bytes that the header helper left,
//!              what the getters answer
//!     10       the sum of the block's numbers afterwards, as `numbers` lists them
//!
//! A sum is that of number * (index + 1), modulo 2^32.
//!
//!      0 input: the datagram is the bytes
//!      1 send: len, byte; the byte at index i is (byte + 7 i) mod 256
//!      2 flush_ack       3 flush       4 update: current; from here on no call changes the memory that a host lends
//!      5 a block made anew: conv, stream, the numbers that receiving and sending start from
//!      6 recv: the buffer's length       7 peeksize       8 move_buf       9 set_wndsize: snd, rcv
//!     10 check: current     11 set_mtu     12 set_interval     13 set_nodelay: nodelay, interval, resend, nc
//!     14 set_rx_minrto     15 set_fast_resend     16 set_maximum_resend_times     17 input_conv     18 set_conv
//!     19 every getter, and the sum of what they answer: conv, waiting_conv, mtu, mss, snd_wnd, rcv_wnd, rmt_wnd, wait_snd, header_len,
//!        is_stream, is_dead_link, a flag as 0 or 1
//!     20 get_conv, 21 set_conv: conv, 22 get_sn: of the bytes, at most `HELPED`; the block is not asked
//!
//! Every step is on document 01's domain of equality for a block with 1,024 slots on either side and 4,096 acks, with at most `OUT` bytes
//! and `LENGTHS` datagrams out, a buffer of at most `BUFFER` bytes and a message of at most `MESSAGE`. A sequence ends where a call would
//! set a number of the state, or would put out more.

use driver::call::{Call, Getter};
use driver::generator::Generator;
use driver::side::{Answer, Outcome, Side};
use state::{State, Touched};
use std::{fs, process};

driver::rust_side!(Judge, kcp_judge);

const OUT: usize = 16384;
const LENGTHS: usize = 1024;
const BUFFER: usize = 8192;
const MESSAGE: usize = 4096;
const HELPED: usize = 64;
const CODES: usize = 23;

const GETTERS: [Getter; 11] = [
    Getter::Conv,
    Getter::WaitingConv,
    Getter::Mtu,
    Getter::Mss,
    Getter::SndWnd,
    Getter::RcvWnd,
    Getter::RmtWnd,
    Getter::WaitSnd,
    Getter::HeaderLen,
    Getter::IsStream,
    Getter::IsDeadLink,
];

fn stop(line: &str) -> ! {
    eprintln!("replay-sample: {}", line);
    process::exit(2)
}

fn sum(numbers: impl Iterator<Item = u32>) -> u32 {
    numbers.zip(1u32..).fold(0, |sum: u32, (n, i)| sum.wrapping_add(i.wrapping_mul(n)))
}

/// Every number of the block, under the Rust's names.
fn numbers(s: &State) -> [u32; 39] {
    [
        s.conv,
        s.mtu as u32,
        s.mss as u32,
        (s.state != 0) as u32,
        s.snd_una,
        s.snd_nxt,
        s.rcv_nxt,
        s.ssthresh as u32,
        s.rx_rttval,
        s.rx_srtt,
        s.rx_rto,
        s.rx_minrto,
        s.snd_wnd as u32,
        s.rcv_wnd as u32,
        s.rmt_wnd as u32,
        s.cwnd as u32,
        s.probe,
        s.current,
        s.interval,
        s.ts_flush,
        s.xmit,
        s.nodelay as u32,
        s.updated as u32,
        s.ts_probe,
        s.probe_wait,
        s.dead_link,
        s.incr as u32,
        (s.incr >> 32) as u32,
        s.fastresend,
        s.fastlimit,
        s.nocwnd as u32,
        s.stream as u32,
        s.input_conv as u32,
        s.snd_queue.len() as u32,
        s.rcv_queue.len() as u32,
        s.snd_buf.len() as u32,
        s.rcv_buf.len() as u32,
        s.acklist.len() as u32,
        s.buf.len() as u32,
    ]
}

/// What every getter answers, in the order of `GETTERS`.
fn gotten(judge: &mut Judge) -> Vec<u32> {
    let mut out = Outcome::new();
    let mut get = |getter: &Getter| {
        judge.make(&Call::Get(*getter), &[], &mut out);
        match out.answer {
            Answer::Number(n) => n as u32,
            Answer::Flag(flag) => flag as u32,
            _ => stop("a getter answered nothing"),
        }
    };
    GETTERS.iter().map(|getter| get(getter)).collect()
}

/// The code and the arguments; none where the recording has no such call.
fn words(call: &Call) -> Option<[u32; 5]> {
    Some(match call {
        Call::Start { conv, stream, rcv, snd, .. } => [5, *conv, *stream as u32, *rcv, *snd],
        Call::Input(_) => [0; 5],
        Call::Recv(n) if *n <= BUFFER => [6, *n as u32, 0, 0, 0],
        Call::Peeksize => [7, 0, 0, 0, 0],
        Call::MoveBuf => [8, 0, 0, 0, 0],
        Call::Send(fill) if fill.len <= MESSAGE => [1, fill.len as u32, fill.seed as u32, 0, 0],
        Call::FlushAck => [2, 0, 0, 0, 0],
        Call::Flush => [3, 0, 0, 0, 0],
        Call::Update(current) => [4, *current, 0, 0, 0],
        Call::Check(current) => [10, *current, 0, 0, 0],
        Call::SetWndsize(snd, rcv) => [9, *snd as u32, *rcv as u32, 0, 0],
        Call::SetMtu(mtu) => [11, *mtu as u32, 0, 0, 0],
        Call::SetInterval(n) => [12, *n, 0, 0, 0],
        Call::SetNodelay(nodelay, interval, resend, nc) => [13, *nodelay as u32, *interval as u32, *resend as u32, *nc as u32],
        Call::SetRxMinrto(n) => [14, *n, 0, 0, 0],
        Call::SetFastResend(n) => [15, *n, 0, 0, 0],
        Call::SetMaximumResendTimes(n) => [16, *n, 0, 0, 0],
        Call::InputConv => [17, 0, 0, 0, 0],
        Call::SetConv(conv) => [18, *conv, 0, 0, 0],
        Call::Get(_) => [19, 0, 0, 0, 0],
        Call::GetConv(b) if b.len() <= HELPED => [20, 0, 0, 0, 0],
        Call::PutConv(b, conv) if b.len() <= HELPED => [21, *conv, 0, 0, 0],
        Call::GetSn(b) if b.len() <= HELPED => [22, 0, 0, 0, 0],
        _ => return None,
    })
}

fn handed<'a>(call: &'a Call, bytes: &'a [u8]) -> &'a [u8] {
    match call {
        Call::Input(_) => bytes,
        Call::GetConv(bytes) | Call::PutConv(bytes, _) | Call::GetSn(bytes) => bytes,
        _ => &[],
    }
}

/// The refusal's number, two values, and the sum of the bytes that come out.
fn answer(call: &Call, out: &Outcome) -> [u32; 4] {
    let bytes = sum(out.datagrams.bytes.iter().map(|b| *b as u32));
    match &out.answer {
        Answer::Refused { number, values } => {
            let value = |i: usize| values.get(i).map_or(0, |n| *n as u32);
            [*number as u32, value(0), value(1), kept(call, out)]
        }
        Answer::Number(n) => [0, *n as u32, 0, kept(call, out)],
        Answer::Nothing => match call {
            Call::PutConv(..) => [0, 0, 0, kept(call, out)],
            _ => [0, out.datagrams.lengths.len() as u32, sum(out.datagrams.lengths.iter().map(|n| *n as u32)), bytes],
        },
        other => stop(&format!("the Rust answered {:?}", other)),
    }
}

/// The sum of what recv handed out, or of the bytes that a helper left.
fn kept(call: &Call, out: &Outcome) -> u32 {
    let length = match (call, &out.answer) {
        (Call::Recv(_), Answer::Number(n)) => *n as usize,
        (Call::PutConv(..), _) => out.buffer.len(),
        _ => 0,
    };
    sum(out.buffer[..length].iter().map(|b| *b as u32))
}

struct Recording {
    bytes: Vec<u8>,
    steps: usize,
    by_code: [usize; CODES],
    refused: [usize; 17],
}

impl Recording {
    fn put(&mut self, words: [u32; 5], bytes: &[u8], answer: [u32; 4], after: &State) {
        self.steps += 1;
        self.by_code[words[0] as usize] += 1;
        self.refused[answer[0] as usize] += 1;
        let (length, state) = ([bytes.len() as u32], [sum(numbers(after).iter().copied())]);
        for word in words.iter().chain(&length).chain(&answer).chain(&state) {
            self.bytes.extend_from_slice(&word.to_le_bytes());
        }
        self.bytes.extend_from_slice(bytes);
    }
}

/// Records one sequence, as long as it can be replayed and `most` steps are not reached. It begins with a plain block of conversation 0, which the judge has
/// before any call: a sequence of header helpers makes none.
fn record(seed: u64, sequence: u64, most: usize, recording: &mut Recording) {
    let (mut judge, mut now, mut out) = (Judge::default(), State::default(), Outcome::new());
    let mut fresh = State::default();
    judge.read_numbers(&mut fresh, Touched::ALL);
    recording.put([5, 0, 0, 0, 0], &[], [0; 4], &fresh);
    let mut generator = Generator::new(seed, sequence, None, &[]);
    while recording.steps < most {
        let call = match generator.next(&now) {
            Some(Call::Tune(..)) | None => return,
            Some(call) => call,
        };
        let words = match words(&call) {
            Some(words) => words,
            None => continue,
        };
        judge.make(&call, &generator.bytes, &mut out);
        judge.read_numbers(&mut now, Touched::ALL);
        if out.datagrams.bytes.len() > OUT || out.datagrams.lengths.len() > LENGTHS {
            return;
        }
        let answer = match &call {
            Call::Get(_) => [0, 0, 0, sum(gotten(&mut judge).into_iter())],
            _ => answer(&call, &out),
        };
        recording.put(words, handed(&call, &generator.bytes), answer, &now);
        generator.saw(&out);
    }
}

fn main() {
    let words: Vec<String> = std::env::args().skip(1).collect();
    if words.len() != 3 {
        stop("SEED, COUNT and FILE are wanted");
    }
    let seed: u64 = words[0].parse().unwrap_or_else(|_| stop("SEED is to be a number"));
    let count: usize = words[1].parse().unwrap_or_else(|_| stop("COUNT is to be a number"));
    let mut recording = Recording { bytes: Vec::new(), steps: 0, by_code: [0; CODES], refused: [0; 17] };
    let mut sequence = 0;
    while recording.steps < count {
        record(seed, sequence, count, &mut recording);
        sequence += 1;
    }
    // whole or not at all
    let new = format!("{}.new", words[2]);
    fs::write(&new, &recording.bytes)
        .and_then(|_| fs::rename(&new, &words[2]))
        .unwrap_or_else(|e| stop(&format!("cannot write {}: {}", words[2], e)));
    println!("{} steps of {} sequences, {} bytes, written to {}", recording.steps, sequence, recording.bytes.len(), words[2]);
    println!("by code, from 0 on: {:?}", recording.by_code);
    println!("by the refusal's number, from none on: {:?}", &recording.refused[..=10]);
}
