//! The calls, and their form as lines of a script: what `compare` prints, `compare --replay` reads.

use crate::domain::LONGEST;
use state::Touched;
use std::fmt::{self, Display, Formatter};

/// A payload of which only the length and a seed are written down.
#[derive(Clone, Copy, PartialEq, Eq, Debug)]
pub struct Fill {
    pub len: usize,
    pub seed: u8,
}

impl Fill {
    pub fn bytes(self) -> impl Iterator<Item = u8> {
        (0..self.len).map(move |i| (i as u8).wrapping_mul(7).wrapping_add(self.seed))
    }
}

/// A part of a datagram.
#[derive(Clone, PartialEq, Eq, Debug)]
pub enum Piece {
    Segment(Header, Fill),
    Raw(Vec<u8>),
}

/// A header; `len` is what it claims, where that is not the payload's length.
#[derive(Clone, Copy, PartialEq, Eq, Debug)]
pub struct Header {
    pub conv: u32,
    pub cmd: u8,
    pub frg: u8,
    pub wnd: u16,
    pub ts: u32,
    pub sn: u32,
    pub una: u32,
    pub len: Option<u32>,
}

pub const PUSH: u8 = 81;
pub const ACK: u8 = 82;
pub const ASK: u8 = 83;
pub const TELL: u8 = 84;

pub fn datagram(pieces: &[Piece]) -> Vec<u8> {
    let mut out = Vec::new();
    put_datagram(pieces, &mut out);
    out
}

fn put_datagram(pieces: &[Piece], out: &mut Vec<u8>) {
    for piece in pieces {
        match piece {
            Piece::Raw(bytes) => out.extend_from_slice(bytes),
            Piece::Segment(h, fill) => {
                out.extend_from_slice(&h.conv.to_le_bytes());
                out.push(h.cmd);
                out.push(h.frg);
                out.extend_from_slice(&h.wnd.to_le_bytes());
                out.extend_from_slice(&h.ts.to_le_bytes());
                out.extend_from_slice(&h.sn.to_le_bytes());
                out.extend_from_slice(&h.una.to_le_bytes());
                out.extend_from_slice(&h.len.unwrap_or(fill.len as u32).to_le_bytes());
                out.extend(fill.bytes());
            }
        }
    }
}

/// The sizes of the memory that is lent to the port: receive slots, send slots, acks.
#[derive(Clone, Copy, PartialEq, Eq, Debug)]
pub struct Sizes {
    pub receive: usize,
    pub send: usize,
    pub acks: usize,
}

/// A number of the state that a script may set on both sides, to stand where only a long run of calls would lead.
#[derive(Clone, Copy, PartialEq, Eq, Debug)]
pub enum Tuned {
    Cwnd,
    Incr,
    Ssthresh,
    RxRto,
    /// snd_nxt, so far past snd_una: one segment stuck and the rest acked.
    Ahead,
    Fastack(usize),
    Xmit(usize),
    Rto(usize),
}

impl Tuned {
    /// The largest number that the field holds.
    fn most(self) -> u64 {
        match self {
            Tuned::Cwnd | Tuned::Ssthresh => u16::MAX as u64,
            Tuned::Incr => u64::MAX,
            _ => u32::MAX as u64,
        }
    }
}

#[derive(Clone, PartialEq, Eq, Debug)]
pub enum Call {
    /// A block made anew, whose receive numbers start at `rcv` and whose send numbers start at `snd`.
    Start { conv: u32, stream: bool, rcv: u32, snd: u32, sizes: Sizes },
    Tune(Tuned, u64),
    Input(Vec<Piece>),
    Recv(usize),
    Peeksize,
    Send(Fill),
    Update(u32),
    Flush,
    FlushAck,
    Check(u32),
    MoveBuf,
    SetMtu(usize),
    SetInterval(u32),
    SetNodelay(bool, i32, i32, bool),
    SetWndsize(u16, u16),
    SetRxMinrto(u32),
    SetFastResend(u32),
    SetMaximumResendTimes(u32),
    InputConv,
    SetConv(u32),
    Get(Getter),
    GetConv(Vec<u8>),
    PutConv(Vec<u8>, u32),
    GetSn(Vec<u8>),
    Timediff(u32, u32),
    Bound(u32, u32, u32),
    Encode(Header, u32),
    /// srtt, rttval, rto, minrto; interval; rtt
    Estimate([u32; 4], u32, u32),
}

#[derive(Clone, Copy, PartialEq, Eq, Debug)]
pub enum Getter {
    Conv,
    WaitingConv,
    Mtu,
    Mss,
    SndWnd,
    RcvWnd,
    RmtWnd,
    WaitSnd,
    HeaderLen,
    IsStream,
    IsDeadLink,
}

pub const GETTERS: [(Getter, &str); 11] = [
    (Getter::Conv, "conv"),
    (Getter::WaitingConv, "waiting_conv"),
    (Getter::Mtu, "mtu"),
    (Getter::Mss, "mss"),
    (Getter::SndWnd, "snd_wnd"),
    (Getter::RcvWnd, "rcv_wnd"),
    (Getter::RmtWnd, "rmt_wnd"),
    (Getter::WaitSnd, "wait_snd"),
    (Getter::HeaderLen, "header_len"),
    (Getter::IsStream, "is_stream"),
    (Getter::IsDeadLink, "is_dead_link"),
];

/// The names by which calls are chosen on the command line; the same words begin the lines of a script.
pub const NAMES: [&str; 36] = [
    "new", "input", "recv", "peeksize", "send", "update", "flush", "flush_ack", "check", "move_buf", "set_mtu", "set_interval",
    "set_nodelay", "set_wndsize", "set_rx_minrto", "set_fast_resend", "set_maximum_resend_times", "input_conv", "set_conv",
    "conv", "waiting_conv", "mtu", "mss", "snd_wnd", "rcv_wnd", "rmt_wnd", "wait_snd", "header_len", "is_stream", "is_dead_link",
    "helper_get_conv", "helper_set_conv", "helper_get_sn", "timediff", "bound", "estimate",
];

/// Those that take no block: numbers and bytes alone.
pub const LEAVES: [&str; 7] =
    ["helper_get_conv", "helper_set_conv", "helper_get_sn", "timediff", "bound", "encode", "estimate"];

impl Call {
    /// Puts the bytes that the call is handed, a datagram or a message, into a list in place of what is there: so they are made once
    /// for all that look at them.
    pub fn put_bytes(&self, into: &mut Vec<u8>) {
        into.clear();
        match self {
            Call::Input(pieces) => put_datagram(pieces, into),
            Call::Send(fill) => into.extend(fill.bytes()),
            _ => {}
        }
    }

    /// Which lists of segments the call can change, at the least by their numbers.
    pub fn touched(&self) -> Touched {
        let (received, to_send) = match self {
            Call::Start { .. } | Call::Input(_) => (true, true),
            Call::Recv(_) | Call::MoveBuf => (true, false),
            Call::Send(_) | Call::Flush | Call::Update(_) | Call::Tune(..) => (false, true),
            _ => (false, false),
        };
        Touched { received, to_send }
    }

    pub fn name(&self) -> &'static str {
        match self {
            Call::Start { .. } => "new",
            Call::Tune(..) => "tune",
            Call::Input(_) => "input",
            Call::Recv(_) => "recv",
            Call::Peeksize => "peeksize",
            Call::Send(_) => "send",
            Call::Update(_) => "update",
            Call::Flush => "flush",
            Call::FlushAck => "flush_ack",
            Call::Check(_) => "check",
            Call::MoveBuf => "move_buf",
            Call::SetMtu(_) => "set_mtu",
            Call::SetInterval(_) => "set_interval",
            Call::SetNodelay(..) => "set_nodelay",
            Call::SetWndsize(..) => "set_wndsize",
            Call::SetRxMinrto(_) => "set_rx_minrto",
            Call::SetFastResend(_) => "set_fast_resend",
            Call::SetMaximumResendTimes(_) => "set_maximum_resend_times",
            Call::InputConv => "input_conv",
            Call::SetConv(_) => "set_conv",
            Call::Get(g) => GETTERS.iter().find(|x| x.0 == *g).map(|x| x.1).unwrap_or("get"),
            Call::GetConv(_) => "helper_get_conv",
            Call::PutConv(..) => "helper_set_conv",
            Call::GetSn(_) => "helper_get_sn",
            Call::Timediff(..) => "timediff",
            Call::Bound(..) => "bound",
            Call::Encode(..) => "encode",
            Call::Estimate(..) => "estimate",
        }
    }
}

fn hex(bytes: &[u8]) -> String {
    if bytes.is_empty() {
        return "-".to_string();
    }
    bytes.iter().map(|b| format!("{:02x}", b)).collect()
}

impl Display for Header {
    fn fmt(&self, f: &mut Formatter<'_>) -> fmt::Result {
        let cmd = match self.cmd {
            PUSH => "push".to_string(),
            ACK => "ack".to_string(),
            ASK => "ask".to_string(),
            TELL => "tell".to_string(),
            other => format!("cmd{}", other),
        };
        write!(f, "{} conv={} frg={} wnd={} ts={} sn={} una={}", cmd, self.conv, self.frg, self.wnd, self.ts, self.sn, self.una)?;
        match self.len {
            Some(len) => write!(f, " len={}", len),
            None => Ok(()),
        }
    }
}

impl Display for Call {
    fn fmt(&self, f: &mut Formatter<'_>) -> fmt::Result {
        write!(f, "{}", self.name())?;
        match self {
            Call::Start { conv, stream, rcv, snd, sizes } => write!(
                f,
                " conv={} mode={} rcv={} snd={} slots={},{},{}",
                conv,
                if *stream { "stream" } else { "plain" },
                rcv,
                snd,
                sizes.receive,
                sizes.send,
                sizes.acks
            ),
            Call::Tune(what, value) => match what {
                Tuned::Cwnd => write!(f, " cwnd {}", value),
                Tuned::Incr => write!(f, " incr {}", value),
                Tuned::Ssthresh => write!(f, " ssthresh {}", value),
                Tuned::RxRto => write!(f, " rx_rto {}", value),
                Tuned::Ahead => write!(f, " ahead {}", value),
                Tuned::Fastack(i) => write!(f, " fastack[{}] {}", i, value),
                Tuned::Xmit(i) => write!(f, " xmit[{}] {}", i, value),
                Tuned::Rto(i) => write!(f, " rto[{}] {}", i, value),
            },
            Call::Input(pieces) => {
                for (i, piece) in pieces.iter().enumerate() {
                    f.write_str(if i == 0 { " " } else { " ; " })?;
                    match piece {
                        Piece::Raw(bytes) => write!(f, "raw {}", hex(bytes))?,
                        Piece::Segment(h, fill) if fill.len == 0 => write!(f, "{}", h)?,
                        Piece::Segment(h, fill) => write!(f, "{} data={}.{}", h, fill.len, fill.seed)?,
                    }
                }
                Ok(())
            }
            Call::Send(fill) => write!(f, " {}.{}", fill.len, fill.seed),
            Call::Recv(n) | Call::SetMtu(n) => write!(f, " {}", n),
            Call::Update(n)
            | Call::Check(n)
            | Call::SetInterval(n)
            | Call::SetRxMinrto(n)
            | Call::SetFastResend(n)
            | Call::SetMaximumResendTimes(n)
            | Call::SetConv(n) => write!(f, " {}", n),
            Call::SetNodelay(nodelay, interval, resend, nc) => write!(f, " {} {} {} {}", nodelay, interval, resend, nc),
            Call::SetWndsize(s, r) => write!(f, " {} {}", s, r),
            Call::GetConv(b) | Call::GetSn(b) => write!(f, " {}", hex(b)),
            Call::PutConv(b, conv) => write!(f, " {} {}", hex(b), conv),
            Call::Timediff(a, b) => write!(f, " {} {}", a, b),
            Call::Bound(a, b, c) => write!(f, " {} {} {}", a, b, c),
            Call::Encode(h, len) => write!(f, " {} {}", h, len),
            Call::Estimate(e, interval, rtt) => write!(f, " {} {} {} {} {} {}", e[0], e[1], e[2], e[3], interval, rtt),
            _ => Ok(()),
        }
    }
}

// ---- reading a script

type Read<T> = Result<T, String>;

fn number<T: std::str::FromStr>(word: Option<&str>) -> Read<T> {
    let word = word.ok_or_else(|| "a number is missing".to_string())?;
    word.parse().map_err(|_| format!("'{}' is no number that fits here", word))
}

fn unhex(word: Option<&str>) -> Read<Vec<u8>> {
    let word = word.ok_or_else(|| "bytes are missing".to_string())?;
    if word == "-" {
        return Ok(Vec::new());
    }
    if word.len() % 2 != 0 || !word.is_ascii() {
        return Err(format!("'{}' is no row of bytes", word));
    }
    (0..word.len() / 2)
        .map(|i| u8::from_str_radix(&word[2 * i..2 * i + 2], 16).map_err(|_| format!("'{}' is no row of bytes", word)))
        .collect()
}

fn fill(word: Option<&str>) -> Read<Fill> {
    let word = word.ok_or_else(|| "a payload is missing".to_string())?;
    let mut parts = word.splitn(2, '.');
    Ok(Fill { len: length(parts.next())?, seed: number(parts.next())? })
}

/// A length that memory can be had for.
fn length(word: Option<&str>) -> Read<usize> {
    let n = number(word)?;
    if n > LONGEST {
        return Err(format!("{} bytes are more than a script may name", n));
    }
    Ok(n)
}

fn flag(word: Option<&str>) -> Read<bool> {
    match word {
        Some("true") => Ok(true),
        Some("false") => Ok(false),
        _ => Err("true or false is wanted".to_string()),
    }
}

/// Each word after the first is NAME=VALUE with one of these names, and none stands twice.
fn only(words: &[&str], names: &[&str]) -> Read<()> {
    for (i, word) in words.iter().enumerate().skip(1) {
        let name = word.splitn(2, '=').next().unwrap_or("");
        if !names.contains(&name) {
            return Err(format!("'{}' has no place here", word));
        }
        if words[..i].iter().any(|w| w.splitn(2, '=').next() == Some(name)) {
            return Err(format!("'{}' stands twice", name));
        }
    }
    Ok(())
}

fn named<'a>(words: &[&'a str], name: &str) -> Option<&'a str> {
    words.iter().find_map(|w| w.strip_prefix(name).and_then(|r| r.strip_prefix('=')))
}

fn header(words: &[&str]) -> Read<Header> {
    let cmd = match words.first().copied() {
        Some("push") => PUSH,
        Some("ack") => ACK,
        Some("ask") => ASK,
        Some("tell") => TELL,
        Some(other) => number(other.strip_prefix("cmd"))?,
        None => return Err("a segment is missing".to_string()),
    };
    let len = match named(words, "len") {
        Some(w) => Some(number(Some(w))?),
        None => None,
    };
    Ok(Header {
        conv: number(named(words, "conv"))?,
        cmd,
        frg: number(named(words, "frg"))?,
        wnd: number(named(words, "wnd"))?,
        ts: number(named(words, "ts"))?,
        sn: number(named(words, "sn"))?,
        una: number(named(words, "una"))?,
        len,
    })
}

fn piece(text: &str) -> Read<Piece> {
    let words: Vec<&str> = text.split_whitespace().collect();
    if words.first() == Some(&"raw") {
        return Ok(Piece::Raw(unhex(words.get(1).copied())?));
    }
    only(&words, &["conv", "frg", "wnd", "ts", "sn", "una", "len", "data"])?;
    let data = match named(&words, "data") {
        Some(w) => fill(Some(w))?,
        None => Fill { len: 0, seed: 0 },
    };
    Ok(Piece::Segment(header(&words)?, data))
}

fn tuned(word: Option<&str>) -> Read<Tuned> {
    let word = word.ok_or_else(|| "a field is missing".to_string())?;
    let mut parts = word.splitn(2, '[');
    let name = parts.next().unwrap_or("");
    let at = || -> Read<usize> { number(word.splitn(2, '[').nth(1).map(|r| r.trim_end_matches(']'))) };
    match name {
        "cwnd" => Ok(Tuned::Cwnd),
        "incr" => Ok(Tuned::Incr),
        "ssthresh" => Ok(Tuned::Ssthresh),
        "rx_rto" => Ok(Tuned::RxRto),
        "ahead" => Ok(Tuned::Ahead),
        "fastack" => Ok(Tuned::Fastack(at()?)),
        "xmit" => Ok(Tuned::Xmit(at()?)),
        "rto" => Ok(Tuned::Rto(at()?)),
        _ => Err(format!("'{}' is no field that can be set", word)),
    }
}

fn start(words: &[&str]) -> Read<Call> {
    only(words, &["conv", "mode", "rcv", "snd", "slots"])?;
    let slots: Vec<&str> = named(words, "slots").unwrap_or("1024,1024,4096").split(',').collect();
    let stream = match named(words, "mode") {
        Some("stream") => true,
        Some("plain") | None => false,
        Some(other) => return Err(format!("'{}' is no mode: plain or stream", other)),
    };
    Ok(Call::Start {
        conv: number(named(words, "conv"))?,
        stream,
        rcv: number(named(words, "rcv"))?,
        snd: number(named(words, "snd"))?,
        sizes: Sizes {
            receive: number(slots.first().copied())?,
            send: number(slots.get(1).copied())?,
            acks: number(slots.get(2).copied())?,
        },
    })
}

/// A line of a script; `None` for an empty line or a comment, which `#` begins.
pub fn parse(line: &str) -> Read<Option<Call>> {
    let line = line.split('#').next().unwrap_or("").trim();
    let words: Vec<&str> = line.split_whitespace().collect();
    let name = match words.first() {
        Some(w) => *w,
        None => return Ok(None),
    };
    let w = |i: usize| words.get(i).copied();
    let most = match name {
        "new" | "input" | "encode" => usize::MAX,
        "estimate" => 7,
        "set_nodelay" => 5,
        "bound" => 4,
        "tune" | "timediff" | "set_wndsize" | "helper_set_conv" => 3,
        _ => 2,
    };
    if words.len() > most {
        return Err(format!("'{}' has no place here", words[most]));
    }
    let call = match name {
        "new" => start(&words)?,
        "tune" => {
            let what = tuned(w(1))?;
            let value = number(w(2))?;
            if value > what.most() {
                return Err(format!("{} does not fit there", value));
            }
            Call::Tune(what, value)
        }
        "input" => {
            let rest = line[name.len()..].trim();
            let pieces: Read<Vec<Piece>> = rest.split(';').filter(|p| !p.trim().is_empty()).map(piece).collect();
            Call::Input(pieces?)
        }
        "recv" => Call::Recv(length(w(1))?),
        "peeksize" => Call::Peeksize,
        "send" => Call::Send(fill(w(1))?),
        "update" => Call::Update(number(w(1))?),
        "flush" => Call::Flush,
        "flush_ack" => Call::FlushAck,
        "check" => Call::Check(number(w(1))?),
        "move_buf" => Call::MoveBuf,
        "set_mtu" => Call::SetMtu(number(w(1))?),
        "set_interval" => Call::SetInterval(number(w(1))?),
        "set_nodelay" => Call::SetNodelay(flag(w(1))?, number(w(2))?, number(w(3))?, flag(w(4))?),
        "set_wndsize" => Call::SetWndsize(number(w(1))?, number(w(2))?),
        "set_rx_minrto" => Call::SetRxMinrto(number(w(1))?),
        "set_fast_resend" => Call::SetFastResend(number(w(1))?),
        "set_maximum_resend_times" => Call::SetMaximumResendTimes(number(w(1))?),
        "input_conv" => Call::InputConv,
        "set_conv" => Call::SetConv(number(w(1))?),
        "helper_get_conv" => Call::GetConv(unhex(w(1))?),
        "helper_set_conv" => Call::PutConv(unhex(w(1))?, number(w(2))?),
        "helper_get_sn" => Call::GetSn(unhex(w(1))?),
        "timediff" => Call::Timediff(number(w(1))?, number(w(2))?),
        "bound" => Call::Bound(number(w(1))?, number(w(2))?, number(w(3))?),
        "encode" => Call::Encode(header(&words[1..])?, number(words.last().copied())?),
        "estimate" => Call::Estimate(
            [number(w(1))?, number(w(2))?, number(w(3))?, number(w(4))?],
            number(w(5))?,
            number(w(6))?,
        ),
        other => match GETTERS.iter().find(|x| x.1 == other) {
            Some(x) => Call::Get(x.0),
            None => return Err(format!("'{}' is no call", other)),
        },
    };
    Ok(Some(call))
}
