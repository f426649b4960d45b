//! Two blocks, each on both sides, joined by a line that loses, repeats, delays and reorders datagrams; each end is driven as its user
//! would drive it. Every call is compared as those of the random sequences are, and since a block's calls are a sequence of its own, what
//! is found is a script of one block.

use crate::call::{Call, Fill, Getter, Piece, Sizes};
use crate::domain;
use crate::random::Random;
use crate::run::{Care, Finding, Pair, Plan, Report};
use crate::side::Side;

/// The judge and the other side of one end.
pub type Sides<'a> = [&'a mut dyn Side; 2];

/// What the ends have done, so that a run shows that it was no idle one.
#[derive(Clone, Copy, Default, Debug)]
pub struct Done {
    pub pairs: u64,
    pub put_out: u64,
    pub lost: u64,
    pub repeated: u64,
    pub arrived: u64,
    pub messages: u64,
}

/// Datagrams on their way, each with the turn at which it arrives.
struct Line {
    /// One in so many is lost, is repeated; 0 for none.
    lost: usize,
    repeated: usize,
    /// So many turns at the most.
    delay: usize,
    under_way: Vec<(u64, Vec<u8>)>,
}

impl Line {
    fn new(r: &mut Random) -> Line {
        let (lost, repeated) = (r.pick(&[0, 50, 10, 4, 2]), r.pick(&[0, 30, 8]));
        Line { lost, repeated, delay: r.pick(&[1, 3, 10, 40]), under_way: Vec::new() }
    }

    fn put(&mut self, datagram: &[u8], turn: u64, r: &mut Random, done: &mut Done) {
        done.put_out += 1;
        if self.lost > 0 && r.once_in(self.lost) {
            done.lost += 1;
            return;
        }
        let again = self.repeated > 0 && r.once_in(self.repeated);
        done.repeated += again as u64;
        for _ in 0..=again as usize {
            self.under_way.push((turn + 1 + r.below(self.delay) as u64, datagram.to_vec()));
        }
    }

    /// One that arrives by this turn: any of them, so that they change places.
    fn take(&mut self, turn: u64, r: &mut Random) -> Option<Vec<u8>> {
        let due: Vec<usize> = (0..self.under_way.len()).filter(|i| self.under_way[*i].0 <= turn).collect();
        let at = *due.get(r.below(due.len()))?;
        Some(self.under_way.swap_remove(at).1)
    }
}

/// How the user of an end goes about it.
#[derive(Clone, Copy)]
struct Habit {
    /// Whether update is called when check says so, or at every turn.
    by_check: bool,
    /// Whether a send is followed by a flush, an input by a flush of the acks.
    flushes: bool,
    /// How many segments may wait before the user stops sending.
    most: u64,
    /// One turn in so many it reads what there is; one in so many it changes a setting.
    reads: usize,
    changes: usize,
}

impl Habit {
    fn new(r: &mut Random) -> Habit {
        Habit {
            by_check: r.once_in(2),
            flushes: r.once_in(2),
            most: r.pick(&[4, 40, 120]),
            // one that hardly reads closes its window, and the other end probes
            reads: r.pick(&[1, 1, 3, 20, 200]),
            changes: r.pick(&[8, 40, 1000]),
        }
    }
}

struct End<'a> {
    pair: Pair<'a>,
    script: Vec<Call>,
    bytes: Vec<u8>,
    sizes: Sizes,
    habit: Habit,
    /// When update is to be called, by the block's clock.
    due: u32,
    mark: u8,
    calls: u64,
    /// What it has put out since this was last looked at.
    out: Vec<Vec<u8>>,
}

/// The script of the end that differs.
type Held = Result<(), Finding>;

impl<'a> End<'a> {
    fn new(sides: &'a mut Sides, r: &mut Random, clock: u32) -> End<'a> {
        let [judge, other] = sides;
        let sizes = Sizes { receive: r.pick(&[256, 1024]), send: r.pick(&[128, 256, 1024]), acks: r.pick(&[128, 512, 4096]) };
        End {
            pair: Pair::new(&mut **judge, &mut **other, &[], Care::Usual),
            script: Vec::new(),
            bytes: Vec::new(),
            sizes,
            habit: Habit::new(r),
            due: clock,
            mark: r.word() as u8,
            calls: 0,
            out: Vec::new(),
        }
    }

    /// Makes the call, if it stays on the domain of equality: so a datagram whose pushes find no room for their acks is lost.
    fn call(&mut self, call: Call) -> Held {
        call.put_bytes(&mut self.bytes);
        if domain::leaves(&call, &self.bytes, &self.pair.now, self.sizes).is_some() {
            return Ok(());
        }
        let (_, what) = self.pair.step(&call, &self.bytes);
        self.calls += 1;
        self.script.push(call);
        self.out.extend(self.pair.outcome.datagrams.iter().map(|d| d.to_vec()));
        self.held(what)
    }

    fn held(&mut self, what: Option<Vec<String>>) -> Held {
        match what {
            None => Ok(()),
            Some(what) => Err(Finding { script: std::mem::take(&mut self.script), what }),
        }
    }

    /// A block whose numbers start at these, set up by its user.
    fn start(&mut self, conv: u32, rcv: u32, snd: u32, r: &mut Random) -> Held {
        self.call(Call::Start { conv, stream: r.once_in(2), rcv, snd, sizes: self.sizes })?;
        if r.below(4) > 0 {
            self.call(Call::SetNodelay(r.once_in(2), r.pick(&[10, 20, 40, 100]), r.below(4) as i32, r.once_in(2)))?;
        }
        self.call(self.window(r))?;
        self.call(Call::SetMtu(mtu(r)))
    }

    fn window(&self, r: &mut Random) -> Call {
        let most = (self.sizes.receive / 2) as u32;
        let rcv = r.pick(&[0, 128, 128, most, (128 + most) / 2]);
        Call::SetWndsize(r.pick(&[0, 4, 32, 128, 1024]), rcv as u16)
    }

    /// What comes in at this turn.
    fn hear(&mut self, line: &mut Line, turn: u64, r: &mut Random, done: &mut Done) -> Held {
        let mut heard = false;
        while let Some(datagram) = line.take(turn, r) {
            self.call(Call::Input(vec![Piece::Raw(datagram)]))?;
            done.arrived += 1;
            heard = true;
        }
        if heard && self.habit.flushes && self.pair.now.updated {
            self.call(Call::FlushAck)?;
        }
        Ok(())
    }

    /// Reads messages until there is none.
    fn read(&mut self, r: &mut Random, done: &mut Done) -> Held {
        loop {
            if r.once_in(4) {
                self.call(Call::Peeksize)?;
            }
            let n = self.message() + r.pick(&[0, 0, 1, 100]);
            self.call(Call::Recv(n))?;
            if self.pair.outcome.refused() {
                return Ok(());
            }
            done.messages += 1;
        }
    }

    /// The length of the message at the front of the queue.
    fn message(&self) -> usize {
        let queue = &self.pair.now.rcv_queue;
        let last = queue.iter().position(|x| x.frg == 0).map_or(queue.len(), |i| i + 1);
        queue[..last].iter().map(|x| x.len).sum()
    }

    /// Sends, unless enough is waiting.
    fn send(&mut self, r: &mut Random) -> Held {
        self.call(Call::Get(Getter::WaitSnd))?;
        let now = &self.pair.now;
        if (now.snd_buf.len() + now.snd_queue.len()) as u64 > self.habit.most {
            return Ok(());
        }
        let mss = now.mss;
        let len = r.pick(&[0, 1, 20, mss - 1, mss, mss + 1, 3 * mss, r.clone().below(4 * mss)]);
        self.mark = self.mark.wrapping_add(1);
        self.call(Call::Send(Fill { len, seed: self.mark }))?;
        if self.habit.flushes && self.pair.now.updated {
            self.call(Call::Flush)?;
        }
        Ok(())
    }

    /// Calls update when it is due, and check to hear when that is next.
    fn keep_time(&mut self, clock: u32) -> Held {
        if self.habit.by_check && (clock.wrapping_sub(self.due) as i32) < 0 {
            return Ok(());
        }
        self.call(Call::Update(clock))?;
        self.call(Call::Check(clock))?;
        if let crate::side::Answer::Number(wait) = self.pair.outcome.answer {
            self.due = clock.wrapping_add(wait as u32);
        }
        Ok(())
    }

    fn change(&mut self, r: &mut Random) -> Held {
        let call = match r.below(5) {
            0 | 1 => Call::SetMtu(mtu(r)),
            2 | 3 => self.window(r),
            _ => Call::SetNodelay(r.once_in(2), r.pick(&[10, 20, 100]), r.below(3) as i32, r.once_in(2)),
        };
        self.call(call)
    }

    /// One turn of the user's.
    fn turn(&mut self, clock: u32, busy: bool, r: &mut Random, done: &mut Done) -> Held {
        if r.once_in(self.habit.reads) {
            self.read(r, done)?;
        }
        if busy && r.once_in(2) {
            self.send(r)?;
        }
        if r.once_in(self.habit.changes) {
            self.change(r)?;
        }
        self.keep_time(clock)
    }
}

fn mtu(r: &mut Random) -> usize {
    r.pick(&[50, 51, 100, 200, 576, 1400, 1400, 1500])
}

/// About 0, 2^31 or 2^32, from where a run goes past it.
fn edge(r: &mut Random) -> u32 {
    let at = r.pick(&[0, 0, 1 << 31]);
    let before = r.below(200) as u32;
    r.near(at).wrapping_sub(r.pick(&[0, before, before]))
}

/// One pair of blocks.
fn one(sides: &mut [Sides; 2], r: &mut Random, calls: &mut u64, done: &mut Done) -> Held {
    let clock = edge(r);
    let [a, b] = sides;
    let mut ends = [End::new(a, r, clock), End::new(b, r, clock)];
    let held = live(&mut ends, clock, r, done);
    *calls += ends[0].calls + ends[1].calls;
    done.pairs += 1;
    held
}

/// As many turns as it takes: busy, and then idle, so that most comes through.
fn live(ends: &mut [End; 2], mut clock: u32, r: &mut Random, done: &mut Done) -> Held {
    let (conv, from, to) = (r.word(), edge(r), edge(r));
    let mut lines = [Line::new(r), Line::new(r)];
    ends[0].start(conv, from, to, r)?;
    ends[1].start(conv, to, from, r)?;
    let turns = r.pick(&[40, 150, 500]);
    let step = r.pick(&[3, 10, 40, 150]);
    for turn in 0..turns {
        clock = clock.wrapping_add(r.below(2 * step) as u32);
        for i in 0..2 {
            // what this end hears is on the line that the other speaks on
            ends[i].hear(&mut lines[1 - i], turn, r, done)?;
            ends[i].turn(clock, turn < turns * 3 / 4, r, done)?;
            for datagram in std::mem::take(&mut ends[i].out) {
                lines[i].put(&datagram, turn, r, done);
            }
        }
    }
    ends.iter_mut().try_for_each(|end| {
        let what = end.pair.finish();
        end.held(what)
    })
}

/// Runs pairs until so many calls have been compared.
pub fn run(sides: &mut [Sides; 2], plan: &Plan, progress: &mut dyn FnMut(u64)) -> (Report, Done) {
    let (mut calls, mut done) = (0, Done::default());
    while calls < plan.count {
        let mut r = Random::new(plan.seed.wrapping_mul(1_000_003).wrapping_add(done.pairs));
        if let Err(finding) = one(sides, &mut r, &mut calls, &mut done) {
            return (Report { calls, finding: Some(finding), idle: false }, done);
        }
        progress(calls);
    }
    (Report { calls, finding: None, idle: false }, done)
}
