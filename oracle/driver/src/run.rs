//! Runs sequences of calls on two sides, and tells the first difference.

use crate::call::{Call, Sizes, Tuned, LEAVES, PUSH};
use crate::domain;
use crate::generator::{Generator, Profile};
use crate::reach::Reach;
use crate::side::{Answer, Outcome, Side};
use state::{State, Touched};

/// What is wanted of a run.
#[derive(Clone, Default)]
pub struct Plan {
    pub seed: u64,
    pub count: u64,
    /// The calls that are compared, by name; none: all that the other side has.
    pub calls: Vec<String>,
    pub profile: Option<Profile>,
}

/// The two sides differ after the last call of the script.
#[derive(Clone, Debug)]
pub struct Finding {
    pub script: Vec<Call>,
    pub what: Vec<String>,
}

pub struct Report {
    pub calls: u64,
    pub finding: Option<Finding>,
    /// No sequence of the profile has any of the calls that were to be compared.
    pub idle: bool,
}

/// After so many sequences without a call to compare there will be none.
const IDLE: u64 = 400;

/// Sets one number of a state, as `Call::Tune` asks. A segment that is not there is left out of it.
pub fn tune(s: &mut State, what: Tuned, value: u64) {
    match what {
        Tuned::Cwnd => s.cwnd = value as u16,
        Tuned::Incr => s.incr = value as usize,
        Tuned::Ssthresh => s.ssthresh = value as u16,
        Tuned::RxRto => s.rx_rto = value as u32,
        Tuned::Ahead => s.snd_nxt = s.snd_una.wrapping_add(value as u32),
        Tuned::Fastack(i) => s.snd_buf.iter_mut().skip(i).take(1).for_each(|x| x.fastack = value as u32),
        Tuned::Xmit(i) => s.snd_buf.iter_mut().skip(i).take(1).for_each(|x| x.xmit = value as u32),
        Tuned::Rto(i) => s.snd_buf.iter_mut().skip(i).take(1).for_each(|x| x.rto = value as u32),
    }
}

/// After so many calls everything is compared, payloads and lent memory among it.
pub const WHOLE: u64 = 256;

/// How much the calls of a run are looked at.
#[derive(Clone, Copy, PartialEq, Eq, Debug)]
pub enum Care {
    /// After every call the answer, what went out, every number, and the payloads that the call could have stored or filled; all
    /// payloads at a refusal, and with the lent memory every WHOLE calls and at the end.
    Usual,
    /// All of it after every call: for scripts, which are short.
    Full,
}

/// Holds two sides to the calls of one sequence.
pub struct Pair<'a> {
    judge: &'a mut dyn Side,
    other: &'a mut dyn Side,
    calls: &'a [String],
    care: Care,
    sizes: Sizes,
    /// The judge's state after the last call, without payloads.
    pub now: State,
    pub outcome: Outcome,
    answered: Outcome,
    /// Whether the other side's state is the judge's, so that it need not be laid.
    level: bool,
    steps: u64,
}

impl<'a> Pair<'a> {
    pub fn new(judge: &'a mut dyn Side, other: &'a mut dyn Side, calls: &'a [String], care: Care) -> Pair<'a> {
        Pair {
            judge,
            other,
            calls,
            care,
            sizes: Sizes { receive: 1024, send: 1024, acks: 4096 },
            now: State::default(),
            outcome: Outcome::new(),
            answered: Outcome::new(),
            level: false,
            steps: 0,
        }
    }

    /// Whether this call is one to compare.
    fn chosen(&self, call: &Call) -> bool {
        let name = call.name();
        self.other.has(name) && (self.calls.is_empty() || self.calls.iter().any(|c| c == name))
    }

    /// Makes the call, which is handed these bytes; `Some` is what differs, `None` no difference. The flag says whether the call was
    /// compared.
    pub fn step(&mut self, call: &Call, bytes: &[u8]) -> (bool, Option<Vec<String>>) {
        if let Call::Start { sizes, .. } = call {
            self.sizes = *sizes;
            // nothing of the state before a new block counts
            self.level = true;
        }
        let chosen = self.chosen(call);
        let leaf = LEAVES.contains(&call.name());
        if chosen && !leaf && !self.level {
            let mut whole = State::default();
            self.judge.read(&mut whole);
            self.other.lay(&whole, self.sizes);
        }
        let waited = self.now.snd_queue.len();
        self.judge.make(call, bytes, &mut self.outcome);
        if !leaf {
            self.judge.read_numbers(&mut self.now, call.touched());
        }
        if !chosen {
            self.level = self.level && leaf;
            return (false, None);
        }
        self.other.make(call, bytes, &mut self.answered);
        let mut what = self.shown();
        if !leaf {
            what.extend(self.kept(call, bytes, waited));
            self.level = what.is_empty();
        }
        (true, if what.is_empty() { None } else { Some(what) })
    }

    /// Compares all that there is at the end of a sequence.
    pub fn finish(&mut self) -> Option<Vec<String>> {
        if !self.level {
            return None;
        }
        let what = self.all(true);
        if what.is_empty() {
            None
        } else {
            Some(what)
        }
    }

    /// What differs in the answers.
    fn shown(&self) -> Vec<String> {
        let (a, b) = (&self.outcome, &self.answered);
        let mut what = Vec::new();
        if a.answer == Answer::Panicked {
            what.push("the judge itself broke off".to_string());
        }
        if a.answer != b.answer {
            what.push(format!("answer: {:?} | {:?}", a.answer, b.answer));
        }
        if a.skipped != b.skipped {
            what.push(format!("skipped pushes: {} | {}", a.skipped, b.skipped));
        }
        if a.datagrams != b.datagrams {
            what.push(format!("datagrams: {:?} | {:?}", a.datagrams.lengths, b.datagrams.lengths));
        }
        if a.buffer != b.buffer {
            what.push("the caller's buffer".to_string());
        }
        if let Some(stray) = &b.stray {
            what.push(format!("lent memory: {}", stray));
        }
        what
    }

    /// What differs in the states after a call.
    fn kept(&mut self, call: &Call, bytes: &[u8], waited: usize) -> Vec<String> {
        self.steps += 1;
        let rooms = self.care == Care::Full || self.steps % WHOLE == 0;
        // a refused call leaves all as it was, or what came before the refusal; and segments that moved took their payloads with them
        if rooms || self.answered.refused() || self.answered.moved {
            return self.all(rooms);
        }
        if self.other.agrees(&self.now, call.touched()) && self.payloads(call, bytes, waited) {
            return Vec::new();
        }
        let mut what = self.all(false);
        if what.is_empty() {
            what.push("numbers or payloads differ that are the same when all is read".to_string());
        }
        what
    }

    /// Whether the payloads are the same that the call could have stored or filled: of the numbers that the pushes of a datagram name,
    /// new or repeated, and of the segments from the last that waited on. No other call writes payloads.
    fn payloads(&self, call: &Call, bytes: &[u8], waited: usize) -> bool {
        match call {
            Call::Input(_) => pushes(bytes).all(|sn| self.judge.stored(sn) == self.other.stored(sn)),
            Call::Send(_) => {
                (waited.saturating_sub(1)..self.now.snd_queue.len()).all(|i| self.judge.waiting(i) == self.other.waiting(i))
            }
            _ => true,
        }
    }

    /// What differs in all that both sides keep, and what is wrong with the memory that the other side is lent.
    fn all(&mut self, rooms: bool) -> Vec<String> {
        self.judge.read_numbers(&mut self.now, Touched::ALL);
        let mut what = Vec::new();
        if !self.other.agrees(&self.now, Touched::ALL) || !self.judge.payloads().eq(self.other.payloads()) {
            let (mut ours, mut theirs) = (State::default(), State::default());
            self.judge.read(&mut ours);
            self.other.read(&mut theirs);
            if !self.other.keeps_all() {
                ours.forget_unread();
            }
            what = tell(&ours, &theirs);
        }
        what.extend(self.other.look_over(rooms).map(|fault| format!("lent memory: {}", fault)));
        what
    }
}

/// The numbers of a datagram's pushes, as input walks over it.
fn pushes(bytes: &[u8]) -> impl Iterator<Item = u32> + '_ {
    let mut rest = bytes;
    std::iter::from_fn(move || {
        while rest.len() >= 24 {
            let (header, behind) = rest.split_at(24);
            let word = |i: usize| u32::from_le_bytes([header[i], header[i + 1], header[i + 2], header[i + 3]]);
            rest = behind.get(word(20) as usize..).unwrap_or(&[]);
            if header[4] == PUSH {
                return Some(word(12));
            }
        }
        None
    })
}

/// Two states that are not the same, in words.
fn tell(a: &State, b: &State) -> Vec<String> {
    let mut what: Vec<String> = a.differences(b).iter().map(|(name, x, y)| format!("{}: {} | {}", name, x, y)).collect();
    if what.is_empty() {
        what.push("the states differ".to_string());
    }
    what
}

/// Runs the plan; `progress` hears the number of calls compared so far, now and then.
pub fn run(judge: &mut dyn Side, other: &mut dyn Side, plan: &Plan, progress: &mut dyn FnMut(u64)) -> Report {
    let mut calls = 0;
    let mut sequence = 0;
    while calls < plan.count {
        if calls == 0 && sequence == IDLE {
            return Report { calls, finding: None, idle: true };
        }
        let mut generator = Generator::new(plan.seed, sequence, plan.profile, &plan.calls);
        sequence += 1;
        let mut pair = Pair::new(judge, other, &plan.calls, Care::Usual);
        let mut script = Vec::new();
        while let Some(call) = generator.next(&pair.now) {
            let (compared, what) = pair.step(&call, &generator.bytes);
            script.push(call);
            generator.saw(&pair.outcome);
            calls += compared as u64;
            if let Some(what) = what {
                return Report { calls, finding: Some(Finding { script, what }), idle: false };
            }
            if calls >= plan.count {
                break;
            }
        }
        if let Some(what) = pair.finish() {
            return Report { calls, finding: Some(Finding { script, what }), idle: false };
        }
        progress(calls);
    }
    Report { calls, finding: None, idle: false }
}

/// Makes the plan's calls on the judge alone, and tells which cases they meet: how many are never met, and a line for each.
pub fn reach(judge: &mut dyn Side, plan: &Plan) -> (usize, Vec<String>) {
    let mut reach = Reach::default();
    let (mut calls, mut sequence) = (0, 0);
    let (mut now, mut after, mut out) = (State::default(), State::default(), Outcome::new());
    while calls < plan.count {
        let mut generator = Generator::new(plan.seed, sequence, plan.profile, &plan.calls);
        sequence += 1;
        while let Some(call) = generator.next(&now) {
            judge.make(&call, &generator.bytes, &mut out);
            judge.read_numbers(&mut after, Touched::ALL);
            reach.saw(&now, &call, &out, &after, generator.sizes);
            std::mem::swap(&mut now, &mut after);
            generator.saw(&out);
            calls += 1;
        }
    }
    reach.table()
}

/// What came of a script.
pub enum Replay {
    Same(u64),
    Differs(u64, Finding),
    /// The call at this index leaves the domain of equality, and why.
    Leaves(usize, &'static str),
}

/// Runs a script up to its first difference.
pub fn replay(judge: &mut dyn Side, other: &mut dyn Side, script: &[Call], calls: &[String]) -> Replay {
    let mut pair = Pair::new(judge, other, calls, Care::Full);
    let (mut count, mut bytes) = (0, Vec::new());
    for (i, call) in script.iter().enumerate() {
        call.put_bytes(&mut bytes);
        if let Some(why) = domain::leaves(call, &bytes, &pair.now, pair.sizes) {
            return Replay::Leaves(i, why);
        }
        let (compared, what) = pair.step(call, &bytes);
        count += compared as u64;
        if let Some(what) = what {
            return Replay::Differs(count, Finding { script: script[..=i].to_vec(), what });
        }
    }
    Replay::Same(count)
}
