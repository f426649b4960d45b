//! Makes a script that shows a difference shorter, as far as it can within its time.

use crate::call::{Call, Piece};
use crate::run::Finding;
use std::time::{Duration, Instant};

/// Tries ever smaller scripts; `shows` replays one and says what differs, if anything does.
pub struct Shrinker<'a> {
    shows: &'a mut dyn FnMut(&[Call]) -> Option<Finding>,
    until: Instant,
    best: Finding,
}

pub fn shrink(finding: Finding, seconds: u64, shows: &mut dyn FnMut(&[Call]) -> Option<Finding>) -> Finding {
    let mut s = Shrinker { shows, until: Instant::now() + Duration::from_secs(seconds), best: finding };
    loop {
        let before = s.best.script.clone();
        s.drop_runs();
        s.drop_pieces();
        s.lower_numbers();
        if s.best.script == before || s.late() {
            return s.best;
        }
    }
}

impl<'a> Shrinker<'a> {
    fn late(&self) -> bool {
        Instant::now() >= self.until
    }

    /// Keeps the script if it still shows a difference.
    fn try_out(&mut self, script: &[Call]) -> bool {
        if script == &self.best.script[..] {
            return false;
        }
        match (self.shows)(script) {
            Some(finding) => {
                self.best = finding;
                true
            }
            None => false,
        }
    }

    /// Leaves out ever shorter runs of calls; the first call, which makes the block, stays.
    fn drop_runs(&mut self) {
        let mut size = (self.best.script.len() / 2).max(1);
        loop {
            let mut at = 1;
            while at < self.best.script.len() && !self.late() {
                let mut script = self.best.script.clone();
                let end = (at + size).min(script.len());
                script.drain(at..end);
                if !self.try_out(&script) {
                    at += size;
                }
            }
            if size == 1 || self.late() {
                return;
            }
            size = (size / 2).max(1);
        }
    }

    /// Leaves out segments of datagrams.
    fn drop_pieces(&mut self) {
        let mut i = 0;
        while i < self.best.script.len() && !self.late() {
            let count = match &self.best.script[i] {
                Call::Input(pieces) => pieces.len(),
                _ => 0,
            };
            for j in (0..count).rev() {
                let mut script = self.best.script.clone();
                if let Some(Call::Input(pieces)) = script.get_mut(i) {
                    if pieces.len() > 1 && j < pieces.len() {
                        pieces.remove(j);
                        self.try_out(&script);
                    }
                }
            }
            i += 1;
        }
    }

    /// Puts small numbers for large ones, one at a time.
    fn lower_numbers(&mut self) {
        let mut i = 0;
        while i < self.best.script.len() {
            for call in simpler(&self.best.script[i]) {
                if self.late() {
                    return;
                }
                let mut script = self.best.script.clone();
                if i < script.len() {
                    script[i] = call;
                    self.try_out(&script);
                }
            }
            i += 1;
        }
    }
}

/// Calls that are like this one with one thing made plain.
fn simpler(call: &Call) -> Vec<Call> {
    match call {
        Call::Start { conv, stream, rcv, snd, sizes } => vec![
            Call::Start { conv: 1, stream: *stream, rcv: *rcv, snd: *snd, sizes: *sizes },
            Call::Start { conv: *conv, stream: false, rcv: *rcv, snd: *snd, sizes: *sizes },
            Call::Start { conv: *conv, stream: *stream, rcv: 0, snd: *snd, sizes: *sizes },
            Call::Start { conv: *conv, stream: *stream, rcv: *rcv, snd: 0, sizes: *sizes },
        ],
        Call::Send(fill) => {
            let lengths = [0, 1, fill.len / 2, fill.len.saturating_sub(1)];
            lengths.iter().map(|n| Call::Send(crate::call::Fill { len: *n, seed: fill.seed })).collect()
        }
        Call::Input(pieces) => (0..pieces.len()).flat_map(|i| simpler_piece(pieces, i)).collect(),
        _ => Vec::new(),
    }
}

fn simpler_piece(pieces: &[Piece], i: usize) -> Vec<Call> {
    let (h, fill) = match &pieces[i] {
        Piece::Segment(h, fill) => (*h, *fill),
        Piece::Raw(_) => return Vec::new(),
    };
    let mut forms = vec![h; 5];
    forms[0].frg = 0;
    forms[1].una = 0;
    forms[2].ts = 0;
    forms[3].wnd = 128;
    forms[4].len = None;
    let mut out: Vec<Piece> = forms.into_iter().map(|x| Piece::Segment(x, fill)).collect();
    for len in [0, 1, fill.len / 2].iter().copied() {
        out.push(Piece::Segment(h, crate::call::Fill { len, seed: fill.seed }));
    }
    out.into_iter()
        .filter(|p| *p != pieces[i])
        .map(|p| {
            let mut all = pieces.to_vec();
            all[i] = p;
            Call::Input(all)
        })
        .collect()
}
