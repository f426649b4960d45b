//! Timing: interleaved rounds of all sides, and of each side the least and the median round.

use std::time::{Duration, Instant};

/// Rounds are short and many: a disturbance of the machine then spoils few of them, and the least is a quiet one.
const ROUNDS: usize = 101;
const ROUND: Duration = Duration::from_millis(3);

/// A row of one side, ready to be timed.
pub trait Timed {
    /// One stretch, held against what the row says of the blocks before and after.
    fn check(&mut self);
    /// Prepares, times one run, and clears away; answers the time of the run alone.
    fn stretch(&mut self) -> Duration;
    /// The calls that one run makes.
    fn calls(&self) -> usize;
}

/// Nanoseconds a call.
#[derive(Clone, Copy)]
pub struct Figures {
    pub least: f64,
    pub median: f64,
}

/// What timing nothing takes; it is taken off each stretch. A mean, since the clock's grain is coarser than this, and the
/// least of many.
pub fn cost() -> Duration {
    const TIMES: u32 = 100;
    let mean = || (0..TIMES).map(|_| Instant::now().elapsed()).sum::<Duration>() / TIMES;
    (0..1000).map(|_| mean()).min().unwrap_or_default()
}

/// Times the sides in turn, round by round. A side that is not there has no figures.
pub fn rounds(sides: Vec<Option<Box<dyn Timed>>>, clock: Duration) -> Vec<Option<Figures>> {
    let mut runs: Vec<Option<Run>> = sides.into_iter().map(|side| side.map(Run::warm)).collect();
    for _ in 0..ROUNDS {
        for run in runs.iter_mut().flatten() {
            run.round(clock);
        }
    }
    runs.into_iter().map(|run| run.map(Run::figures)).collect()
}

/// A side with the rounds it has run.
struct Run {
    side: Box<dyn Timed>,
    /// How many stretches fill a round, preparing included.
    stretches: u32,
    rounds: Vec<f64>,
}

impl Run {
    /// Runs for some rounds' time, untimed, to warm up and to find how many stretches fill a round.
    fn warm(mut side: Box<dyn Timed>) -> Run {
        const TIMES: u32 = 5;
        side.check();
        let from = Instant::now();
        let mut stretches = 0;
        while from.elapsed() < ROUND * TIMES {
            side.stretch();
            stretches += 1;
        }
        Run { side, stretches: (stretches / TIMES).max(1), rounds: Vec::with_capacity(ROUNDS) }
    }

    fn round(&mut self, clock: Duration) {
        let mut took = Duration::from_secs(0);
        for _ in 0..self.stretches {
            took += self.side.stretch().checked_sub(clock).unwrap_or_default();
        }
        let calls = self.stretches as f64 * self.side.calls() as f64;
        self.rounds.push(took.as_nanos() as f64 / calls);
    }

    /// The figures, if at the end too the blocks are as the row says.
    fn figures(mut self) -> Figures {
        self.side.check();
        self.rounds.sort_by(|a, b| a.total_cmp(b));
        Figures { least: self.rounds[0], median: self.rounds[ROUNDS / 2] }
    }
}

/// The value, hidden from the optimiser: what it is cannot be known before the clock runs, nor what is done with it left out.
#[inline]
pub fn opaque<T: Copy>(value: T) -> T {
    unsafe { std::ptr::read_volatile(&value) }
}
