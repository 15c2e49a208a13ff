//! Times of two sides, taken by turns so that both meet the same load.

use crate::processor::thread_time;
use std::time::Duration;

/// How long and how often is measured.
#[derive(Clone, Copy)]
pub struct Effort {
    /// How often each side has its turn.
    pub turns: usize,
    /// About how long a turn takes.
    pub turn: Duration,
    /// How often a process runs, and one that runs long.
    pub runs: usize,
    pub long_runs: usize,
}

impl Effort {
    pub const LONG: Effort =
        Effort { turns: 25, turn: Duration::from_millis(8), runs: 60, long_runs: 3 };
    pub const SHORT: Effort =
        Effort { turns: 4, turn: Duration::from_millis(2), runs: 6, long_runs: 1 };
}

/// The best time of each side for one call.
#[derive(Clone, Copy)]
pub struct Times {
    pub proved: Duration,
    pub plain: Duration,
}

impl Times {
    const NONE: Times = Times { proved: Duration::MAX, plain: Duration::MAX };

    pub fn ratio(self) -> f64 {
        self.proved.as_secs_f64() / self.plain.as_secs_f64()
    }
}

/// A call that is lent an output. It finds it filled with zeros.
pub type Call<'call> = dyn FnMut(&mut Vec<u8>) + 'call;

/// Both sides by turns; of each side the turn with the best mean counts.
pub fn by_turns(size: usize, proved: &mut Call, plain: &mut Call, effort: Effort) -> Times {
    let mut outputs = (Vec::new(), Vec::new());
    let proved_calls = calls_of_turn(proved, size, &mut outputs.0, effort);
    let plain_calls = calls_of_turn(plain, size, &mut outputs.1, effort);
    let mut best = Times::NONE;
    for _ in 0..effort.turns {
        best.proved = best.proved.min(mean(proved, size, &mut outputs.0, proved_calls));
        best.plain = best.plain.min(mean(plain, size, &mut outputs.1, plain_calls));
    }
    best
}

fn calls_of_turn(call: &mut Call, size: usize, output: &mut Vec<u8>, effort: Effort) -> u32 {
    // The first call finds cold caches and says little.
    mean(call, size, output, 1);
    let once = mean(call, size, output, 1).max(Duration::from_nanos(1));
    (effort.turn.as_nanos() / once.as_nanos()).max(1) as u32
}

/// The mean time of some calls; clearing their output is not timed.
fn mean(call: &mut Call, size: usize, output: &mut Vec<u8>, calls: u32) -> Duration {
    let mut total = Duration::ZERO;
    for _ in 0..calls {
        output.clear();
        output.resize(size, 0);
        let begin = thread_time();
        call(output);
        total += thread_time() - begin;
    }
    total / calls
}

/// The best of some runs of either side, by turns.
pub fn best_runs(
    runs: usize,
    mut proved: impl FnMut() -> Duration,
    mut plain: impl FnMut() -> Duration,
) -> Times {
    let mut best = Times::NONE;
    for _ in 0..runs {
        best.proved = best.proved.min(proved());
        best.plain = best.plain.min(plain());
    }
    best
}
