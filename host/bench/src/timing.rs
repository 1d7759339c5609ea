//! Times both functions on a pair, in turn and round by round.

use crate::ask::Asked;
use crate::pairs::Pair;
use crate::raw::{Function, NOW, PLAIN};
use std::time::{Duration, Instant};

const ROUNDS: usize = 25;
/// What the calls of a round take at least.
const ROUND: Duration = Duration::from_millis(1);

/// Nanoseconds a call, with its share of the loop around it.
pub struct Times {
    pub plain: f64,
    pub now: f64,
}

pub fn timed(pair: &Pair) -> Result<Times, String> {
    let asked = Asked::new(pair);
    let (mut plain, mut now) = (Best::new(&PLAIN), Best::new(&NOW));
    for _ in 0..ROUNDS {
        plain.round(&asked)?;
        now.round(&asked)?;
    }
    Ok(Times {
        plain: plain.nanoseconds,
        now: now.nanoseconds,
    })
}

/// The best round of a function so far.
struct Best {
    function: &'static Function,
    times: u64,
    nanoseconds: f64,
}

impl Best {
    fn new(function: &'static Function) -> Best {
        Best {
            function,
            times: 1,
            nanoseconds: f64::MAX,
        }
    }

    /// A round that is too short goes again with twice the calls. The first goes up from a single call, whose answer is thus checked alone.
    fn round(&mut self, asked: &Asked) -> Result<(), String> {
        let took = loop {
            let start = Instant::now();
            asked.ask(self.function, self.times)?;
            let took = start.elapsed();
            if took >= ROUND {
                break took;
            }
            self.times *= 2;
        };
        let each = took.as_secs_f64() * 1e9 / self.times as f64;
        self.nanoseconds = self.nanoseconds.min(each);
        Ok(())
    }
}
