//! Two sides run by turns, and the best time of each.

use std::fmt;
use std::fmt::Display;
use std::fmt::Formatter;
use std::time::Duration;
use std::time::Instant;

/// How long both are run by turns.
pub const SPAN: Duration = Duration::from_secs(3);

/// The best times of both sides for one unit of work.
pub struct Timing {
    name: String,
    unit: &'static str,
    ours: f64,
    rusts: f64,
}

impl Timing {
    /// Runs both by turns. Each run does this many units of work.
    pub fn new(
        name: impl Into<String>,
        (units, unit): (usize, &'static str),
        mut ours: impl FnMut(),
        mut rusts: impl FnMut(),
    ) -> Self {
        let mut best = [Duration::MAX; 2];
        let begin = Instant::now();
        // Whichever comes second may find things in the cache.
        for first in [0, 1].into_iter().cycle() {
            for side in [first, 1 - first] {
                let start = Instant::now();
                match side {
                    0 => ours(),
                    _ => rusts(),
                }
                best[side] = best[side].min(start.elapsed());
            }
            if begin.elapsed() > SPAN {
                break;
            }
        }
        let [ours, rusts] = best.map(|time| time.as_nanos() as f64 / units as f64);
        Self {
            name: name.into(),
            unit,
            ours,
            rusts,
        }
    }
}

impl Display for Timing {
    fn fmt(&self, f: &mut Formatter) -> fmt::Result {
        let Self {
            name,
            unit,
            ours,
            rusts,
        } = self;
        let ratio = ours / rusts;
        write!(
            f,
            "| {name} | {unit} | {ours:.1} | {rusts:.1} | {ratio:.2} |"
        )
    }
}
