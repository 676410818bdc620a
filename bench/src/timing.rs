//! How long a turn takes on each side, and the line through many such times.

use std::time::Instant;

/// How often the whole list is gone through, and how long each timing lasts, in nanoseconds.
const ROUNDS: usize = 25;
const LASTING: f64 = 4e5;

/// So many turns of a call; the last one's number.
pub type Side = Box<dyn FnMut(usize) -> u8>;

/// A call on both sides, with how many turns of it each timing takes, the least times and every ratio.
pub struct Timed {
    ours: Side,
    given: Side,
    turns: (usize, usize),
    pub least: (f64, f64),
    ratios: Vec<f64>,
}

/// Nanoseconds of one turn in a run of so many.
fn once(side: &mut Side, turns: usize) -> f64 {
    let start = Instant::now();
    assert_eq!(side(turns), 0, "refused");
    start.elapsed().as_nanos() as f64 / turns as f64
}

impl Timed {
    /// Not timed yet.
    pub fn new(mut ours: Side, mut given: Side) -> Self {
        let turns = |side: &mut Side| (LASTING / once(side, 500)) as usize + 1;
        Self {
            turns: (turns(&mut ours), turns(&mut given)),
            ours,
            given,
            least: (f64::MAX, f64::MAX),
            ratios: vec![],
        }
    }

    /// Both sides, one right after the other.
    fn again(&mut self) {
        let ours = once(&mut self.ours, self.turns.0);
        let given = once(&mut self.given, self.turns.1);
        self.least = (self.least.0.min(ours), self.least.1.min(given));
        self.ratios.push(ours / given);
    }

    /// The middle one of the ratios.
    pub fn ratio(&mut self) -> f64 {
        self.ratios.sort_by(f64::total_cmp);
        self.ratios[self.ratios.len() / 2]
    }
}

/// Times every call of a list in rounds, so that a slow moment of the machine falls on no call alone.
pub fn rounds(list: &mut [Timed]) {
    for _ in 0..ROUNDS {
        list.iter_mut().for_each(Timed::again);
    }
}

/// Slope and start of the line with the least squares.
pub fn fit(points: &[(f64, f64)]) -> (f64, f64) {
    let n = points.len() as f64;
    let (x, y) = points
        .iter()
        .fold((0.0, 0.0), |s, p| (s.0 + p.0 / n, s.1 + p.1 / n));
    let (over, under) = points.iter().fold((0.0, 0.0), |s, p| {
        (s.0 + (p.0 - x) * (p.1 - y), s.1 + (p.0 - x) * (p.0 - x))
    });
    (over / under, y - over / under * x)
}
