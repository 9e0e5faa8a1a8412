//! Whole runs for timing: their inputs are drawn here, once for both sides, and these are the Rust's. The product's
//! archive exports the same runs in C (README.md, "Timing").
//!
//! Inputs come from one generator of whole numbers below 2^31, written so that no product overflows 64 bits:
//! a state s starts at 1, `step s` is (s mod 2^31) × 1103515245 + 12345, its value is s mod 2^31, a unit is that
//! value / 2^31, and a choice among n is ((s mod 2^31) / 65536) mod n.
use crate::adwin::Adwin;
use crate::machine::{Db, Den};
use crate::points::word;
use std::hint::black_box;

const HALF: u64 = 1 << 31;

fn step(s: u64) -> u64 {
    (s % HALF) * 1103515245 + 12345
}

fn unit(s: u64) -> f64 {
    (s % HALF) as f64 / 2147483648.0
}

fn choice(s: u64, n: u64) -> u64 {
    s % HALF / 65536 % n
}

/// n units; with jumps, plus 5 in every second thousand.
pub fn window_values(jumps: bool, n: usize) -> Vec<f64> {
    let mut s = 1;
    let mut value = |i| {
        s = step(s);
        unit(s) + if jumps && i / 1000 % 2 == 1 { 5.0 } else { 0.0 }
    };
    (0..n).map(|i| value(i)).collect()
}

/// Knot k of a lattice of 4 × 4 × 4 at 3 apart.
fn knot(k: u64) -> [f64; 3] {
    [3.0 * (k % 4) as f64, 3.0 * (k / 4 % 4) as f64, 3.0 * (k / 16) as f64]
}

/// Point i of a lone session: about knot i while i is below `live`, then about one of these by choice; each coordinate
/// is off by (unit − 0.5) × 0.5, so that a knot's points lie within 1 of each other. Every part draws, in index order.
fn lone(i: u64, live: u64, s: &mut u64) -> [f64; 3] {
    *s = step(*s);
    let mut x = knot(if i < live { i } else { choice(*s, live) });
    for v in &mut x {
        *s = step(*s);
        *v += (unit(*s) - 0.5) * 0.5;
    }
    x
}

/// Point i of a session of pairs: the ends of `live` / 2 pairs, 1.2 apart along the first axis, then points in the
/// middle of a pair by choice, off by (unit − 0.5) × 0.1 in each coordinate: two neighbours each.
fn paired(i: u64, live: u64, s: &mut u64) -> [f64; 3] {
    if i < live {
        let mut x = knot(i / 2);
        x[0] += (i % 2) as f64 * 1.2;
        return x;
    }
    *s = step(*s);
    let mut x = knot(choice(*s, live / 2));
    x[0] += 0.6;
    for v in &mut x {
        *s = step(*s);
        *v += (unit(*s) - 0.5) * 0.1;
    }
    x
}

/// Point i of the worst session: 64 words of 15 signs, at a quarter each, then 0: all 64 absorb it.
fn worst(i: u64) -> [f64; 15] {
    let mut x = [0.0; 15];
    if i < 64 {
        for (j, v) in x.iter_mut().enumerate() {
            *v = if word(i) >> j & 1 == 1 { 0.25 } else { -0.25 };
        }
    }
    x
}

/// The points of a session: lone ones of so many knots, so many micro-clusters in pairs, or the worst.
#[derive(Clone, Copy)]
pub enum Kind {
    Lone(u64),
    Paired(u64),
    Worst,
}

impl Kind {
    pub fn dim(self) -> usize {
        if let Kind::Worst = self { 15 } else { 3 }
    }
}

/// A list of inserts: the values one after another, and the length of each point.
pub struct Points {
    pub values: Vec<f64>,
    pub lengths: Vec<usize>,
}

impl Points {
    pub fn draw(kind: Kind, inserts: usize) -> Self {
        let mut s = 1;
        let mut values = vec![];
        for i in 0..inserts as u64 {
            match kind {
                Kind::Lone(live) => values.extend(lone(i, live, &mut s)),
                Kind::Paired(live) => values.extend(paired(i, live, &mut s)),
                Kind::Worst => values.extend(worst(i)),
            }
        }
        Points { values, lengths: vec![kind.dim(); inserts] }
    }
}

/// What a stream is opened with: eps or r, beta or alpha, mu or min_weight.
#[derive(Clone, Copy)]
pub struct Settings {
    pub dim: usize,
    pub radius: f64,
    pub lambda: f64,
    pub share: f64,
    pub weight: f64,
}

/// What a run of a stream tells, laid out as the archive gives it.
#[repr(C)]
pub struct Figures {
    pub number: u64,
    pub micros: usize,
    pub families: usize,
    pub alarms: u64,
    pub distance: f64,
    pub window: usize,
}

impl Figures {
    /// Bit by bit.
    pub fn words(&self) -> [u64; 6] {
        let Figures { number, micros, families, alarms, distance, window } = *self;
        [number, micros as u64, families as u64, alarms, distance.to_bits(), window as u64]
    }
}

/// What a run of a window tells, laid out as the archive gives it.
#[repr(C)]
pub struct WindowFigures {
    pub alarms: u64,
    pub taken: u64,
    pub width: usize,
    pub mean: f64,
    pub variance: f64,
}

impl WindowFigures {
    /// Bit by bit.
    pub fn words(&self) -> [u64; 5] {
        [self.alarms, self.taken, self.width as u64, self.mean.to_bits(), self.variance.to_bits()]
    }
}

/// An update by each value, from a fresh window; all are finite.
pub fn window_run(delta: f64, values: &[f64]) -> WindowFigures {
    let mut w = Adwin::new(delta);
    let mut alarms = 0;
    for v in values {
        if w.update(*v) {
            alarms += 1;
        }
    }
    WindowFigures { alarms, taken: values.len() as u64, width: w.width(), mean: w.mean(), variance: w.variance() }
}

/// Opens, inserts each point, clusters, clusters so many times more and reads out. Settings and points are good ones.
macro_rules! run {
    ($name:ident, $stream:ty, $count:ident) => {
        pub fn $name(p: &Settings, points: &Points, rounds: u64, numbers: &mut [u64]) -> Figures {
            let mut s = <$stream>::new(p.dim, p.radius, p.lambda, p.share, p.weight).expect("good settings");
            let mut rest = &points.values[..];
            for (number, length) in numbers.iter_mut().zip(&points.lengths) {
                let (x, later) = rest.split_at(*length);
                *number = if s.try_insert(x).is_ok() { 0 } else { 7 };
                rest = later;
            }
            s.cluster();
            for _ in 0..rounds {
                black_box(&mut s).cluster();
            }
            let drift = s.drift();
            Figures {
                number: 0,
                micros: s.$count(),
                families: s.n_clusters(),
                alarms: drift.alarms,
                distance: drift.distance,
                window: drift.window,
            }
        }
    };
}

run!(dbstream_run, Db, micro_count);
run!(denstream_run, Den, potential_count);
