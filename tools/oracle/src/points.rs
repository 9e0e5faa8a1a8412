//! Where a session's points come from.
use crate::machine::Stream;
use crate::random::Random;

/// Doubles that go wrong elsewhere first.
pub const SPECIALS: [f64; 22] = [
    f64::NAN,
    f64::INFINITY,
    f64::NEG_INFINITY,
    0.0,
    -0.0,
    5e-324,
    -5e-324,
    2.2250738585072009e-308,
    f64::MIN_POSITIVE,
    f64::MAX,
    f64::MIN,
    1.3e154,
    -1.4e154,
    1e155,
    1e-170,
    1e300,
    -1e300,
    1.0,
    -1.0,
    9007199254740993.0,
    0.1,
    1e16,
];

/// 64 words of 15 signs, each two of which differ in at least 5 places (the BCH code of length 15): the points with
/// coordinates a quarter of the radius times these signs lie more than the radius apart, and all within it of 0.
pub fn word(n: u64) -> u64 {
    (0..6).filter(|i| n >> i & 1 == 1).fold(0, |w, i| w ^ (0x1D1 << i))
}

#[derive(Clone, Copy, Debug, PartialEq)]
pub enum Source {
    /// Around the knots of a lattice, so that each point has one neighbour.
    Lattice { knots: usize },
    /// Around centres that move, and now and then jump.
    Drifting { centres: usize },
    /// Whole multiples of half the radius: distances of exactly the radius.
    Grid,
    /// One point again and again.
    Equal,
    /// At and about the radius from a micro-cluster that is held.
    NearHeld,
    /// Coordinates of `SPECIALS` among others.
    Special,
    /// One after the other out of reach, until the stream is full; then some of these and some within reach.
    Far,
    /// `word`, then points near 0: 64 micro-clusters that all absorb, and 2,016 links (dim 15).
    Words,
    /// A small box: micro-clusters that overlap.
    Box,
    /// Every size of double.
    Sizes,
    /// Any bits.
    Bits,
}

pub const SOURCES: [Source; 11] = [
    Source::Lattice { knots: 10 },
    Source::Lattice { knots: 64 },
    Source::Drifting { centres: 3 },
    Source::Grid,
    Source::Equal,
    Source::NearHeld,
    Source::Special,
    Source::Far,
    Source::Box,
    Source::Sizes,
    Source::Bits,
];

pub struct Points {
    source: Source,
    dim: usize,
    /// The radius, or 1 where its square is no ordinary number.
    unit: f64,
    made: u64,
    centres: Vec<Vec<f64>>,
}

impl Points {
    pub fn new(source: Source, dim: usize, radius: f64, random: &mut Random) -> Self {
        let ordinary = (radius * radius).is_normal() && radius < 1e100;
        let unit = if ordinary { radius } else { 1.0 };
        let centres = match source {
            Source::Drifting { centres } => {
                (0..centres).map(|_| (0..dim).map(|_| 6.0 * unit * random.either_way()).collect()).collect()
            }
            _ => vec![],
        };
        Self { source, dim, unit, made: 0, centres }
    }

    fn near(&self, centre: &[f64], by: f64, random: &mut Random) -> Vec<f64> {
        centre.iter().map(|c| c + by * self.unit * random.either_way()).collect()
    }

    fn knot(&self, n: usize) -> Vec<f64> {
        let pitch = 3.0 * self.unit;
        let mut rest = n;
        (0..self.dim)
            .map(|i| {
                let digit = if i + 1 == self.dim { rest } else { rest % 4 };
                rest /= 4;
                digit as f64 * pitch
            })
            .collect()
    }

    /// A point beside a held mean: by nothing, the radius, a little more or less, half of it or twice.
    fn beside(&self, stream: &Stream, random: &mut Random) -> Vec<f64> {
        if stream.held() == 0 {
            return vec![0.0; self.dim];
        }
        let mut x = stream.mean(random.below(stream.held())).to_vec();
        let u = self.unit;
        let by = random.pick(&[0.0, u, u.next_up(), u.next_down(), 0.5 * u, 2.0 * u, 1.5 * u, 1e-9 * u]);
        let axis = random.below(self.dim);
        x[axis] += if random.chance(0.5) { by } else { -by };
        x
    }

    pub fn next(&mut self, stream: &Stream, random: &mut Random) -> Vec<f64> {
        let n = self.made;
        self.made += 1;
        let u = self.unit;
        match self.source {
            Source::Lattice { knots } => {
                let k = if (n as usize) < knots { n as usize } else { random.below(knots) };
                self.near(&self.knot(k), 0.25, random)
            }
            Source::Drifting { centres } => {
                let c = random.below(centres);
                for v in &mut self.centres[c] {
                    *v += 0.02 * u * random.either_way();
                }
                if random.chance(0.002) {
                    let axis = random.below(self.dim);
                    self.centres[c][axis] += 40.0 * u * random.either_way();
                }
                self.near(&self.centres[c], 0.8 / (self.dim as f64).sqrt(), random)
            }
            Source::Grid => (0..self.dim).map(|_| (random.below(9) as f64 - 4.0) * (0.5 * u)).collect(),
            Source::Equal => {
                let level = if random.chance(0.05) { 2.0 * u } else { 0.3 * u };
                vec![level; self.dim]
            }
            Source::NearHeld => self.beside(stream, random),
            Source::Special => (0..self.dim)
                .map(|_| if random.chance(0.3) { random.pick(&SPECIALS) } else { u * random.either_way() })
                .collect(),
            Source::Far => {
                if stream.held() > 0 && (random.chance(0.1) || (stream.held() == 64 && random.chance(0.8))) {
                    return self.beside(stream, random);
                }
                let mut x = vec![0.0; self.dim];
                x[0] = n as f64 * 10.0 * u;
                x
            }
            Source::Words => {
                let signs = word(n % 64);
                if n < 64 {
                    (0..self.dim).map(|i| if signs >> i & 1 == 1 { 0.25 * u } else { -0.25 * u }).collect()
                } else {
                    self.near(&vec![0.0; self.dim], if random.chance(0.5) { 0.0 } else { 0.1 }, random)
                }
            }
            Source::Box => (0..self.dim).map(|_| 3.0 * u * random.unit()).collect(),
            Source::Sizes => (0..self.dim)
                .map(|_| {
                    let v = random.size(-1074, 1022);
                    if random.chance(0.5) { v } else { -v }
                })
                .collect(),
            Source::Bits => (0..self.dim).map(|_| f64::from_bits(random.next())).collect(),
        }
    }
}
