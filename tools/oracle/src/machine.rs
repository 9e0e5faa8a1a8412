//! Answers records as docs/REPLAY.md says: document 01's questions in front of the Rust's calls.
//!
//! Where the Rust has no limit (places, clock, lambda, dim, values of a window) or answers otherwise (a full stream on a
//! tick that would prune), the questions here are document 01's and the Rust is not asked.
use crate::adwin::Adwin;
use crate::feature::Spherical;
use crate::record::*;
use crate::stream::{DbStream, DenStream, DriftReport};
use crate::text::Line;

pub type Db = DbStream<f64, Spherical<f64>>;
pub type Den = DenStream<f64, Spherical<f64>>;

/// The limits of documents 01 and 02.
pub const PLACES: usize = 64;
pub const CLOCK: f64 = 1099511627775.0;
pub const VALUES: u64 = 1099511627775;
pub const LAMBDA_LEAST: f64 = 1.0 / 4294967296.0;
pub const LAMBDA_MOST: f64 = 64.0;

pub enum Stream {
    Db(Db),
    Den(Den),
}

/// The same call on either stream.
macro_rules! either {
    ($s:expr, $v:ident => $e:expr) => {
        match $s {
            Stream::Db($v) => $e,
            Stream::Den($v) => $e,
        }
    };
}

impl Stream {
    pub fn dim(&self) -> usize {
        either!(self, s => s.dim())
    }
    pub fn clock(&self) -> f64 {
        either!(self, s => s.clock())
    }
    /// Micro-clusters held (DenStream: both pools together).
    pub fn held(&self) -> usize {
        match self {
            Stream::Db(s) => s.micro_count(),
            Stream::Den(s) => s.held(),
        }
    }
    /// Micro-clusters that labels and statistics speak of (DenStream: potential ones).
    pub fn told(&self) -> usize {
        match self {
            Stream::Db(s) => s.micro_count(),
            Stream::Den(s) => s.potential_count(),
        }
    }
    pub fn mean(&self, place: usize) -> &[f64] {
        either!(self, s => s.mean(place))
    }
    pub fn labels(&self) -> &[i64] {
        either!(self, s => s.labels())
    }
    fn absorbs(&self, x: &[f64]) -> bool {
        either!(self, s => s.absorbs(x))
    }
    fn since_check(&self) -> u64 {
        either!(self, s => s.since_check())
    }
    fn insert(&mut self, x: &[f64]) {
        either!(self, s => s.try_insert(x).expect("the length was asked"))
    }
}

/// A stream and how many finite values its drift window has taken, which the Rust does not keep.
struct Current {
    stream: Stream,
    taken: u64,
}

/// A window of its own and how many finite values it has taken.
struct Window {
    adwin: Adwin,
    taken: u64,
}

/// The first no of an opening's questions, but for DenStream's last.
fn refused_opening(dim: u64, radius: f64, lambda: f64, share: f64, weight: f64) -> Option<u64> {
    let above_nought = |v: f64| v.is_finite() && v > 0.0;
    if !(1..=15).contains(&dim) {
        Some(1)
    } else if !above_nought(radius) {
        Some(2)
    } else if !(lambda >= LAMBDA_LEAST && lambda <= LAMBDA_MOST) {
        Some(3)
    } else if !(share > 0.0 && share <= 1.0) {
        Some(4)
    } else if !above_nought(weight) {
        Some(5)
    } else {
        None
    }
}

#[derive(Default)]
pub struct Machine {
    current: Option<Current>,
    window: Option<Window>,
    /// For the comparison's self-check: with three micro-clusters held, an insert's first coordinate moves by one ulp.
    pub spoiled: bool,
}

impl Machine {
    pub fn new() -> Self {
        Self::default()
    }

    pub fn stream(&self) -> Option<&Stream> {
        self.current.as_ref().map(|c| &c.stream)
    }

    /// Values taken by the window of its own.
    pub fn window_taken(&self) -> Option<u64> {
        self.window.as_ref().map(|w| w.taken)
    }

    /// The window of its own.
    pub fn window(&self) -> Option<&Adwin> {
        self.window.as_ref().map(|w| &w.adwin)
    }

    /// A made-up window of its own.
    pub fn set_window(&mut self, adwin: Adwin, taken: u64) {
        self.window = Some(Window { adwin, taken });
    }

    /// A made-up state of the current stream: another clock and, of a DBSTREAM, another next creation number.
    pub fn set_clock(&mut self, t: f64, next_id: u64) {
        match self.current.as_mut().map(|c| &mut c.stream) {
            Some(Stream::Db(s)) => s.set_clock(t, next_id),
            Some(Stream::Den(s)) => s.set_clock(t),
            None => {}
        }
    }

    /// The answer to a record whose operation takes its number of operands.
    pub fn answer(&mut self, r: &Record, line: &mut Line) {
        match r.op {
            OPEN_DB | OPEN_DEN => self.open(r, line),
            OPEN_WINDOW => {
                self.window = Some(Window { adwin: Adwin::new(f64::from_bits(r.operands[0])), taken: 0 });
                line.word("ok");
            }
            UPDATE | WINDOW => match &mut self.window {
                None => drop(line.word("none")),
                Some(w) if r.op == UPDATE => w.update(f64::from_bits(r.operands[0]), line),
                Some(w) => w.tell(line),
            },
            _ => match &mut self.current {
                None => drop(line.word("none")),
                Some(c) => c.answer(r, self.spoiled, line),
            },
        }
    }

    fn open(&mut self, r: &Record, line: &mut Line) {
        let dim = r.operands[0];
        let d: Vec<f64> = r.doubles();
        let (radius, lambda, share, weight) = (d[1], d[2], d[3], d[4]);
        if let Some(n) = refused_opening(dim, radius, lambda, share, weight) {
            line.word("refused").number(n);
            return;
        }
        let dim = dim as usize;
        let stream = if r.op == OPEN_DB {
            Stream::Db(Db::new(dim, radius, lambda, share, weight).expect("every question was asked"))
        } else {
            match Den::new(dim, radius, lambda, share, weight) {
                Ok(s) => Stream::Den(s),
                Err(e) => {
                    assert_eq!(e, "beta * mu must be > 1");
                    line.word("refused").number(6);
                    return;
                }
            }
        };
        self.current = Some(Current { stream, taken: 0 });
        line.word("ok");
    }
}

impl Window {
    fn update(&mut self, value: f64, line: &mut Line) {
        if value.is_finite() {
            if self.taken >= VALUES {
                line.word("refused").number(8);
                return;
            }
            self.taken += 1;
        }
        line.word(if self.adwin.update(value) { "alarm" } else { "quiet" });
    }

    fn tell(&self, line: &mut Line) {
        line.word("window").number(self.adwin.width() as u64);
        line.double(self.adwin.mean()).double(self.adwin.variance());
    }
}

impl Current {
    fn answer(&mut self, r: &Record, spoiled: bool, line: &mut Line) {
        match r.op {
            INSERT => self.insert(r.doubles(), spoiled, line),
            CLUSTER => {
                let (finds, steps) = either!(&self.stream, s => s.work());
                either!(&mut self.stream, s => s.cluster());
                line.word("ok").number(finds).number(steps);
            }
            LABELS => labels(self.stream.labels(), r.operands[0], line),
            PREDICT => match either!(&self.stream, s => s.try_predict(&r.doubles())) {
                Ok(l) => drop(line.word("label").label(l)),
                Err(e) => drop(line.word("refused").number(7).number(e.expected as u64).number(e.got as u64)),
            },
            STATISTICS => {
                let stats = match &self.stream {
                    Stream::Db(s) => s.micro_stats(),
                    Stream::Den(s) => s.potential_stats(),
                };
                statistics(stats, &r.operands, line);
            }
            CONNECTIVITY => match &self.stream {
                Stream::Den(_) => drop(line.word("none")),
                Stream::Db(s) => match s.connectivity(r.operands[0], r.operands[1]) {
                    Some(v) => drop(line.word("connectivity").double(v)),
                    None => drop(line.word("refused").number(12)),
                },
            },
            DRIFT => drift(either!(&self.stream, s => s.drift()), line),
            FIGURES => either!(&self.stream, s => s.figures(self.taken, line)),
            COUNTS => {
                let families = either!(&self.stream, s => s.n_clusters());
                line.word("counts").number(self.stream.dim() as u64);
                line.number(self.stream.told() as u64).number(families as u64);
            }
            op => unreachable!("operation {op} is none of a stream's"),
        }
    }

    fn insert(&mut self, mut x: Vec<f64>, spoiled: bool, line: &mut Line) {
        let s = &mut self.stream;
        if x.len() != s.dim() {
            line.word("refused").number(7).number(s.dim() as u64).number(x.len() as u64);
            return;
        }
        if !(s.clock() < CLOCK) {
            line.word("refused").number(8);
            return;
        }
        if s.held() >= PLACES && !s.absorbs(&x) {
            line.word("refused").number(9);
            return;
        }
        if spoiled && s.held() >= 3 {
            x[0] = x[0].next_up();
        }
        let before = s.since_check();
        s.insert(&x);
        if s.since_check() != before {
            self.taken += 1;
        }
        line.word("ok");
    }
}

fn labels(labels: &[i64], capacity: u64, line: &mut Line) {
    if (labels.len() as u64) > capacity {
        line.word("refused").number(10);
        return;
    }
    line.word("labels").number(labels.len() as u64);
    for &l in labels {
        line.label(l);
    }
}

fn statistics(stats: (Vec<f64>, Vec<f64>, Vec<f64>, usize), capacities: &[u64], line: &mut Line) {
    let (centres, weights, radii, dim) = stats;
    let parts = [centres, weights, radii];
    if parts.iter().zip(capacities).any(|(p, &c)| p.len() as u64 > c) {
        line.word("refused").number(10);
        return;
    }
    line.word("stats").number(parts[1].len() as u64).number(dim as u64);
    for v in parts.into_iter().flatten() {
        line.double(v);
    }
}

fn drift(d: DriftReport, line: &mut Line) {
    line.word("drift").number(d.alarms);
    match d.last_alarm {
        None => line.word("-"),
        Some(t) => line.double(t),
    };
    line.double(d.distance).number(d.window as u64);
}
