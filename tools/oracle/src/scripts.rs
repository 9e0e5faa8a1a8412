//! Scripts for the comparison, each a function of its kind and its seed. Seed 0 of `window`, `db` and `den` is
//! document 01's readings and the inputs of docs/DECISIONS.md; the others are random and adversarial.
use crate::machine::{Machine, Stream};
use crate::points::{Points, SOURCES, SPECIALS, Source};
use crate::random::Random;
use crate::record::*;
use crate::standins::Standins as _;
use crate::text::Line;

pub const KINDS: [&str; 5] = ["window", "db", "den", "mix", "bad"];

/// Inserts of a long session and values of a long window: past 2^16, the end of the clock before document 02's item 5. No run reaches the end
/// that it has now; `limits` (src/bin) tries that on made-up states.
const LONG: u64 = 100_000;

/// Whole records, then bytes that are none (of kind `bad` only).
#[derive(Clone, Default)]
pub struct Script {
    pub records: Vec<Record>,
    pub tail: Vec<u8>,
}

impl Script {
    pub fn bytes(&self) -> Vec<u8> {
        let mut b = vec![];
        for r in &self.records {
            r.write(&mut b);
        }
        b.extend(&self.tail);
        b
    }

    pub fn of_bytes(bytes: &[u8]) -> Self {
        let mut records = vec![];
        let mut reader = Reader::new(bytes);
        let mut read = 0;
        while let Next::Record(r) = reader.next() {
            read += 16 + 8 * r.operands.len();
            records.push(r);
        }
        Self { records, tail: bytes[read..].to_vec() }
    }
}

pub fn script(kind: &str, seed: u64) -> Option<Script> {
    let which = KINDS.iter().position(|k| *k == kind)? as u64;
    let mut a = Author::new(Random::new(seed.wrapping_mul(8).wrapping_add(which)));
    match (kind, seed) {
        ("window", 0) => a.window_readings(),
        ("db", 0) => a.db_readings(),
        ("den", 0) => a.den_readings(),
        ("window", _) => a.windows(100, 65_535),
        ("db", _) => a.sessions(OPEN_DB, 30, seed % 4 == 1),
        ("den", _) => a.sessions(OPEN_DEN, 30, seed % 4 == 1),
        ("mix", _) => a.mixed(),
        ("bad", _) => return Some(bad(seed, a)),
        _ => return None,
    }
    Some(Script { records: a.records, tail: vec![] })
}

/// Which stream a session opens, and what a radius, a share and a weight of it may be.
const RADII: [f64; 10] =
    [1.0, 1.0, 1.0, 0.5, 3.0, 0.1, 4.149515568880993e180, 2.4099198651028841e-181, 5e-324, f64::MAX];
const LAMBDAS: [f64; 16] = [
    1.0 / 4294967296.0,
    64.0,
    1.0 / 1024.0,
    1.0 / 1024.0,
    0.01,
    0.01,
    0.001,
    0.25,
    1.0,
    1.0 / 33.0,
    1.0 / 3.0,
    0.1,
    2.0,
    1.0 / 1048576.0,
    0.3,
    33.5,
];
const SHARES: [f64; 7] = [1.0, 0.5, 0.999, 0.3, 0.25, 5e-324, 0.1];
const WEIGHTS: [f64; 8] = [1.0, 0.5, 2.0, 3.0, 10.0, 1e-300, 1e300, 1.5];
/// beta and mu with beta × mu above 1.
const DENSE: [(f64, f64); 10] = [
    (0.5, 4.0),
    (0.5, 3.0),
    (0.5, 2.0000000000000004),
    (1.0, 1.0000000000000002),
    (0.2, 10.0),
    (1.0, 1.5),
    (0.75, 2.0),
    (1.0, 1e300),
    (1e-300, 1e305),
    (0.3, 4.0),
];

/// An opening that is accepted.
fn settings(op: u64, dim: usize, random: &mut Random) -> Vec<u64> {
    let radius = if random.chance(0.6) { 1.0 } else { random.pick(&RADII) };
    let lambda =
        if random.chance(0.8) { random.pick(&LAMBDAS) } else { random.size(-32, 6).clamp(1.0 / 4294967296.0, 64.0) };
    let (share, weight) =
        if op == OPEN_DB { (random.pick(&SHARES), random.pick(&WEIGHTS)) } else { random.pick(&DENSE) };
    vec![dim as u64, bits(radius), bits(lambda), bits(share), bits(weight)]
}

/// An opening that is refused by at least one question, wrong in one or several places.
fn refused(op: u64, random: &mut Random) -> Vec<u64> {
    let dim = 1 + random.below(15);
    let mut s = settings(op, dim, random);
    let places = if op == OPEN_DB { 5 } else { 6 };
    let not_above = [0.0, -0.0, -1.0, f64::NAN, f64::INFINITY, f64::NEG_INFINITY, -5e-324];
    for _ in 0..random.pick(&[1, 1, 1, 2, 3]) {
        match random.below(places) {
            0 => s[0] = random.pick(&[0, 16, 17, 64, u64::MAX, 1 << 32, (1 << 32) + 1, 1 << 63]),
            1 => s[1] = bits(random.pick(&not_above)),
            2 => {
                let least = 1.0f64 / 4294967296.0;
                let near = [least.next_down(), 64f64.next_up(), 65.0, 5e-324, f64::MAX];
                s[2] = bits(if random.chance(0.5) { random.pick(&near) } else { random.pick(&not_above) });
            }
            3 => {
                let near = [1f64.next_up(), 2.0, f64::MAX];
                s[3] = bits(if random.chance(0.5) { random.pick(&near) } else { random.pick(&not_above) });
            }
            4 => s[4] = bits(random.pick(&not_above)),
            _ => {
                let low =
                    [(0.5, 2.0), (1.0, 1.0), (0.5, 1.0), (1.0, 1f64.next_down()), (5e-324, f64::MAX), (0.1, 10.0)];
                let (beta, mu) = random.pick(&low);
                s[3] = bits(beta);
                s[4] = bits(mu);
            }
        }
    }
    s
}

/// What operation 13 may print in a session, besides its last answer.
const PRINTABLE: usize = 250_000;

/// Writes a script, and follows it through the oracle so that a next record can suit what is held.
struct Author {
    random: Random,
    machine: Machine,
    records: Vec<Record>,
    line: Line,
    /// The place of the session's opening.
    opened: usize,
    /// Bytes that operation 13 may still print in the session: it prints much.
    printable: usize,
}

impl Author {
    fn new(random: Random) -> Self {
        Self {
            random,
            machine: Machine::new(),
            records: vec![],
            line: Line::default(),
            opened: 0,
            printable: PRINTABLE,
        }
    }

    fn say(&mut self, op: u64, operands: &[u64]) {
        let r = Record::new(op, operands);
        if matches!(op, OPEN_DB | OPEN_DEN | INSERT | CLUSTER | OPEN_WINDOW | UPDATE) {
            self.line.clear();
            self.machine.answer(&r, &mut self.line);
        }
        self.records.push(r);
    }

    fn say_doubles(&mut self, op: u64, operands: &[f64]) {
        let words: Vec<u64> = operands.iter().map(|&v| bits(v)).collect();
        self.say(op, &words);
    }

    fn was(&self, answer: &str) -> bool {
        self.line.text() == answer
    }

    fn held(&self) -> usize {
        self.machine.stream().map_or(0, |s| s.held())
    }

    fn clock(&self) -> f64 {
        self.machine.stream().map_or(0.0, |s| s.clock())
    }

    // --- windows ---------------------------------------------------------------------------------------------------

    fn window_readings(&mut self) {
        self.say(WINDOW, &[]);
        self.say_doubles(UPDATE, &[1.0]);
        for delta in [0.002, 0.0, 1.0, 2.0, f64::NAN, -1.0, f64::INFINITY, 1e-300] {
            self.say_doubles(OPEN_WINDOW, &[delta]);
            self.say(WINDOW, &[]);
            for i in 0..160 {
                self.say_doubles(UPDATE, &[if i / 32 % 2 == 0 { 0.0 } else { 100.0 }]);
                self.say(WINDOW, &[]);
            }
            self.say_doubles(OPEN_WINDOW, &[delta]);
            for _ in 0..70 {
                self.say_doubles(UPDATE, &[2f64.powi(1019)]);
                self.say(WINDOW, &[]);
            }
        }
        self.say_doubles(OPEN_WINDOW, &[0.002]);
        for i in 0..7 {
            self.say_doubles(UPDATE, &[i as f64]);
        }
        self.say(WINDOW, &[]);
    }

    fn windows(&mut self, count: usize, most: usize) {
        let deltas = [
            0.002,
            0.002,
            0.002,
            0.0,
            1.0,
            2.0,
            f64::NAN,
            -1.0,
            f64::INFINITY,
            f64::MIN_POSITIVE,
            0.5,
            0.05,
            0.999,
            1e-9,
        ];
        for w in 0..count {
            let delta = if self.random.chance(0.9) { self.random.pick(&deltas) } else { self.random.unit() };
            self.say_doubles(OPEN_WINDOW, &[delta]);
            if w == 0 && count > 1 {
                // The first of a script is a long one.
                while self.machine.window_taken().is_some_and(|n| n < LONG) {
                    self.window(5000);
                }
                self.window(40);
            } else {
                let n = self.random.count(most);
                self.window(n);
            }
        }
    }

    fn window(&mut self, n: usize) {
        let kind = self.random.below(12);
        let strange = self.random.pick(&[0.0, 0.0, 0.02, 0.3]);
        let told = self.random.pick(&[0.001, 0.02, 0.3]);
        let every = self.random.pick(&[40, 200, 1000, 7000]);
        let scale = self.random.size(-20, 20);
        let (mut level, mut slope) = (0.0, 0.0);
        for i in 0..n {
            if i % every == 0 && i > 0 {
                level = self.random.pick(&[0.0, 5.0, 100.0, -3.0, 0.5]);
                slope = 0.01 * self.random.either_way();
            }
            let r = &mut self.random;
            let v = match kind {
                0 => r.unit(),
                1 => 1.0,
                2 | 3 => scale * (level + r.unit()),
                4 => slope * (i % every) as f64 + r.unit(),
                5 => r.size(-3, 3) * if level > 0.0 { 2f64.powi(1019) } else { -2f64.powi(1018) },
                6 => 5e-324 * r.below(100) as f64,
                7 => r.size(-1074, 1022),
                8 => (r.below(5) * r.below(5)) as f64 + level,
                // Squares at the end of the range: the order of a product shows.
                9 => r.size(509, 512) * if level > 1.0 { 1.0 } else { -0.25 },
                10 => r.size(-541, -536) * if level > 1.0 { 64.0 } else { 1.0 },
                _ => f64::from_bits(r.next()),
            };
            let v = if self.random.chance(strange) { self.random.pick(&SPECIALS) } else { v };
            self.say_doubles(UPDATE, &[v]);
            if self.random.chance(told) {
                self.say(WINDOW, &[]);
            }
        }
        self.say(WINDOW, &[]);
    }

    // --- streams ---------------------------------------------------------------------------------------------------

    /// What can be asked without changing the holdings, drawn by lot; operation 13 only while it may print.
    fn ask(&mut self, points: &mut Points) {
        match self.random.below(10) {
            0 => self.say(CLUSTER, &[]),
            1 => self.ask_labels(),
            2 => self.ask_predict(points),
            3 | 4 => {
                // The labels are there only until the next insert.
                self.say(CLUSTER, &[]);
                for _ in 0..1 + self.random.below(4) {
                    self.ask_predict(points);
                }
                self.ask_labels();
                self.say(COUNTS, &[]);
            }
            5 => self.ask_statistics(),
            6 => self.ask_connectivity(),
            7 => self.say(DRIFT, &[]),
            8 => self.say(COUNTS, &[]),
            _ => {
                let op = self.random.pick(&[OPEN_DB, OPEN_DEN]);
                self.refused_opening(op);
            }
        }
    }

    fn refused_opening(&mut self, op: u64) {
        let s = refused(op, &mut self.random);
        self.say(op, &s);
        assert!(self.line.text().starts_with("refused"));
    }

    fn ask_labels(&mut self) {
        let due = self.machine.stream().map_or(0, |s| s.labels().len()) as u64;
        let places = [64, 64, due, due.saturating_sub(1), 0, due / 2];
        let c = self.random.pick(&places);
        self.say(LABELS, &[c]);
    }

    fn ask_statistics(&mut self) {
        let (n, dim) = self.machine.stream().map_or((0, 1), |s| (s.told() as u64, s.dim() as u64));
        let mut c = [n * dim, n, n];
        match self.random.below(5) {
            0 => c = [960, 64, 64],
            1 => {}
            k => c[k - 2] = c[k - 2].saturating_sub(1),
        }
        self.say(STATISTICS, &c);
    }

    fn ask_connectivity(&mut self) {
        let pair = match self.machine.stream() {
            Some(Stream::Db(s)) if s.micro_count() > 0 => {
                let n = s.micro_count();
                let live = [s.id(self.random.below(n)), s.id(self.random.below(n))];
                let links = s.faded_links();
                match self.random.below(12) {
                    0 => [live[0], live[0]],
                    1 => [live[0], s.next_id()],
                    2 => [self.random.below(s.next_id() as usize + 1) as u64, live[1]],
                    3 => [u64::MAX, live[1]],
                    4..8 if !links.is_empty() => links[self.random.below(links.len())].0,
                    8..11 if !links.is_empty() => {
                        let [lo, hi] = links[self.random.below(links.len())].0;
                        [hi, lo]
                    }
                    _ => live,
                }
            }
            _ => [0, 1],
        };
        self.say(CONNECTIVITY, &pair);
    }

    fn ask_predict(&mut self, points: &mut Points) {
        let Some(stream) = self.machine.stream() else {
            self.say_doubles(PREDICT, &[0.0]);
            return;
        };
        let dim = stream.dim();
        let mut x = points.next(stream, &mut self.random);
        if self.random.chance(0.1) {
            x[0] = self.random.pick(&SPECIALS);
        }
        if self.random.chance(0.05) {
            x.resize(self.random.below(65), 0.5);
        } else {
            x.truncate(dim);
        }
        self.say_doubles(PREDICT, &x);
    }

    /// Operation 13, unless it has printed enough in the session.
    fn figures(&mut self) {
        let most = match self.machine.stream() {
            Some(Stream::Db(s)) => s.micro_count() * (s.dim() + 4) * 17 + s.link_count() * 40 + 3000,
            Some(Stream::Den(s)) => s.held() * (s.dim() + 4) * 17 + 3000,
            None => 10,
        };
        if most <= self.printable {
            self.printable -= most;
            self.say(FIGURES, &[]);
        }
    }

    fn insert(&mut self, points: &mut Points) {
        let stream = self.machine.stream().expect("a session has a stream");
        let x = points.next(stream, &mut self.random);
        self.say_doubles(INSERT, &x);
    }

    fn wrong_length(&mut self) {
        let n = self.random.pick(&[0, 1, 2, 14, 15, 16, 63, 64]);
        let dim = self.machine.stream().map_or(0, |s| s.dim());
        if n != dim {
            let x: Vec<f64> = (0..n).map(|_| self.random.unit()).collect();
            self.say_doubles(INSERT, &x);
        }
    }

    fn open(&mut self, op: u64, dim: usize) -> Vec<u64> {
        let s = settings(op, dim, &mut self.random);
        self.say(op, &s);
        assert!(self.was("ok"), "{:?}", Record::new(op, &s));
        self.opened = self.records.len() - 1;
        self.printable = PRINTABLE;
        s
    }

    /// Everything that a stream tells.
    fn tell_all(&mut self) {
        for (op, operands) in
            [(CLUSTER, &[][..]), (LABELS, &[64]), (STATISTICS, &[960, 64, 64]), (DRIFT, &[]), (COUNTS, &[])]
        {
            self.say(op, operands);
        }
        self.ask_connectivity();
        if let Some(stream) = self.machine.stream()
            && stream.told() > 0
        {
            let x = stream.mean(self.random.below(stream.told())).to_vec();
            self.say_doubles(PREDICT, &x);
        }
        self.say(FIGURES, &[]);
    }

    fn session(&mut self, op: u64) {
        let full = self.random.chance(0.1);
        let source = if full { Source::Words } else { self.random.pick(&SOURCES) };
        let dim = if full { 15 } else { self.random.pick(&[1, 1, 1, 2, 2, 3, 3, 4, 5, 7, 8, 11, 14, 15]) };
        let s = self.open(op, dim);
        let mut points = Points::new(source, dim, f64::from_bits(s[1]), &mut self.random);
        let mut other = {
            let source = self.random.pick(&SOURCES);
            Points::new(source, dim, f64::from_bits(s[1]), &mut self.random)
        };
        let mixed = self.random.pick(&[0.0, 0.0, 0.02, 0.5]);
        let (asked, printed) = (self.random.pick(&[0.0, 0.02, 0.2]), self.random.pick(&[0.0, 0.01, 0.1, 1.0]));
        let n = if full { 100 + self.random.below(60) } else { self.random.count(2500) };
        for _ in 0..n {
            if self.random.chance(0.01) {
                self.wrong_length();
            }
            if self.random.chance(mixed) {
                self.insert(&mut other);
            } else {
                self.insert(&mut points);
            }
            if self.random.chance(asked) {
                self.ask(&mut points);
            }
            if self.random.chance(printed) {
                self.figures();
            }
        }
        self.tell_all();
    }

    /// The session's inserts again, with a threshold that some weight, sum or link meets exactly.
    fn at_the_threshold(&mut self) {
        let opening = self.records[self.opened].clone();
        let inserts: Vec<Record> = self.records[self.opened..].iter().filter(|r| r.op == INSERT).cloned().collect();
        let r = &mut self.random;
        let (share, weight) = match self.machine.stream() {
            Some(Stream::Db(s)) if s.micro_count() > 0 => {
                let links = s.faded_links();
                if links.is_empty() || r.chance(0.3) {
                    (f64::from_bits(opening.operands[3]), r.pick(&s.micro_stats().1))
                } else {
                    (1.0, r.pick(&links).1)
                }
            }
            Some(Stream::Den(s)) if s.held() > 0 => {
                let faded = s.potential_stats().1;
                if faded.is_empty() || r.chance(0.5) {
                    (1.0, s.weight(r.below(s.held())))
                } else {
                    let mu = if r.chance(0.5) { r.pick(&faded) } else { faded.iter().sum() };
                    (s.beta_mu() / mu, mu)
                }
            }
            _ => return,
        };
        let mut settings = opening.operands;
        (settings[3], settings[4]) = (bits(share), bits(weight));
        self.say(opening.op, &settings);
        if inserts.len() > 400 || !self.was("ok") {
            return;
        }
        for r in inserts {
            self.say(INSERT, &r.operands);
        }
        self.tell_all();
    }

    /// A long one, with a full stream or a nearly empty one.
    fn long_session(&mut self, op: u64) {
        let source = self.random.pick(&[
            Source::Far,
            Source::Far,
            Source::Lattice { knots: 64 },
            Source::Drifting { centres: 4 },
            Source::NearHeld,
            Source::Equal,
        ]);
        let dim = self.random.pick(&[1, 2, 3]);
        let mut s = self.open(op, dim);
        if source == Source::Far {
            // Slow enough to stay full.
            s[1] = bits(1.0);
            s[2] = bits(1.0 / 4294967296.0);
            self.say(op, &s);
        }
        let mut points = Points::new(source, dim, f64::from_bits(s[1]), &mut self.random);
        let mut left = 250_000;
        while self.clock() < LONG as f64 && left > 0 {
            left -= 1;
            self.insert(&mut points);
            if self.random.chance(0.002) {
                self.ask(&mut points);
            }
            // A full stream takes none of these: come back to one that is held.
            if self.was("refused 9") && self.random.chance(0.9) {
                let stream = self.machine.stream().expect("a session has a stream");
                let x = stream.mean(self.random.below(self.held())).to_vec();
                self.say_doubles(INSERT, &x);
            }
        }
        for _ in 0..20 {
            self.insert(&mut points);
            self.say_doubles(INSERT, &vec![1e9; dim]);
            self.wrong_length();
            self.ask(&mut points);
        }
        self.tell_all();
    }

    fn sessions(&mut self, op: u64, count: usize, long: bool) {
        if self.random.chance(0.3) {
            // Before the first accepted opening.
            for (op, n) in [
                (INSERT, 1),
                (CLUSTER, 0),
                (LABELS, 1),
                (PREDICT, 2),
                (STATISTICS, 3),
                (CONNECTIVITY, 2),
                (DRIFT, 0),
                (FIGURES, 0),
                (COUNTS, 0),
            ] {
                self.say(op, &vec![0; n]);
            }
        }
        for _ in 0..count {
            for _ in 0..self.random.below(4) {
                self.refused_opening(op);
            }
            self.session(op);
            if self.random.chance(0.6) {
                self.at_the_threshold();
            }
        }
        if long {
            self.long_session(op);
        }
    }

    /// Both streams and a window in turns.
    fn mixed(&mut self) {
        for _ in 0..20 {
            let op = self.random.pick(&[OPEN_DB, OPEN_DEN]);
            self.session(op);
            if self.random.chance(0.5) {
                self.windows(1, 200);
            }
            self.tell_all();
            self.window(3);
        }
    }

    fn db_readings(&mut self) {
        let at = |x: f64| [x];
        // The input of `families`, with three alphas; then with two points only.
        for (alpha, points) in
            [(0.5, &[0.0, 1.5, 0.75][..]), (1.0, &[0.0, 1.5, 0.75]), (0.999, &[0.0, 1.5, 0.75]), (0.5, &[0.0, 1.5])]
        {
            self.say(OPEN_DB, &[1, bits(1.0), bits(1.0 / 1024.0), bits(alpha), bits(1.0)]);
            for &p in points {
                self.say_doubles(INSERT, &at(p));
                self.say(FIGURES, &[]);
            }
            self.tell_all();
        }
        // r 1, lambda 1, points 0 and 1: one micro-cluster.
        self.say(OPEN_DB, &[1, bits(1.0), bits(1.0), bits(0.5), bits(1.0)]);
        for p in [0.0, 1.0] {
            self.say_doubles(INSERT, &at(p));
            self.say(FIGURES, &[]);
        }
        self.say(OPEN_DB, &[16, bits(1.0), bits(1.0), bits(0.5), bits(1.0)]);
        self.say(OPEN_DB, &[15, bits(1.0), bits(1.0), bits(0.5), bits(1.0)]);
        self.say(COUNTS, &[]);
        // A full stream on a tick that would prune: 9.
        self.say(OPEN_DB, &[1, bits(1.0), bits(1.0 / 33.0), bits(0.5), bits(1.0)]);
        for i in 0..64 {
            self.say_doubles(INSERT, &at(10.0 * i as f64));
        }
        for p in [0.0, -5.0, 10.0, -5.0] {
            self.say_doubles(INSERT, &at(p));
            self.say(FIGURES, &[]);
        }
        self.tell_all();
        // A link faded to exactly alpha × min_weight, and a weight to exactly the floor.
        self.say(OPEN_DB, &[1, bits(1.0), bits(0.5), bits(1.0), bits(0.5)]);
        for p in [0.0, 1.5, 0.75, 10.0] {
            self.say_doubles(INSERT, &at(p));
            self.tell_all();
        }
        // A pair that shares points; one of it rests, then both, with the faster fading until the cleanup takes the link.
        for lambda in [0.25, 1.0 / 1024.0] {
            self.say(OPEN_DB, &[1, bits(1.0), bits(lambda), bits(0.5), bits(1.0)]);
            for p in [0.0, 1.5, 0.75, 0.0, 0.0, 0.75, 2.0, 10.0, 10.0, 10.0, 10.0, 10.0] {
                self.say_doubles(INSERT, &at(p));
                for pair in [[0, 1], [1, 0], [0, 2], [0, 0]] {
                    self.say(CONNECTIVITY, &pair);
                }
                self.say(FIGURES, &[]);
            }
        }
        // 64 at the corners of a cube, linked along a binomial tree whose lowest place lies deep: its find makes 3 steps,
        // the most there are. With the larger min_weight the tree's leaves are weak.
        let code = |p: u64| if p == 63 { 0 } else { (3 << (p + 1).ilog2()) - 2 - p };
        let corner = |p: u64| [0, 1, 2, 3, 4, 5].map(|b| if code(p) >> b & 1 == 1 { 1.6 } else { 0.0 });
        let mut edges = vec![(0, 63)];
        for k in 1..6 {
            let end = (2 << k) - 1;
            for b in 0..k {
                edges.extend((end - (2 << b)..end - (1 << b)).map(|i| (i, i + (1 << b))));
            }
            edges.push((end - 1, 63));
        }
        for min_weight in [1.0, 2.0] {
            self.say(OPEN_DB, &[6, bits(1.0), bits(1.0 / 1024.0), bits(0.25), bits(min_weight)]);
            for i in 0..64 {
                self.say_doubles(INSERT, &corner(i));
            }
            for &(i, j) in &edges {
                let (a, b) = (corner(i), corner(j));
                self.say_doubles(INSERT, &[0, 1, 2, 3, 4, 5].map(|c| (a[c] + b[c]) / 2.0));
            }
            self.say(CLUSTER, &[]);
            self.say(LABELS, &[64]);
        }
        // Births: −0 is stored as +0, and squares that overflow leave no ssd; a NaN first makes every nearest NaN.
        for v in SPECIALS {
            self.say(OPEN_DB, &[2, bits(1.0), bits(0.01), bits(0.5), bits(1.0)]);
            for x in [[v, 0.0], [-0.0, v], [v, v], [0.5, 0.5], [v, 0.25]] {
                self.say_doubles(INSERT, &x);
                self.say(FIGURES, &[]);
                self.say(CLUSTER, &[]);
                self.say_doubles(PREDICT, &x);
                self.say_doubles(PREDICT, &[0.25, 0.25]);
            }
            self.tell_all();
        }
        // Each refusal of an opening, and the first no of two.
        for _ in 0..400 {
            self.refused_opening(OPEN_DB);
        }
    }

    fn den_readings(&mut self) {
        let at = |x: f64| [x];
        self.say(OPEN_DEN, &[1, bits(1.0), bits(0.25), bits(0.5), bits(2.0)]);
        self.say(OPEN_DEN, &[1, bits(1.0), bits(0.25), bits(0.5), bits(4.0)]);
        for p in [0.0, 0.0, 0.0, 0.0, 5.0, 5.0, 9.0, 0.5, 1.5, 1.0] {
            self.say_doubles(INSERT, &at(p));
            self.tell_all();
        }
        for v in SPECIALS {
            for eps in [1.0, 4.149515568880993e180, 1e-170] {
                self.say(OPEN_DEN, &[2, bits(eps), bits(0.01), bits(0.5), bits(3.0)]);
                for x in [[0.0, 0.0], [v, 0.0], [-0.0, v], [v, v], [0.5, 0.5], [v, 0.25], [0.5, 0.5], [v, v]] {
                    self.say_doubles(INSERT, &x);
                    self.say(FIGURES, &[]);
                    self.say(CLUSTER, &[]);
                    self.say_doubles(PREDICT, &x);
                    self.say_doubles(PREDICT, &[0.25, 0.25]);
                }
                self.tell_all();
            }
        }
        // Promoted with a weight of exactly beta × mu; pruned, or not, with a faded weight of exactly that.
        self.say(OPEN_DEN, &[1, bits(1.0), bits(0.5), bits(0.5), bits(3.0)]);
        for p in [0.0, 10.0, 0.0, 20.0] {
            self.say_doubles(INSERT, &at(p));
            self.say(FIGURES, &[]);
        }
        for (lambda, bm) in pruned_at_the_threshold().into_iter().take(5) {
            self.say(OPEN_DEN, &[1, bits(1.0), bits(lambda), bits(1.0), bits(bm)]);
            for _ in 0..30 {
                self.say_doubles(INSERT, &at(0.0));
                self.say(FIGURES, &[]);
            }
        }
        // 64 in both pools together, then the 65th.
        self.say(OPEN_DEN, &[1, bits(1.0), bits(1.0 / 1048576.0), bits(0.5), bits(3.0)]);
        for i in 0..64 {
            self.say_doubles(INSERT, &at(10.0 * i as f64));
        }
        for p in [-5.0, 0.0, 10.0, 10.0, -5.0, 0.25, 700.0, 630.0] {
            self.say_doubles(INSERT, &at(p));
            self.say(FIGURES, &[]);
        }
        self.tell_all();
        for _ in 0..400 {
            self.refused_opening(OPEN_DEN);
        }
    }
}

/// Pairs of lambda and beta × mu such that equal points have faded to exactly beta × mu when the first pruning is due.
fn pruned_at_the_threshold() -> Vec<(f64, f64)> {
    let mut found = vec![];
    for k in 1..5000 {
        let lambda = 0.02 + 1e-4 * k as f64;
        let fade = (-lambda).exp2_standin();
        let mut w = 1.0;
        for n in 1..30 {
            let bm: f64 = w * fade;
            if bm > 1.0 && ((1.0 / lambda) * (bm / (bm - 1.0)).log2_standin()).ceil().max(1.0) == n as f64 {
                found.push((lambda, bm));
            }
            w = bm + 1.0;
        }
    }
    found
}

// --- malformed records ---------------------------------------------------------------------------------------------

/// A record's bytes with a count that need not be true.
fn record_bytes(op: u64, count: u64, operands: usize) -> Vec<u8> {
    let mut b = vec![];
    b.extend(op.to_le_bytes());
    b.extend(count.to_le_bytes());
    for i in 0..operands {
        b.extend(bits(1.0 + i as f64).to_le_bytes());
    }
    b
}

/// Every malformed record that is tried.
pub fn malformed() -> Vec<Vec<u8>> {
    let mut cases = vec![vec![]];
    for op in 1..=14 {
        for n in 0..=6u64 {
            if !takes(op, n) {
                cases.push(record_bytes(op, n, n as usize));
            }
        }
        for n in [65, 66, 1 << 32, 1 << 63, u64::MAX] {
            cases.push(record_bytes(op, n, 65));
            cases.push(record_bytes(op, n, 0));
        }
    }
    for op in [0, 15, 16, 1 << 32, (1 << 32) + 4, u64::MAX] {
        for n in [0, 1, 5, 65] {
            cases.push(record_bytes(op, n, n as usize));
        }
    }
    for whole in [
        record_bytes(OPEN_DB, 5, 5),
        record_bytes(INSERT, 3, 3),
        record_bytes(CLUSTER, 0, 0),
        record_bytes(INSERT, 64, 64),
    ] {
        for n in (1..whole.len()).step_by(if whole.len() > 100 { 37 } else { 1 }) {
            cases.push(whole[..n].to_vec());
        }
    }
    cases
}

/// Some good records, a malformed one, and good ones again, that must not be answered (unless it was cut short).
fn bad(seed: u64, mut a: Author) -> Script {
    let cases = malformed();
    let mut tail = cases[seed as usize % cases.len()].clone();
    if seed % 3 != 0 {
        let op = a.random.pick(&[OPEN_DB, OPEN_DEN]);
        let s = a.open(op, 2);
        let mut points = Points::new(Source::Box, 2, f64::from_bits(s[1]), &mut a.random);
        for _ in 0..a.random.count(30) {
            a.insert(&mut points);
            a.ask(&mut points);
        }
    }
    // After a record that was cut short these would complete it.
    let whole = tail.len() >= 16 && {
        let count = u64::from_le_bytes(tail[8..16].try_into().expect("8 bytes"));
        count > MOST || tail.len() as u64 >= 16 + 8 * count
    };
    if whole {
        tail.extend(record_bytes(CLUSTER, 0, 0));
        tail.extend(record_bytes(WINDOW, 0, 0));
    }
    Script { records: a.records, tail }
}
