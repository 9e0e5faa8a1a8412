//! Every kept figure of the streams, and document 01's questions that need one; a child module of stream.rs, so that it
//! may read the private fields and call the private functions.
use super::{DbStream, DenStream, DriftMonitor, Micro, fade, pair};
use crate::counting::UnionFind;
use crate::feature::{ClusterFeature, Spherical};
use crate::kernels::sq_euclidean;
use crate::text::Line;

type Feature = Spherical<f64>;

fn labels(labels: &[i64], line: &mut Line) {
    line.number(labels.len() as u64);
    for &l in labels {
        line.label(l);
    }
}

/// Document 02, item 8: the finds and the halving steps where these pairs of n places are joined in this order, and then
/// the roots of the places that are sought are found.
fn work(n: usize, pairs: Vec<(usize, usize)>, sought: Vec<usize>) -> (u64, u64) {
    let mut uf = UnionFind::new(n);
    for (i, j) in pairs {
        uf.union(i, j);
    }
    for i in sought {
        uf.find(i);
    }
    (uf.finds, uf.steps)
}

fn feature(cf: &Feature, line: &mut Line) {
    line.double(cf.weight()).double(cf.ssd());
    for &m in cf.mean() {
        line.double(m);
    }
}

impl DriftMonitor {
    /// `ALARMS LAST`, then the window.
    fn figures(&self, taken: u64, line: &mut Line) {
        line.number(self.alarms);
        match self.last_alarm {
            None => line.word("-"),
            Some(t) => line.whole(t),
        };
        self.adwin.figures(taken, line);
    }
}

impl DbStream<f64, Feature> {
    /// Operation 13; `taken` is the number of finite values that the window has taken, which the Rust does not keep.
    pub fn figures(&self, taken: u64, line: &mut Line) {
        line.word("db").whole(self.t).number(self.next_id);
        line.number(self.micros.len() as u64);
        for m in &self.micros {
            line.number(m.id).whole(m.last_t);
            feature(&m.cf, line);
        }
        let mut keys: Vec<(u64, u64)> = self.shared.keys().copied().collect();
        keys.sort_unstable();
        line.number(keys.len() as u64);
        for k in keys {
            let s = &self.shared[&k];
            line.number(k.0).number(k.1).double(s.value).whole(s.last_t);
        }
        labels(&self.labels, line);
        self.drift.figures(taken, line);
    }

    pub fn clock(&self) -> f64 {
        self.t
    }

    pub fn since_check(&self) -> u64 {
        self.drift.adwin.since_check()
    }

    pub fn mean(&self, place: usize) -> &[f64] {
        self.micros[place].cf.mean()
    }

    pub fn id(&self, place: usize) -> u64 {
        self.micros[place].id
    }

    pub fn next_id(&self) -> u64 {
        self.next_id
    }

    pub fn link_count(&self) -> usize {
        self.shared.len()
    }

    /// The links' ends and values as faded to the clock, in ascending order of their ends.
    pub fn faded_links(&self) -> Vec<([u64; 2], f64)> {
        let mut links: Vec<_> = self.shared.iter().collect();
        links.sort_unstable_by_key(|(k, _)| **k);
        links.iter().map(|(k, s)| ([k.0, k.1], s.value * fade(self.lambda, self.t, s.last_t))).collect()
    }

    /// The finds and halving steps of a cluster "in ascending pair order", which the Rust's map of links does not keep.
    pub fn work(&self) -> (u64, u64) {
        let strong = |i: &usize| self.faded_weight(&self.micros[*i]) >= self.min_weight;
        let place = |id: u64| self.micros.iter().position(|m| m.id == id);
        let mut pairs: Vec<(usize, usize)> = vec![];
        for ([a, b], value) in self.faded_links() {
            if let (Some(i), Some(j)) = (place(a), place(b)) {
                if strong(&i) && strong(&j) && value >= self.alpha * self.min_weight {
                    pairs.push((i.min(j), i.max(j)));
                }
            }
        }
        pairs.sort_unstable();
        let n = self.micros.len();
        work(n, pairs, (0..n).filter(strong).collect())
    }

    /// A made-up state: another clock and another next creation number.
    pub fn set_clock(&mut self, t: f64, next_id: u64) {
        (self.t, self.next_id) = (t, next_id);
    }

    /// Each micro-cluster's creation number, latest tick and weight.
    pub fn weights(&self, line: &mut Line) {
        for m in &self.micros {
            line.number(m.id).whole(m.last_t).double(m.cf.weight());
        }
    }

    /// Question 9's first half: has the point a neighbour?
    pub fn absorbs(&self, x: &[f64]) -> bool {
        self.micros.iter().any(|m| sq_euclidean(m.cf.mean(), x) <= self.radius2)
    }

    /// Document 02's connectivity, "both weights are faded to the present as the link is. A pair whose mean faded weight
    /// is 0 reads 0."; 0 without a link; none unless both numbers are live and different.
    pub fn connectivity(&self, a: u64, b: u64) -> Option<f64> {
        let weight = |id: u64| {
            let m = self.micros.iter().find(|m| m.id == id)?;
            Some(m.cf.weight() * fade(self.lambda, self.t, m.last_t))
        };
        let (wa, wb) = (weight(a)?, weight(b)?);
        if a == b {
            return None;
        }
        let mean = (wa + wb) / 2.0;
        Some(match self.shared.get(&pair(a, b)) {
            Some(s) if mean != 0.0 => s.value * fade(self.lambda, self.t, s.last_t) / mean,
            _ => 0.0,
        })
    }
}

fn pool(micros: &[Micro<Feature>], line: &mut Line) {
    line.number(micros.len() as u64);
    for m in micros {
        line.whole(m.last_t).whole(m.t0);
        feature(&m.cf, line);
    }
}

impl DenStream<f64, Feature> {
    /// Operation 13, as for the other stream.
    pub fn figures(&self, taken: u64, line: &mut Line) {
        line.word("den").whole(self.t);
        pool(&self.p, line);
        pool(&self.o, line);
        labels(&self.labels, line);
        self.drift.figures(taken, line);
    }

    pub fn clock(&self) -> f64 {
        self.t
    }

    pub fn since_check(&self) -> u64 {
        self.drift.adwin.since_check()
    }

    /// The finds and halving steps of a cluster.
    pub fn work(&self) -> (u64, u64) {
        let n = self.p.len();
        let close = |i: usize, j: usize| sq_euclidean(self.p[i].cf.mean(), self.p[j].cf.mean()) <= 4.0 * self.eps2;
        let pairs = (0..n).flat_map(|i| (i + 1..n).map(move |j| (i, j))).filter(|&(i, j)| close(i, j)).collect();
        work(n, pairs, (0..n).collect())
    }

    /// A made-up state: another clock.
    pub fn set_clock(&mut self, t: f64) {
        self.t = t;
    }

    /// How many of each pool, and each one's birth, latest tick and weight.
    pub fn weights(&self, line: &mut Line) {
        for pool in [&self.p, &self.o] {
            line.number(pool.len() as u64);
            for m in pool {
                line.whole(m.t0).whole(m.last_t).double(m.cf.weight());
            }
        }
    }

    /// Both pools together.
    pub fn held(&self) -> usize {
        self.p.len() + self.o.len()
    }

    /// The mean at a place of both pools, the potential ones first.
    pub fn mean(&self, place: usize) -> &[f64] {
        self.p.iter().chain(&self.o).nth(place).expect("a held place").cf.mean()
    }

    /// The stored weight at such a place.
    pub fn weight(&self, place: usize) -> f64 {
        self.p.iter().chain(&self.o).nth(place).expect("a held place").cf.weight()
    }

    pub fn beta_mu(&self) -> f64 {
        self.beta_mu
    }

    /// Question 9's first half: would the nearest potential one or the nearest outlier take the point? Tried on copies.
    pub fn absorbs(&self, x: &[f64]) -> bool {
        let tried = |micros: &[Micro<Feature>]| {
            Self::nearest(micros, x).is_some_and(|(i, _)| {
                let mut copy = [Micro { cf: micros[i].cf.clone(), last_t: micros[i].last_t, t0: micros[i].t0 }];
                Self::try_merge(&mut copy, 0, x, self.t, self.lambda, self.eps2)
            })
        };
        tried(&self.p) || tried(&self.o)
    }
}
