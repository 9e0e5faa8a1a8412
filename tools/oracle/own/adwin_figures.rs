//! Every kept figure of the window, and made-up windows; a child module of adwin.rs, so that it may use the private fields.
use super::{Adwin, Bucket};
use crate::text::Line;

impl Adwin {
    /// Values since the last cut search. It moves with every value that is taken, and only then.
    pub fn since_check(&self) -> u64 {
        self.since_check
    }

    pub fn bucket_count(&self) -> usize {
        self.levels.iter().map(Vec::len).sum()
    }

    /// A made-up window of these classes and means, oldest first, a value short of a cut search.
    pub fn made_up(delta: f64, buckets: &[(usize, f64)]) -> Self {
        let mut w = Self::new(delta);
        for &(class, mean) in buckets {
            let size = (1u64 << class) as f64;
            if w.levels.len() <= class {
                w.levels.resize_with(class + 1, Vec::new);
            }
            w.levels[class].insert(0, Bucket { size, total: size * mean, variance: 0.0 });
            w.width += size;
            w.total += size * mean;
        }
        w.since_check = super::CHECK_EVERY - 1;
        w
    }

    /// `WIDTH TOTAL VARIANCE SINCE TAKEN`, the number of buckets, for each, oldest first, `CLASS SIZE TOTAL VARIANCE`.
    pub fn figures(&self, taken: u64, line: &mut Line) {
        line.whole(self.width).double(self.total).double(self.variance);
        line.number(self.since_check).number(taken);
        line.number(self.bucket_count() as u64);
        for (class, level) in self.levels.iter().enumerate().rev() {
            for b in level.iter().rev() {
                line.number(class as u64).whole(b.size).double(b.total).double(b.variance);
            }
        }
    }
}
