//! Document 01's stand-ins for exp2, ln and log2. Square root, maximum, minimum and ceil stay Rust's own: f64::sqrt is
//! IEEE 754's, f64::max and f64::min let a NaN lose, f64::ceil is exact.

/// The natural logarithm of 2, as document 01 gives it.
pub const L: f64 = f64::from_bits(0x3FE62E42FEFA39EF);

/// 2^k, exact for k from -1022 to 1023.
fn pow2(k: i64) -> f64 {
    f64::from_bits(((k + 1023) as u64) << 52)
}

pub trait Standins {
    fn exp2_standin(self) -> f64;
    fn ln_standin(self) -> f64;
    fn log2_standin(self) -> f64;
}

impl Standins for f64 {
    /// "y not below 0 gives 1. Let k be y cut towards zero; k below −1022 gives 0. z = (y − k) × L. Start h at 1; for n
    /// from 20 down to 1, h becomes 1 + (z × h) / n. The answer is h × 2^k."
    fn exp2_standin(self) -> f64 {
        let y = self;
        if !(y < 0.0) {
            return 1.0;
        }
        let k = y.trunc();
        if k < -1022.0 {
            return 0.0;
        }
        let z = (y - k) * L;
        let mut h = 1.0;
        for n in (1..=20).rev() {
            h = 1.0 + (z * h) / n as f64;
        }
        h * pow2(k as i64)
    }

    /// "v = m × 2^e, 1 ≤ m < 2; s = (m−1)/(m+1), q = s × s; start h at 0; for k from 20 down to 0, h becomes
    /// h × q + 1/(2k+1); the answer is e × L + (2 × s) × h. Infinity and NaN stay themselves."
    fn ln_standin(self) -> f64 {
        let v = self;
        if v.is_nan() || v == f64::INFINITY {
            return v;
        }
        assert!(v >= 1.0, "document 01 defines ln from 1 on");
        let bits = v.to_bits();
        let e = (bits >> 52) as i64 - 1023;
        let m = f64::from_bits((bits & 0x000F_FFFF_FFFF_FFFF) | 0x3FF0_0000_0000_0000);
        let s = (m - 1.0) / (m + 1.0);
        let q = s * s;
        let mut h = 0.0;
        for k in (0..=20).rev() {
            h = h * q + 1.0 / (2 * k + 1) as f64;
        }
        e as f64 * L + (2.0 * s) * h
    }

    /// "log2 v = (ln v) / L."
    fn log2_standin(self) -> f64 {
        self.ln_standin() / L
    }
}
