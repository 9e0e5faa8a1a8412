//! vectors: arguments and results of the float functions, one a line: `exp2 bff0000000000000 3fe0000000000000`.
//! vectors --records: the same arguments as records of two words, the function's number from 1 and the argument's bits, as
//! the program `vectors` of the repository reads them: crates/vectors/stdin; the lines are crates/vectors/stdout.
//!
//! exp2, ln and log2 are document 01's; of ln and log2 only arguments from 1 on, infinity and NaN, as nothing is defined
//! below. sqrt and ceil are the processor's, by IEEE 754.
use std::io::Write;

use oracle::random::Random;
use oracle::standins::Standins;

/// How many random arguments a function gets.
const RANDOM: usize = 64;

fn both_signs(of: &[f64]) -> Vec<f64> {
    of.iter().flat_map(|&v| [v, -v]).collect()
}

/// A value, its neighbours and theirs.
fn around(of: &[f64]) -> Vec<f64> {
    of.iter().flat_map(|&v| [v.next_down().next_down(), v.next_down(), v, v.next_up(), v.next_up().next_up()]).collect()
}

const SMALL: [f64; 5] = [5e-324, 1e-323, 2.225073858507201e-308, f64::MIN_POSITIVE, 1e-300];

fn exp2_arguments(r: &mut Random) -> Vec<f64> {
    let mut v = vec![0.0, -0.0, f64::NAN, f64::INFINITY, f64::NEG_INFINITY, 1.0, 0.5, 1e-300, 1e300, f64::MIN];
    v.extend(SMALL.iter().map(|x| -x));
    v.extend(around(&[
        -0.5, -1.0, -2.0, -3.0, -10.0, -52.0, -53.0, -511.0, -1021.0, -1022.0, -1022.5, -1023.0, -1074.0, -1075.0,
    ]));
    v.extend([
        -1e-16,
        -1e-17,
        -0.25,
        -0.75,
        -1.5,
        -0.1,
        -2.5,
        -33.0 / 33.0,
        -1.0 / 33.0,
        -64.0,
        -64.0 * 65535.0,
        -1e10,
        // A lambda times the oldest age: the fastest fading, and the slowest, which is not 0.
        -64.0 * 1099511627774.0,
        -1099511627774.0 / 4294967296.0,
    ]);
    v.extend((0..RANDOM / 4).map(|_| -r.unit()));
    v.extend((0..RANDOM / 4).map(|_| -60.0 * r.unit()));
    v.extend((0..RANDOM / 4).map(|_| -1024.0 * r.unit()));
    v.extend((0..RANDOM / 4).map(|_| -r.size(-70, 10)));
    v
}

fn ln_arguments(r: &mut Random) -> Vec<f64> {
    let mut v = vec![f64::NAN, f64::INFINITY, 1.0, f64::MAX, 2f64.powi(1023), 10.0, 1e16, 1.5, 2000.0, 65535.0];
    // The width of the longest window.
    v.push(1099511627775.0);
    v.extend([1f64.next_up(), 1f64.next_up().next_up(), 1.0 + 2f64.powi(-30), 1.0 + 2f64.powi(-40)]);
    v.extend(around(&[2.0, 4.0, 8.0, 2f64.powi(52), 2f64.powi(53), 2f64.powi(1022)]));
    // 2 × max(1, ln width) / delta, and beta mu / (beta mu − 1), as the windows and the streams ask.
    v.extend([10.0, 32.0, 64.0, 1000.0, 65535.0, 1099511627775.0].map(|w: f64| 2.0 * w.ln_standin().max(1.0) / 0.002));
    v.extend([2.0, 1.5, 1.0000000000000002, 10.0, 1e16].map(|b: f64| b / (b - 1.0)));
    v.extend((0..RANDOM / 4).map(|_| 1.0 + r.unit()));
    v.extend((0..RANDOM / 4).map(|_| 1.0 + r.size(-52, -1)));
    v.extend((0..RANDOM / 2).map(|_| r.size(0, 1022)));
    v
}

fn ceil_arguments(r: &mut Random) -> Vec<f64> {
    let mut v = vec![f64::NAN];
    v.extend(both_signs(&[
        0.0,
        f64::INFINITY,
        f64::MAX,
        1.0,
        2.0,
        3.0,
        0.5,
        1.5,
        2.5,
        0.25,
        100.0,
        65535.0,
        65534.5,
        1e300,
    ]));
    v.extend(both_signs(&SMALL));
    let big: Vec<f64> = [50, 51, 52, 53, 54].iter().flat_map(|&e| around(&[2f64.powi(e)])).collect();
    v.extend(both_signs(&big));
    v.extend(both_signs(&around(&[1.0, 2.0, 1024.0, 4294967296.0])));
    v.extend(both_signs(&[4503599627370495.5, 2251799813685247.75, 2251799813685248.5, 1125899906842623.9]));
    v.extend((0..RANDOM).map(|i| if i % 2 == 0 { r.size(-10, 60) } else { -r.size(-10, 60) }));
    v
}

fn sqrt_arguments(r: &mut Random) -> Vec<f64> {
    let mut v = vec![f64::NAN];
    v.extend(both_signs(&[0.0, f64::INFINITY, f64::MAX, 1.0, 2.0, 4.0, 0.25, 1e300, 1e-300]));
    v.extend(both_signs(&SMALL));
    v.extend(around(&[1.0, 4.0, 0.25, 2f64.powi(52), 2f64.powi(104)]));
    v.extend([3.0, 9.0, 10.0, 1e100, 1.5e-323, 2e-323, f64::MAX.next_down(), 2f64.powi(1022), 2f64.powi(1023)]);
    // Squares of long numbers and their neighbours: the hardest to round.
    v.extend((0..RANDOM / 8).flat_map(|_| {
        let x = r.size(-100, 100);
        [x * x, (x * x).next_up(), (x * x).next_down()]
    }));
    v.extend((0..RANDOM / 4).map(|_| f64::from_bits(r.next() >> 12)));
    v.extend((0..RANDOM).map(|_| r.size(-1022, 1022)));
    v
}

type Vector = (&'static str, fn(&mut Random) -> Vec<f64>, fn(f64) -> f64);

const FUNCTIONS: [Vector; 5] = [
    ("exp2", exp2_arguments, |v| v.exp2_standin()),
    ("ln", ln_arguments, |v| v.ln_standin()),
    ("log2", ln_arguments, |v| v.log2_standin()),
    ("ceil", ceil_arguments, |v| v.ceil()),
    ("sqrt", sqrt_arguments, |v| v.sqrt()),
];

/// All NaNs are one.
fn bits(v: f64) -> u64 {
    if v.is_nan() { 0x7ff8_0000_0000_0000 } else { v.to_bits() }
}

fn text(v: f64) -> String {
    if v.is_nan() { "nan".into() } else { format!("{:016x}", v.to_bits()) }
}

fn main() {
    let records = std::env::args().nth(1).as_deref() == Some("--records");
    let mut out = std::io::stdout().lock();
    for (n, (name, arguments, f)) in FUNCTIONS.into_iter().enumerate() {
        let mut args = arguments(&mut Random::new(1));
        let mut seen = std::collections::HashSet::new();
        args.retain(|&v| seen.insert(bits(v)));
        for v in args {
            if records {
                out.write_all(&(n as u64 + 1).to_le_bytes()).expect("standard output");
                out.write_all(&bits(v).to_le_bytes()).expect("standard output");
            } else {
                writeln!(out, "{name} {} {}", text(v), text(f(v))).expect("standard output");
            }
        }
    }
}
