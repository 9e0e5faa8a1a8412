//! limits: what no run can reach, tried on made-up states of the Rust behind the questions; the text of the program
//! `limits` (crates/limits), line by line.
use oracle::adwin::Adwin;
use oracle::machine::{LAMBDA_LEAST, Machine, Stream};
use oracle::record::*;
use oracle::text::Line;

/// 2^40 - 4: three ticks before the end.
const LATE: f64 = 1099511627772.0;

/// An update: the answer, the values taken, the width and the buckets.
fn update(m: &mut Machine, value: f64) {
    let mut line = Line::default();
    m.answer(&Record::of_doubles(UPDATE, &[value]), &mut line);
    let taken = m.window_taken().expect("a window was made up");
    let w = m.window().expect("a window was made up");
    line.number(taken).number(w.width() as u64).number(w.bucket_count() as u64);
    println!("{}", line.text());
}

/// 6 buckets of each class up to 36 and 2 of class 37 with the mean `old`: 2^40 - 6 values.
fn fullest(old: f64) -> Adwin {
    let mut buckets = vec![(37, old); 2];
    buckets.extend((0..37).rev().flat_map(|class| [(class, 1.0); 6]));
    Adwin::made_up(0.002, &buckets)
}

fn windows(m: &mut Machine) {
    for (old, taken, values) in [
        (1.0, 1099511627770, &[1.0, 1.0][..]),
        (0.0, 1099511627770, &[1.0, 1.0]),
        (1.0, 1099511627774, &[1.0, 1.0, f64::NAN]),
    ] {
        m.set_window(fullest(old), taken);
        for &value in values {
            update(m, value);
        }
    }
}

/// A stream of dim 1 and radius 1 takes the points `early`; then its clock is t and its next creation number `next`, and it takes `late`.
fn tried(m: &mut Machine, op: u64, lambda: f64, early: &[f64], (t, next): (f64, u64), late: &[f64]) {
    let weight = if op == OPEN_DB { 1.0 } else { 4.0 };
    m.answer(&Record::new(op, &[1, bits(1.0), bits(lambda), bits(0.5), bits(weight)]), &mut Line::default());
    insert(m, early);
    m.set_clock(t, next);
    insert(m, late);
}

/// Inserts: the answer's number, the clock and what is held.
fn insert(m: &mut Machine, points: &[f64]) {
    for &x in points {
        let mut answer = Line::default();
        m.answer(&Record::of_doubles(INSERT, &[x]), &mut answer);
        let number = answer.text().strip_prefix("refused ").map_or(0, |n| n.parse().expect("a number"));
        let mut line = Line::default();
        match m.stream().expect("a stream was opened") {
            Stream::Db(s) => s.weights(line.word("db").number(number).whole(s.clock())),
            Stream::Den(s) => s.weights(line.word("den").number(number).whole(s.clock())),
        }
        println!("{}", line.text());
    }
}

fn main() {
    let mut m = Machine::new();
    windows(&mut m);
    tried(&mut m, OPEN_DB, 0.25, &[0.0], (LATE, LATE as u64), &[0.0, 0.0, 10.0, 10.0]);
    for t in [4294967295.0, 8589934591.0] {
        tried(&mut m, OPEN_DB, LAMBDA_LEAST, &[0.0, 10.0, 10.0], (t, 2), &[20.0]);
    }
    tried(&mut m, OPEN_DEN, 0.25, &[], (LATE, 0), &[0.0; 4]);
    let early = [0.0, 0.0, 0.0, 0.0, 10.0, 10.0, 10.0, 30.0];
    tried(&mut m, OPEN_DEN, LAMBDA_LEAST, &early, (4294967294.0, 0), &[20.0; 2]);
}
