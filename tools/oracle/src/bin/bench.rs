//! bench [RUNS] [WORD]: times whole runs of the Rust and, built with the feature `product`, of the product too, on the
//! same points; best and median of RUNS (default 7), only the sessions whose name has WORD. Says where the two differ
//! in a figure or in the number of an insert.
//! Time is the thread's own, so that other work on the machine counts for little.
//! bench stack: the stack that each of the product's sessions needs, its stream and the calls below it.
use oracle::sessions::{self, Figures, Kind, Points, Settings, WindowFigures};
use std::hint::black_box;

/// The runs of one side. A stream's takes the rounds of cluster, and writes the number of each insert.
#[derive(Clone, Copy)]
struct Side {
    window: fn(f64, &[f64]) -> WindowFigures,
    dbstream: StreamRun,
    denstream: StreamRun,
}

type StreamRun = fn(&Settings, &Points, u64, &mut [u64]) -> Figures;

const RUST: Side =
    Side { window: sessions::window_run, dbstream: sessions::dbstream_run, denstream: sessions::denstream_run };

#[cfg(feature = "product")]
const PRODUCT: Side =
    Side { window: product::window_run, dbstream: product::dbstream_run, denstream: product::denstream_run };

#[cfg(feature = "product")]
mod product {
    use super::{Figures, Points, Settings, WindowFigures};

    mod c {
        use super::{Figures, WindowFigures};
        unsafe extern "C" {
            pub fn window_run(delta: f64, values: *const f64, count: usize) -> WindowFigures;
        }
        /// A stream's run: each slice is its pointer and its length.
        macro_rules! stream_run {
            ($name:ident) => {
                unsafe extern "C" {
                    pub fn $name(
                        dim: usize,
                        radius: f64,
                        lambda: f64,
                        share: f64,
                        weight: f64,
                        values: *const f64,
                        value_count: usize,
                        lengths: *const usize,
                        length_count: usize,
                        rounds: u64,
                        numbers: *mut u64,
                        number_count: usize,
                    ) -> Figures;
                }
            };
        }
        stream_run!(dbstream_run);
        stream_run!(denstream_run);
    }

    // SAFETY, all three: exported by the product's archive with this signature; each pointer is a slice's, whose length
    // follows it, and none is kept.
    pub fn window_run(delta: f64, values: &[f64]) -> WindowFigures {
        unsafe { c::window_run(delta, values.as_ptr(), values.len()) }
    }
    macro_rules! stream_run {
        ($name:ident) => {
            pub fn $name(p: &Settings, points: &Points, rounds: u64, numbers: &mut [u64]) -> Figures {
                let Settings { dim, radius, lambda, share, weight } = *p;
                let (values, value_count) = (points.values.as_ptr(), points.values.len());
                let (lengths, length_count) = (points.lengths.as_ptr(), points.lengths.len());
                let (to, places) = (numbers.as_mut_ptr(), numbers.len());
                unsafe {
                    c::$name(
                        dim,
                        radius,
                        lambda,
                        share,
                        weight,
                        values,
                        value_count,
                        lengths,
                        length_count,
                        rounds,
                        to,
                        places,
                    )
                }
            }
        };
    }
    stream_run!(dbstream_run);
    stream_run!(denstream_run);
}

/// The inputs of a session: values for windows, or the settings and points of a stream.
enum Input {
    Window(Vec<f64>),
    Db(Settings, Points),
    Den(Settings, Points),
}

/// Inserts of a session, and values of a window before a fresh one.
const INSERTS: usize = 65_535;

impl Input {
    fn window(jumps: bool, n: usize) -> Self {
        Input::Window(sessions::window_values(jumps, n))
    }
    fn db(kind: Kind, n: usize) -> Self {
        let lambda = if let Kind::Lone(_) = kind { 0.01 } else { 1.0 / 1024.0 };
        Input::Db(Settings { dim: kind.dim(), radius: 1.0, lambda, share: 0.3, weight: 1.0 }, Points::draw(kind, n))
    }
    fn den(kind: Kind, n: usize) -> Self {
        let p = Settings { dim: kind.dim(), radius: 1.0, lambda: 1.0 / 1024.0, share: 0.5, weight: 3.0 };
        Input::Den(p, Points::draw(kind, n))
    }
}

/// A session to time: its first n inputs, then so many rounds of cluster. With rounds these are timed, and the run
/// without them is subtracted; else the inserts or updates are.
struct Case {
    name: &'static str,
    draw: fn(usize) -> Input,
    n: usize,
    rounds: u64,
}

fn cases() -> Vec<Case> {
    let of = |name, draw, n, rounds| Case { name, draw, n, rounds };
    vec![
        of("window update, steady", |n| Input::window(false, n), 1_000_000, 0),
        of("window update, a jump every 1,000", |n| Input::window(true, n), 1_000_000, 0),
        of("dbstream insert, 10 live, one neighbour", |n| Input::db(Kind::Lone(10), n), INSERTS, 0),
        of("dbstream insert, 30 live, one neighbour", |n| Input::db(Kind::Lone(30), n), INSERTS, 0),
        of("dbstream insert, 64 live, one neighbour", |n| Input::db(Kind::Lone(64), n), INSERTS, 0),
        of("dbstream insert, 10 live, two neighbours", |n| Input::db(Kind::Paired(10), n), INSERTS, 0),
        of("dbstream insert, 30 live, two neighbours", |n| Input::db(Kind::Paired(30), n), INSERTS, 0),
        of("dbstream insert, 64 live, two neighbours", |n| Input::db(Kind::Paired(64), n), INSERTS, 0),
        of("dbstream insert, dim 15, 64 absorb, 2,016 links", |n| Input::db(Kind::Worst, n), 1_000, 0),
        of("dbstream cluster, 64 live, no link", |n| Input::db(Kind::Lone(64), n), 2_000, 2_000),
        of("dbstream cluster, 64 live, 32 links", |n| Input::db(Kind::Paired(64), n), 2_000, 2_000),
        of("dbstream cluster, 64 live, 2,016 links", |n| Input::db(Kind::Worst, n), 2_000, 2_000),
        of("denstream insert, 10 live", |n| Input::den(Kind::Lone(10), n), INSERTS, 0),
        of("denstream insert, 30 live", |n| Input::den(Kind::Lone(30), n), INSERTS, 0),
        of("denstream insert, 64 live", |n| Input::den(Kind::Lone(64), n), INSERTS, 0),
        of("denstream cluster, 10 potential", |n| Input::den(Kind::Lone(10), n), 2_000, 2_000),
        of("denstream cluster, 64 potential", |n| Input::den(Kind::Lone(64), n), 2_000, 2_000),
    ]
}

/// What a session tells: the figures of each window, or of the stream.
enum Told {
    Windows(Vec<WindowFigures>),
    Stream(Figures),
}

#[cfg(feature = "product")]
impl Told {
    /// Bit by bit.
    fn words(&self) -> Vec<u64> {
        match self {
            Told::Windows(all) => all.iter().flat_map(WindowFigures::words).collect(),
            Told::Stream(f) => f.words().to_vec(),
        }
    }
}

impl std::fmt::Display for Told {
    fn fmt(&self, to: &mut std::fmt::Formatter) -> std::fmt::Result {
        match self {
            Told::Windows(all) => {
                let last = all.last().expect("a window");
                write!(to, "alarms {}, mean {:?}", all.iter().map(|f| f.alarms).sum::<u64>(), last.mean)
            }
            Told::Stream(f) => write!(to, "micros {}, families {}, mean {:?}", f.micros, f.families, f.distance),
        }
    }
}

/// A session on one side.
fn session(side: Side, input: &Input, rounds: u64, numbers: &mut [u64]) -> Told {
    match input {
        Input::Window(values) => Told::Windows(values.chunks(INSERTS).map(|c| (side.window)(0.002, c)).collect()),
        Input::Db(p, points) => Told::Stream((side.dbstream)(p, points, rounds, numbers)),
        Input::Den(p, points) => Told::Stream((side.denstream)(p, points, rounds, numbers)),
    }
}

/// C's struct timespec and clock_gettime: the standard library has no thread time.
#[repr(C)]
struct Timespec {
    seconds: i64,
    nanoseconds: i64,
}

unsafe extern "C" {
    fn clock_gettime(clock: i32, to: *mut Timespec) -> i32;
}

/// Seconds that this thread has run.
fn thread_time() -> f64 {
    const THREAD_CPUTIME: i32 = 3;
    let mut t = Timespec { seconds: 0, nanoseconds: 0 };
    // SAFETY: `t` is writable and laid out as C's.
    assert_eq!(unsafe { clock_gettime(THREAD_CPUTIME, &mut t) }, 0);
    t.seconds as f64 + t.nanoseconds as f64 * 1e-9
}

/// Nanoseconds a call of one run, what it tells, and the numbers of its inserts.
fn once(side: Side, c: &Case, input: &Input) -> (f64, Told, Vec<u64>) {
    // No insert's number is 99: one that isn't written shows.
    let mut numbers = vec![99; c.n];
    let mut timed = |rounds| {
        let start = thread_time();
        let told = session(black_box(side), black_box(input), rounds, &mut numbers);
        (thread_time() - start, told)
    };
    let over = if c.rounds > 0 { timed(0).0 } else { 0.0 };
    let (all, told) = timed(c.rounds);
    let calls = if c.rounds > 0 { c.rounds as f64 } else { c.n as f64 };
    ((all - over) * 1e9 / calls, told, numbers)
}

/// Best and median.
fn best_and_median(mut times: Vec<f64>) -> (f64, f64) {
    times.sort_by(f64::total_cmp);
    (times[0], times[times.len() / 2])
}

/// Runs the two in turns, so that both meet the same machine.
fn run(runs: usize, word: &str) {
    println!("{:<50} {:>9} {:>9}  nanoseconds a call, of {runs} runs", "the Rust", "best", "median");
    for c in cases().iter().filter(|c| c.name.contains(word)) {
        let input = (c.draw)(c.n);
        let mut rust = vec![];
        #[cfg(feature = "product")]
        let mut ours = vec![];
        for _ in 0..runs {
            rust.push(once(RUST, c, &input));
            #[cfg(feature = "product")]
            ours.push(once(PRODUCT, c, &input));
        }
        let (best, median) = best_and_median(rust.iter().map(|r| r.0).collect());
        print!("{:<50} {best:>9.1} {median:>9.1}", c.name);
        if c.n == INSERTS {
            print!("  session {:>6.1} ms", best * 65.535e-3);
        }
        #[cfg(feature = "product")]
        {
            let (own, own_median) = best_and_median(ours.iter().map(|r| r.0).collect());
            print!("  product {own:>9.1} {own_median:>9.1}  {:>6.2} times", own / best);
            if ours[0].1.words() != rust[0].1.words() || ours[0].2 != rust[0].2 {
                print!("  ANSWERS DIFFER, product {}", ours[0].1);
            }
        }
        println!("  {}", rust[0].1);
    }
}

/// The stack of a session: each trial is a process of its own, since one that runs out of stack is killed.
#[cfg(feature = "product")]
mod stack {
    use super::{PRODUCT, cases, session};
    use std::process::{Command, Stdio};

    const STEP: usize = 4 << 10;

    /// Inserts of a trial: every session has had a cleanup by then.
    const FEW: usize = 2_000;

    /// The session of number i on that much stack.
    pub fn trial(i: usize, bytes: usize) {
        let c = &cases()[i];
        let n = c.n.min(FEW);
        let (input, rounds) = ((c.draw)(n), c.rounds);
        let mut numbers = vec![0; n];
        let small = std::thread::Builder::new().stack_size(bytes);
        let run = move || drop(session(PRODUCT, &input, rounds, &mut numbers));
        small.spawn(run).expect("a thread").join().expect("the session ends");
    }

    fn ends(i: usize, bytes: usize) -> bool {
        let exe = std::env::current_exe().expect("this program");
        let mut child = Command::new(exe);
        child.args(["stack-on", &i.to_string(), &bytes.to_string()]).stderr(Stdio::null());
        child.status().expect("a process").success()
    }

    /// The least number of steps on which each session ends.
    pub fn print() {
        for (i, c) in cases().iter().enumerate() {
            let (mut short, mut enough) = (4, 16 << 10);
            while enough - short > 1 {
                let middle = (short + enough) / 2;
                *if ends(i, middle * STEP) { &mut enough } else { &mut short } = middle;
            }
            println!("{:<50} {:>6} KiB of stack", c.name, enough * STEP >> 10);
        }
    }
}

fn main() {
    let args: Vec<String> = std::env::args().skip(1).collect();
    #[cfg(feature = "product")]
    match args.iter().map(String::as_str).collect::<Vec<_>>()[..] {
        ["stack"] => return stack::print(),
        ["stack-on", i, bytes] => return stack::trial(i.parse().expect("a number"), bytes.parse().expect("a number")),
        _ => {}
    }
    let runs = args.first().and_then(|a| a.parse().ok()).unwrap_or(7).max(1);
    let word = args.into_iter().find(|a| a.parse::<usize>().is_err()).unwrap_or_default();
    // The product keeps whole streams on the stack.
    let big = std::thread::Builder::new().stack_size(256 << 20);
    big.spawn(move || run(runs, &word)).expect("a thread").join().expect("the sessions end");
}
