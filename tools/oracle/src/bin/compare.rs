//! compare [--budget SECONDS] [--keep FOLDER] A B SCRIPT..: runs scripts through two programs and compares every line.
//!
//! A and B are commands, cut at spaces (`target/bin/replay`, `target/oracle/build/release/oracle --spoil`). A SCRIPT is a
//! file, or KIND:SEED or KIND:FROM-TO (`db:1-20`), written as the program `scripts` writes it; `bad:all` is every
//! malformed record.
//! At the first line that differs, or when a program ends by a signal, the script is cut there and made smaller as long
//! as some difference stays: records are dropped, then operands made simpler; SECONDS (default 60) bound that. The small
//! script is printed with both answers and stored in FOLDER (default target/compare).
//! Then the calls of each operation and kind, and the answers, are counted. Ends with 0 if nothing differs, else 1.
use oracle::record::{self, Record};
use oracle::scripts::{Script, malformed, script};
use std::collections::BTreeMap;
use std::io::{BufRead, BufReader, Write};
use std::process::{Child, ChildStdout, Command, Stdio};
use std::time::{Duration, Instant};

const USAGE: &str =
    "usage: compare [--budget SECONDS] [--keep FOLDER] A B SCRIPT.. (SCRIPT: a file, KIND:SEED or KIND:FROM-TO)";

/// A running program and what is left of its output.
struct Run {
    child: Child,
    out: BufReader<ChildStdout>,
}

impl Run {
    fn start(command: &str, input: Vec<u8>) -> Self {
        let words: Vec<&str> = command.split_whitespace().collect();
        let mut child = Command::new(words[0])
            .args(&words[1..])
            .stdin(Stdio::piped())
            .stdout(Stdio::piped())
            .stderr(Stdio::null())
            .spawn()
            .unwrap_or_else(|e| fail(&format!("{command}: {e}")));
        let mut stdin = child.stdin.take().expect("piped");
        // A program that stops reading is no error: its output tells.
        std::thread::spawn(move || drop(stdin.write_all(&input)));
        let out = BufReader::with_capacity(1 << 16, child.stdout.take().expect("piped"));
        Self { child, out }
    }

    /// The next line without its newline; none at the end. A last line that lacks its newline keeps a mark.
    fn line(&mut self, to: &mut Vec<u8>) -> bool {
        to.clear();
        match self.out.read_until(b'\n', to) {
            Ok(0) | Err(_) => false,
            Ok(_) => {
                if to.last() == Some(&b'\n') {
                    to.pop();
                } else {
                    to.extend(b" (no newline)");
                }
                true
            }
        }
    }

    /// How it ended, if by a signal.
    fn signal(&mut self) -> Option<i32> {
        use std::os::unix::process::ExitStatusExt;
        self.child.wait().ok()?.signal()
    }
}

impl Drop for Run {
    fn drop(&mut self) {
        drop(self.child.kill());
        drop(self.child.wait());
    }
}

/// The first line that differs, from 0, and what each program said there.
struct Difference {
    line: usize,
    said: [String; 2],
}

/// Runs both; `each` sees every line that both said.
fn difference(programs: &[String; 2], s: &Script, mut each: impl FnMut(usize, &[u8])) -> Option<Difference> {
    let input = s.bytes();
    let mut a = Run::start(&programs[0], input.clone());
    let mut b = Run::start(&programs[1], input);
    let (mut la, mut lb) = (vec![], vec![]);
    let mut n = 0;
    loop {
        let (ma, mb) = (a.line(&mut la), b.line(&mut lb));
        if ma && mb && la == lb {
            each(n, &la);
            n += 1;
            continue;
        }
        let told = |more: bool, line: &[u8], run: &mut Run| match more {
            true => String::from_utf8_lossy(line).into_owned(),
            false => run.signal().map_or("(the output ends)".into(), |g| format!("(ended by signal {g})")),
        };
        let said = [told(ma, &la, &mut a), told(mb, &lb, &mut b)];
        // Both at their end: alike, unless one was ended.
        return (ma || mb || said[0] != said[1]).then_some(Difference { line: n, said });
    }
}

/// Makes a differing script smaller while it differs, until nothing more helps or the time is over.
struct Shrink<'a> {
    programs: &'a [String; 2],
    until: Instant,
    tried: usize,
}

impl Shrink<'_> {
    fn time_left(&self) -> bool {
        Instant::now() < self.until
    }

    /// If the candidate differs, the candidate cut behind its first difference.
    fn differs(&mut self, candidate: Script) -> Option<Script> {
        self.tried += 1;
        let d = difference(self.programs, &candidate, |_, _| {})?;
        Some(cut_behind(candidate, d.line))
    }

    /// Drops blocks of records, from half of the script down to single ones.
    fn drop_records(&mut self, mut s: Script) -> Script {
        let mut size = s.records.len().div_ceil(2).max(1);
        loop {
            let mut at = 0;
            let mut dropped = false;
            while at < s.records.len() && self.time_left() {
                let end = (at + size).min(s.records.len());
                let mut candidate = s.clone();
                candidate.records.drain(at..end);
                match self.differs(candidate) {
                    Some(smaller) => {
                        s = smaller;
                        dropped = true;
                    }
                    None => at = end,
                }
            }
            if !self.time_left() || (size == 1 && !dropped) {
                return s;
            }
            if !dropped || size > 1 {
                size = (size / 2).max(1);
            }
        }
    }

    /// Puts simpler doubles for the operands.
    fn simplify(&mut self, mut s: Script) -> Script {
        for i in 0..s.records.len() {
            for j in 0..s.records.get(i).map_or(0, |r| r.operands.len()) {
                if !s.records[i].is_double(j) {
                    continue;
                }
                let old = f64::from_bits(s.records[i].operands[j]);
                let short = f64::from_bits(old.to_bits() & !0xFFFF_FFFF);
                for new in [0.0, 1.0, old.round(), short] {
                    if new.to_bits() == old.to_bits() || !self.time_left() {
                        break;
                    }
                    let mut candidate = s.clone();
                    candidate.records[i].operands[j] = new.to_bits();
                    if let Some(same) = self.differs(candidate).filter(|c| c.records.len() == s.records.len()) {
                        s = same;
                        break;
                    }
                }
            }
        }
        s
    }
}

/// Nothing behind the first difference matters.
fn cut_behind(mut s: Script, line: usize) -> Script {
    if line < s.records.len() {
        s.records.truncate(line + 1);
        s.tail.clear();
    }
    s
}

/// Both programs' whole outputs, for the small script.
fn outputs(programs: &[String; 2], s: &Script) -> [Vec<String>; 2] {
    [0, 1].map(|i| {
        let mut run = Run::start(&programs[i], s.bytes());
        let mut line = vec![];
        let mut lines = vec![];
        while run.line(&mut line) {
            lines.push(String::from_utf8_lossy(&line).into_owned());
        }
        lines
    })
}

/// The two lines as far as they agree in few words, then the fields that follow.
fn parted(a: &str, b: &str) -> [String; 2] {
    let (fa, fb): (Vec<&str>, Vec<&str>) = (a.split(' ').collect(), b.split(' ').collect());
    let same = fa.iter().zip(&fb).take_while(|(x, y)| x == y).count();
    [fa, fb].map(|f| {
        let from = same.saturating_sub(3);
        let to = (same + 5).min(f.len());
        let before = if from > 0 { format!("{} .. ", f[0]) } else { String::new() };
        let after = if to < f.len() { " .." } else { "" };
        format!("field {same}: {before}{}{after}", f[from.min(to)..to].join(" "))
    })
}

/// A small script's records and answers; of a long one the first and the last.
fn show(programs: &[String; 2], s: &Script) {
    const FIRST: usize = 30;
    const LAST: usize = 10;
    let out = outputs(programs, s);
    let missing = "(no line)".to_string();
    let n = s.records.len().max(out[0].len()).max(out[1].len());
    for i in 0..n {
        let [a, b] = [0, 1].map(|k| out[k].get(i).unwrap_or(&missing));
        if a == b && i >= FIRST && i + LAST < n {
            if i == FIRST {
                println!("    .. {} records ..", n - FIRST - LAST);
            }
            continue;
        }
        let record = match s.records.get(i) {
            Some(r) => r.readable(),
            None => format!("{} bytes that are no record: {:02x?}", s.tail.len(), s.tail),
        };
        if a == b {
            let short: String = a.chars().take(100).collect();
            println!("    {record}  ->  {short}");
        } else {
            println!("    {record}");
            for (p, said) in programs.iter().zip(parted(a, b)) {
                println!("        {p}: {said}");
            }
        }
    }
}

#[derive(Default)]
struct Counts {
    /// By kind and operation.
    calls: BTreeMap<(String, u64), u64>,
    /// By operation and answer.
    answers: BTreeMap<(u64, String), u64>,
    lines: u64,
}

impl Counts {
    fn add(&mut self, kind: &str, record: Option<&Record>, line: &[u8]) {
        let op = record.map_or(0, |r| r.op);
        self.lines += 1;
        match self.calls.get_mut(&(kind.to_string(), op)) {
            Some(n) => *n += 1,
            None => drop(self.calls.insert((kind.to_string(), op), 1)),
        }
        let text = String::from_utf8_lossy(&line[..line.len().min(40)]);
        let mut words = text.split(' ');
        let first = words.next().unwrap_or("");
        let answer = match first {
            "refused" => format!("refused {}", words.next().unwrap_or("")),
            "label" if text.ends_with("-1") => "label -1".into(),
            "label" => "label of a family".into(),
            "drift" if text.starts_with("drift 0 ") => "drift without an alarm".into(),
            "drift" => "drift with alarms".into(),
            _ => first.to_string(),
        };
        *self.answers.entry((op, answer)).or_default() += 1;
    }

    fn print(&self) {
        let mut kinds: Vec<&String> = self.calls.keys().map(|(k, _)| k).collect();
        kinds.dedup();
        print!("{:<24}", "calls");
        for k in &kinds {
            print!(" {k:>10}");
        }
        println!("  answers");
        for op in (1..=14).chain([0]) {
            let answers: Vec<String> = self
                .answers
                .range((op, String::new())..)
                .take_while(|(k, _)| k.0 == op)
                .map(|(k, n)| format!("{} {n}", k.1))
                .collect();
            if answers.is_empty() {
                continue;
            }
            let name = if op == 0 { "malformed" } else { record::name(op) };
            print!("{op:>3} {name:<20}");
            for k in &kinds {
                print!(" {:>10}", self.calls.get(&(k.to_string(), op)).copied().unwrap_or(0));
            }
            println!("  {}", answers.join(", "));
        }
    }
}

fn fail(message: &str) -> ! {
    eprintln!("compare: {message}");
    std::process::exit(2);
}

/// The scripts that an argument names: its kind, its own name, and how to get it.
fn named(argument: &str) -> Vec<(String, String)> {
    if let Some((kind, seeds)) = argument.split_once(':') {
        let all = format!("0-{}", malformed().len() - 1);
        let seeds = if argument == "bad:all" { &all } else { seeds };
        let (from, to) = seeds.split_once('-').unwrap_or((seeds, seeds));
        if let (Ok(from), Ok(to)) = (from.parse::<u64>(), to.parse::<u64>()) {
            return (from..=to).map(|n| (kind.to_string(), format!("{kind}:{n}"))).collect();
        }
    }
    vec![("file".into(), argument.to_string())]
}

fn load(kind: &str, name: &str) -> Script {
    if kind == "file" {
        let bytes = std::fs::read(name).unwrap_or_else(|e| fail(&format!("{name}: {e}")));
        return Script::of_bytes(&bytes);
    }
    let seed = name.rsplit(':').next().and_then(|n| n.parse().ok()).expect("a name has its seed");
    script(kind, seed).unwrap_or_else(|| fail(&format!("no kind {kind}")))
}

fn report(programs: &[String; 2], name: &str, s: Script, d: Difference, budget: Duration, keep: &str) {
    println!("{name}: line {} differs", d.line + 1);
    for (p, said) in programs.iter().zip(parted(&d.said[0], &d.said[1])) {
        println!("    {p}: {said}");
    }
    let before = s.records.len();
    let mut shrink = Shrink { programs, until: Instant::now() + budget, tried: 0 };
    let mut small = cut_behind(s, d.line);
    small = shrink.drop_records(small);
    small = shrink.simplify(small);
    small = shrink.drop_records(small);
    println!("the smallest found, {} records of {before}, after {} runs:", small.records.len(), shrink.tried);
    show(programs, &small);
    let path = format!("{keep}/{}.bin", name.replace(['/', ':'], "-"));
    match std::fs::create_dir_all(keep).and_then(|()| std::fs::write(&path, small.bytes())) {
        Ok(()) => println!("stored: {path}"),
        Err(e) => println!("not stored: {path}: {e}"),
    }
}

fn main() {
    let mut args: Vec<String> = std::env::args().skip(1).collect();
    let mut budget = Duration::from_secs(60);
    let mut keep = "target/compare".to_string();
    while args.len() >= 2 && args[0].starts_with("--") {
        let value = args[1].clone();
        match args[0].as_str() {
            "--budget" => budget = Duration::from_secs(value.parse().unwrap_or_else(|_| fail(USAGE))),
            "--keep" => keep = value,
            _ => fail(USAGE),
        }
        args.drain(..2);
    }
    if args.len() < 3 {
        fail(USAGE);
    }
    let programs = [args[0].clone(), args[1].clone()];
    let mut counts = Counts::default();
    let start = Instant::now();
    let mut scripts = 0;
    for (kind, name) in args[2..].iter().flat_map(|a| named(a)) {
        let s = load(&kind, &name);
        scripts += 1;
        let d = difference(&programs, &s, |n, line| counts.add(&kind, s.records.get(n), line));
        if let Some(d) = d {
            report(&programs, &name, s, d, budget, &keep);
            println!("{} lines in {scripts} scripts compared before it", counts.lines);
            std::process::exit(1);
        }
    }
    counts.print();
    let seconds = start.elapsed().as_secs_f64();
    println!("{} lines in {scripts} scripts, 0 differences, {seconds:.1} s", counts.lines);
}
