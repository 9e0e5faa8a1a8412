//! scripts KIND SEED > FILE: writes the script of that kind and seed for `replay` and the oracle.
//! scripts --show < FILE: prints a script, one record a line.
//!
//! Kinds: window (operations 10 to 12), db and den (sessions of one stream), mix (both and a window), bad (malformed
//! records: seed n ends with case n of all).
use oracle::scripts::{KINDS, Script, script};
use std::io::{Read, Write};

fn main() -> std::io::Result<()> {
    let args: Vec<String> = std::env::args().skip(1).collect();
    match args.iter().map(|s| s.as_str()).collect::<Vec<_>>()[..] {
        ["--show"] => {
            let mut bytes = vec![];
            std::io::stdin().read_to_end(&mut bytes)?;
            let s = Script::of_bytes(&bytes);
            let mut out = std::io::BufWriter::new(std::io::stdout().lock());
            for r in &s.records {
                writeln!(out, "{}", r.readable())?;
            }
            if !s.tail.is_empty() {
                writeln!(out, "and {} bytes that are no record: {:02x?}", s.tail.len(), s.tail)?;
            }
            out.flush()
        }
        [kind, seed] => match seed.parse().ok().and_then(|n| script(kind, n)) {
            Some(s) => std::io::stdout().write_all(&s.bytes()),
            None => usage(),
        },
        _ => usage(),
    }
}

fn usage() -> ! {
    eprintln!("usage: scripts KIND SEED > FILE, KIND one of {}; scripts --show < FILE", KINDS.join(", "));
    std::process::exit(2);
}
