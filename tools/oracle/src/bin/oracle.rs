//! oracle [--spoil]: reads records from standard input and prints one line each, as docs/REPLAY.md says.
//!
//! --spoil is for the comparison's self-check: a copy that is wrong by one ulp once three micro-clusters are held.
use oracle::machine::Machine;
use oracle::record::{Next, Reader};
use oracle::text::Line;
use std::io::{BufReader, BufWriter, Write};

fn main() -> std::io::Result<()> {
    let mut machine = Machine::new();
    for a in std::env::args().skip(1) {
        if a != "--spoil" {
            eprintln!("usage: oracle [--spoil] < SCRIPT");
            std::process::exit(2);
        }
        machine.spoiled = true;
    }
    let mut reader = Reader::new(BufReader::with_capacity(1 << 16, std::io::stdin().lock()));
    let mut out = BufWriter::with_capacity(1 << 16, std::io::stdout().lock());
    let mut line = Line::default();
    loop {
        line.clear();
        match reader.next() {
            Next::End => break,
            Next::Bad => {
                writeln!(out, "bad")?;
                break;
            }
            Next::Record(r) => machine.answer(&r, &mut line),
        }
        writeln!(out, "{}", line.text())?;
    }
    out.flush()
}
