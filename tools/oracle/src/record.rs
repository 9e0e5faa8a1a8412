//! The records of docs/REPLAY.md: an operation, a count of at most 64, and that many operand words.
use std::fmt::Write as _;
use std::io::Read;

pub const MOST: u64 = 64;

pub const OPEN_DB: u64 = 1;
pub const OPEN_DEN: u64 = 2;
pub const INSERT: u64 = 3;
pub const CLUSTER: u64 = 4;
pub const LABELS: u64 = 5;
pub const PREDICT: u64 = 6;
pub const STATISTICS: u64 = 7;
pub const CONNECTIVITY: u64 = 8;
pub const DRIFT: u64 = 9;
pub const OPEN_WINDOW: u64 = 10;
pub const UPDATE: u64 = 11;
pub const WINDOW: u64 = 12;
pub const FIGURES: u64 = 13;
pub const COUNTS: u64 = 14;

/// An operation's name and, one letter an operand, what the operands are: `n` a whole number, `d` a double;
/// `*` is any number of doubles.
pub const OPERATIONS: [(&str, &str); 14] = [
    ("open DBSTREAM", "ndddd"),
    ("open DenStream", "ndddd"),
    ("insert", "*"),
    ("cluster", ""),
    ("labels", "n"),
    ("predict", "*"),
    ("statistics", "nnn"),
    ("connectivity", "nn"),
    ("drift", ""),
    ("open window", "d"),
    ("update", "d"),
    ("window", ""),
    ("every kept figure", ""),
    ("counts", ""),
];

fn operation(op: u64) -> Option<(&'static str, &'static str)> {
    OPERATIONS.get(usize::try_from(op).ok()?.checked_sub(1)?).copied()
}

pub fn name(op: u64) -> &'static str {
    operation(op).map_or("unknown", |o| o.0)
}

/// Does the operation take this many operands?
pub fn takes(op: u64, count: u64) -> bool {
    count <= MOST && operation(op).is_some_and(|(_, kinds)| kinds == "*" || kinds.len() as u64 == count)
}

#[derive(Clone, Debug, PartialEq, Eq)]
pub struct Record {
    pub op: u64,
    pub operands: Vec<u64>,
}

pub fn bits(v: f64) -> u64 {
    v.to_bits()
}

impl Record {
    pub fn new(op: u64, operands: &[u64]) -> Self {
        Self { op, operands: operands.to_vec() }
    }

    pub fn of_doubles(op: u64, operands: &[f64]) -> Self {
        Self { op, operands: operands.iter().map(|&v| bits(v)).collect() }
    }

    pub fn doubles(&self) -> Vec<f64> {
        self.operands.iter().map(|&w| f64::from_bits(w)).collect()
    }

    pub fn write(&self, bytes: &mut Vec<u8>) {
        bytes.extend(self.op.to_le_bytes());
        bytes.extend((self.operands.len() as u64).to_le_bytes());
        for w in &self.operands {
            bytes.extend(w.to_le_bytes());
        }
    }

    /// The operands that are doubles.
    pub fn is_double(&self, place: usize) -> bool {
        match operation(self.op) {
            Some((_, "*")) => true,
            Some((_, kinds)) => kinds.as_bytes().get(place) == Some(&b'd'),
            None => false,
        }
    }

    /// `insert 0.5 NaN`: doubles as the shortest decimal that reads back as the same double.
    pub fn readable(&self) -> String {
        let mut s = format!("{:>2} {}", self.op, name(self.op));
        for (i, &w) in self.operands.iter().enumerate() {
            if self.is_double(i) {
                write!(s, " {:?}", f64::from_bits(w)).expect("a string takes all");
            } else {
                write!(s, " {w}").expect("a string takes all");
            }
        }
        s
    }
}

pub enum Next {
    Record(Record),
    End,
    Bad,
}

/// Reads records until the input ends or a record is malformed.
pub struct Reader<R> {
    input: R,
}

impl<R: Read> Reader<R> {
    pub fn new(input: R) -> Self {
        Self { input }
    }

    /// The next 8 bytes; an error is how many there were instead.
    fn word(&mut self) -> Result<u64, usize> {
        let mut b = [0u8; 8];
        let mut got = 0;
        while got < 8 {
            match self.input.read(&mut b[got..]) {
                Ok(0) => return Err(got),
                Ok(n) => got += n,
                Err(e) if e.kind() == std::io::ErrorKind::Interrupted => {}
                Err(_) => return Err(got),
            }
        }
        Ok(u64::from_le_bytes(b))
    }

    pub fn next(&mut self) -> Next {
        let op = match self.word() {
            Ok(w) => w,
            Err(0) => return Next::End,
            Err(_) => return Next::Bad,
        };
        let Ok(count) = self.word() else { return Next::Bad };
        if !takes(op, count) {
            return Next::Bad;
        }
        let mut operands = Vec::with_capacity(count as usize);
        for _ in 0..count {
            let Ok(w) = self.word() else { return Next::Bad };
            operands.push(w);
        }
        Next::Record(Record { op, operands })
    }
}
