//! One line of output: fields separated by one space.
use std::fmt::Write as _;

#[derive(Default)]
pub struct Line {
    text: String,
}

impl Line {
    pub fn text(&self) -> &str {
        &self.text
    }

    pub fn clear(&mut self) {
        self.text.clear();
    }

    fn space(&mut self) {
        if !self.text.is_empty() {
            self.text.push(' ');
        }
    }

    pub fn word(&mut self, w: &str) -> &mut Self {
        self.space();
        self.text.push_str(w);
        self
    }

    pub fn number(&mut self, n: u64) -> &mut Self {
        self.space();
        write!(self.text, "{n}").expect("a string takes all");
        self
    }

    pub fn label(&mut self, l: i64) -> &mut Self {
        self.space();
        write!(self.text, "{l}").expect("a string takes all");
        self
    }

    /// A time or a size: a whole double, in decimal.
    pub fn whole(&mut self, v: f64) -> &mut Self {
        assert!(v == v.trunc() && (0.0..9007199254740992.0).contains(&v), "{v} is no time or size");
        self.number(v as u64)
    }

    /// A double's bits as 16 hexadecimal digits; all NaNs are one.
    pub fn double(&mut self, v: f64) -> &mut Self {
        self.space();
        if v.is_nan() {
            self.text.push_str("nan");
        } else {
            write!(self.text, "{:016x}", v.to_bits()).expect("a string takes all");
        }
        self
    }
}
