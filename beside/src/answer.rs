//! A case, and an answer in document 01's words: what both sides are turned into before they are compared.
use std::fmt::Write;

/// An operation, two numbers for it (a place, a length, a value's bits ..) and its bytes.
#[derive(Clone, Debug, PartialEq)]
pub struct Case {
    pub op: u8,
    pub a: u64,
    pub b: u64,
    pub data: Vec<u8>,
}

/// The refusal's number or 0, whole numbers (a refusal's values among them), floats by their bits, and every lent byte at exit.
#[derive(Clone, Debug, Default, PartialEq)]
pub struct Answer {
    pub refusal: u64,
    pub whole: Vec<i128>,
    pub figures: Vec<u64>,
    pub bytes: Vec<u8>,
}

/// A NaN is any NaN: the port passes none through as bits, and document 01 names no payload.
pub fn bits(x: f64) -> u64 {
    if x.is_nan() { 0x7FF8_0000_0000_0000 } else { x.to_bits() }
}

pub fn hex(bytes: &[u8]) -> String {
    bytes.iter().fold(String::new(), |mut s, b| {
        write!(s, "{b:02x}").unwrap();
        s
    })
}

impl Case {
    /// One line: the operation, the two numbers and the bytes, all in hex.
    pub fn line(&self) -> String {
        format!("{:02x}{:016x}{:016x}{}", self.op, self.a, self.b, hex(&self.data))
    }
}

impl Answer {
    pub fn refused(refusal: u64, values: &[u64]) -> Self {
        Self { refusal, whole: values.iter().map(|&v| v as i128).collect(), ..Self::default() }
    }

    /// One line: whole numbers in decimal, floats as sixteen hex digits, bytes as hex behind a colon.
    pub fn line(&self) -> String {
        let mut s = self.refusal.to_string();
        self.whole.iter().for_each(|n| write!(s, " {n}").unwrap());
        self.figures.iter().for_each(|x| write!(s, " {x:016x}").unwrap());
        write!(s, " :{}", hex(&self.bytes)).unwrap();
        s
    }
}
