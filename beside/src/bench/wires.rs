//! A wire opened, its payload copied, a frame encoded: usual frames, each share of special bytes, each length.
use super::inputs::{self, BYTES};
use super::pairs::{Row, Table};
use super::sides::{self, Lent};
use super::streams;
use crate::cases::Random;
use ironsight::frame::RawFrame;

/// Wires, what a row's name says of them, and how many bytes they have, or 0 where they are not read to their ends.
pub struct Wires {
    pub what: String,
    pub wires: Vec<Vec<u8>>,
    pub bytes: usize,
}

impl Wires {
    pub fn new(what: String, wires: Vec<Vec<u8>>) -> Self {
        let bytes = wires.iter().map(Vec::len).sum();
        Self { what, wires, bytes }
    }

    fn row(&self, table: &mut Table, name: &str, rust: impl FnMut() -> usize, port: impl FnMut() -> usize) {
        let name = &format!("{name}{}", self.what);
        table.row(Row { name, calls: self.wires.len(), bytes: self.bytes }, rust, port);
    }

    fn parse_row(&self, table: &mut Table, name: &str, mut port: impl FnMut(&[u8]) -> usize) {
        let rust = || self.wires.iter().map(|w| sides::rust_parse(w)).sum();
        self.row(table, name, rust, || self.wires.iter().map(|w| port(w)).sum());
    }

    pub fn open(&self, table: &mut Table) {
        let mut lent = Lent::new();
        self.parse_row(table, "open (Rust: parse)", |w| lent.open(w));
    }

    pub fn copy_payload(&self, table: &mut Table) {
        let mut lent = Lent::new();
        self.parse_row(table, "copy_payload (Rust: parse)", |w| lent.copy_payload(w));
    }

    pub fn open_and_copy(&self, table: &mut Table) {
        let mut lent = Lent::new();
        self.parse_row(table, "open, then copy_payload (Rust: parse)", |w| lent.parse(w));
    }

    /// The frames of these wires, encoded.
    pub fn encode(&self, table: &mut Table) {
        let frames: Vec<RawFrame> = self.wires.iter().map(|w| RawFrame::parse(w).unwrap()).collect();
        let mut lent = Lent::new();
        let rust = || frames.iter().map(sides::rust_encode).sum();
        self.row(table, "encode", rust, || frames.iter().map(|f| lent.encode(f)).sum());
    }
}

/// Payloads of some length and share of special bytes.
fn of_payloads(what: String, len: usize, share: usize) -> Wires {
    let payloads = inputs::payloads(&mut Random::new(8), len, share);
    Wires::new(what, payloads.into_iter().map(inputs::wire).collect())
}

/// The usual frames, split and each for itself.
pub fn frames(table: &mut Table) {
    let wires = inputs::wires(&mut Random::new(8), BYTES);
    for chunk in [16, 64, 512, 4_096, 65_536] {
        streams::split(table, "split", &[wires.concat()], chunk);
    }
    let wires = Wires::new(String::new(), wires);
    wires.open(table);
    wires.copy_payload(table);
    wires.open_and_copy(table);
    wires.encode(table);
}

/// Payloads of 4096 bytes with each share of special ones.
pub fn specials(table: &mut Table) {
    for share in [0, 1, 5, 10, 50, 100] {
        let wires = of_payloads(format!(", {share} % special"), 4_096, share);
        wires.encode(table);
        wires.open(table);
        wires.copy_payload(table);
        wires.open_and_copy(table);
    }
}

/// Payloads of each length, 1 % of their bytes special.
pub fn sizes(table: &mut Table) {
    for len in [0, 16, 64, 157, 512, 4_096, 65_535] {
        let wires = of_payloads(format!(", {len} bytes"), len, 1);
        wires.encode(table);
        wires.copy_payload(table);
        wires.open_and_copy(table);
    }
}
