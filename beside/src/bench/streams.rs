//! Whole streams: split, and split and parsed, each length; noise.
use super::inputs::{self, BYTES};
use super::pairs::{Row, Table};
use super::sides::{self, Lent, HOLD};
use crate::cases::Random;
use std::hint::black_box;

/// What the times of some streams are by: the frames found there, or the chunks where none is.
fn calls(streams: &[Vec<u8>], chunk: usize) -> usize {
    match streams.iter().map(|s| sides::rust_count(s, chunk)).sum() {
        0 => streams.iter().map(|s| s.len().div_ceil(chunk)).sum(),
        frames => frames,
    }
}

/// A row of streams, each from a fresh splitter on, and of what each side makes of a frame.
fn row(
    table: &mut Table,
    what: &str,
    (streams, chunk): (&[Vec<u8>], usize),
    mut rust: impl FnMut(&[u8]) -> usize,
    mut port: impl FnMut(&[u8]) -> usize,
) {
    let name = &format!("{what}, chunks of {chunk}");
    let bytes = streams.iter().map(Vec::len).sum();
    let mut hold = [0; HOLD];
    table.row(
        Row { name, calls: calls(streams, chunk), bytes },
        || streams.iter().map(|s| sides::rust_split(s, chunk, &mut rust)).sum(),
        || streams.iter().map(|s| sides::port_split(&mut hold, s, chunk, &mut port)).sum(),
    );
}

pub fn split(table: &mut Table, what: &str, streams: &[Vec<u8>], chunk: usize) {
    row(table, what, (streams, chunk), |f| black_box(f).len(), |f| black_box(f).len());
}

fn split_and_parse(table: &mut Table, what: &str, streams: &[Vec<u8>], chunk: usize) {
    let mut lent = Lent::new();
    row(table, what, (streams, chunk), sides::rust_parse, |f| lent.parse(f));
}

/// Of the short streams so many that a branch predictor does not know them by heart.
fn lengths(r: &mut Random, table: &mut Table) {
    for (what, bytes) in [("1 KiB", 1 << 10), ("64 KiB", 1 << 16), ("1 MiB", 1 << 20), ("64 MiB", 1 << 26)] {
        let streams: Vec<Vec<u8>> = (0..(BYTES / bytes).max(1)).map(|_| inputs::stream(r, bytes)).collect();
        split(table, &format!("split, streams of {what}"), &streams, 512);
        split_and_parse(table, &format!("split and parse, streams of {what}"), &streams, 512);
    }
}

pub fn measure(table: &mut Table) {
    let mut r = Random::new(8);
    lengths(&mut r, table);
    let (no_start, noise) = ([inputs::no_start(&mut r, BYTES)], [inputs::noise(&mut r, BYTES)]);
    for chunk in [4_096, 65_536] {
        split(table, "split, noise without F0", &no_start, chunk);
        split(table, "split, noise", &noise, chunk);
        split_and_parse(table, "split and parse, noise", &noise, chunk);
    }
}
