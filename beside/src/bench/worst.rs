//! The worst inputs: streams that keep a splitter looking or calling, wires with an escape where it costs most.
//! Where the Rust looks from a frame's start again at each call, the stream is short.
use super::inputs::{self, BYTES};
use super::pairs::Table;
use super::sides::HOLD;
use super::streams::split;
use super::wires::Wires;
use crate::cases::Random;

/// A start, and bytes that end no frame.
fn no_end(r: &mut Random, bytes: usize) -> Vec<u8> {
    let mut stream: Vec<u8> = (0..bytes).map(|_| inputs::plain(r)).collect();
    stream[0] = 0xF0;
    stream
}

fn closed(r: &mut Random, bytes: usize) -> Vec<u8> {
    let mut wire = no_end(r, bytes);
    wire[bytes - 1] = 0xF1;
    wire
}

fn unclosed(r: &mut Random, table: &mut Table) {
    split(table, "split, all F0, 64 KiB", &[vec![0xF0; 1 << 16]], 512);
    split(table, "split, all F0, 256 KiB", &[vec![0xF0; BYTES]], 4_096);
    split(table, "split, one start with no end, 256 KiB", &[no_end(r, BYTES)], 4_096);
    split(table, "split, one start with no end, 16 KiB", &[no_end(r, 1 << 14)], 16);
    split(table, "split, one start with no end, 2 KiB, all held", &[no_end(r, HOLD)], 16);
}

fn many_calls(r: &mut Random, table: &mut Table) {
    split(table, "split, frames, 64 KiB", &[inputs::stream(r, 1 << 16)], 1);
    split(table, "split, noise without F0, 64 KiB", &[inputs::no_start(r, 1 << 16)], 1);
    split(table, "split, one start with no end, 2 KiB, all held", &[no_end(r, HOLD)], 1);
    split(table, "split, F0 F1 again and again, 64 KiB", &[[0xF0, 0xF1].repeat(1 << 15)], 512);
}

fn about_the_hold(r: &mut Random, table: &mut Table) {
    for (what, len) in [("H", HOLD), ("H + 1", HOLD + 1)] {
        let stream = [(0..BYTES / HOLD).flat_map(|_| closed(r, len)).collect()];
        for chunk in [512, 4_096] {
            split(table, &format!("split, frames of {what}, {len} bytes"), &stream, chunk);
        }
    }
}

/// Wires with FD 05 at the front of the interior or at its end: short ones, the longest that sixteen bits count, longer ones.
fn wrong_escapes(r: &mut Random, table: &mut Table) {
    for (what, len) in [("4 KiB", 1 << 12), ("64 KiB", 1 << 16), ("128 KiB", 1 << 17)] {
        let mut wires: Vec<Vec<u8>> = (0..BYTES / len).map(|_| closed(r, len)).collect();
        wires.iter_mut().for_each(|w| w[len - 3..len - 1].copy_from_slice(&[0xFD, 0x05]));
        let at_end = Wires::new(format!(", {what}, a wrong escape at the end"), wires.clone());
        wires.iter_mut().for_each(|w| w[1..3].copy_from_slice(&[0xFD, 0x05]));
        let at_front = Wires { what: format!(", {what}, a wrong escape at the front"), wires, bytes: 0 };
        for wires in [at_front, at_end] {
            wires.open(table);
            wires.copy_payload(table);
        }
    }
}

/// Fifteen plain bytes and a special one, again and again: what looks at sixteen at a time finds it at the last of them.
fn regular_escapes(r: &mut Random, table: &mut Table) {
    let mut payloads = inputs::payloads(r, 4_096, 0);
    payloads.iter_mut().flat_map(|p| p.iter_mut().skip(15).step_by(16)).for_each(|b| *b = inputs::special(r));
    let wires = Wires::new(", an escape in every sixteen bytes".into(), payloads.into_iter().map(inputs::wire).collect());
    wires.encode(table);
    wires.open(table);
    wires.copy_payload(table);
    wires.open_and_copy(table);
}

pub fn measure(table: &mut Table) {
    let mut r = Random::new(8);
    unclosed(&mut r, table);
    many_calls(&mut r, table);
    about_the_hold(&mut r, table);
    wrong_escapes(&mut r, table);
    regular_escapes(&mut r, table);
}
