//! What the rows are measured on: payloads, frames, streams and noise, the same in each run.
use crate::cases::Random;
use ironsight::addr::BusAddr;
use ironsight::frame::RawFrame;

/// The bytes of a pass, where a row names no other size: more than a first cache holds, less than a second.
pub const BYTES: usize = 1 << 18;

pub const SPECIAL: [u8; 4] = [0xF0, 0xF1, 0xFA, 0xFD];

pub fn plain(r: &mut Random) -> u8 {
    loop {
        let byte = r.next() as u8;
        if !SPECIAL.contains(&byte) {
            return byte;
        }
    }
}

pub fn special(r: &mut Random) -> u8 {
    SPECIAL[r.below(4)]
}

/// Payloads of a length, as many as make a pass, with so many special bytes in a hundred, anywhere.
pub fn payloads(r: &mut Random, len: usize, share: usize) -> Vec<Vec<u8>> {
    let mut byte = || if r.below(100) < share { special(r) } else { plain(r) };
    (0..BYTES / len.max(256)).map(|_| (0..len).map(|_| byte()).collect()).collect()
}

/// A frame's wire.
pub fn wire(payload: Vec<u8>) -> Vec<u8> {
    RawFrame { dest: BusAddr::App, src: BusAddr::Dsp, type_id: 0xD4, payload }.encode()
}

/// The wire of 0 to 299 random bytes, half of those from F0 on replaced.
fn usual(r: &mut Random) -> Vec<u8> {
    let mut payload: Vec<u8> = (0..r.below(300)).map(|_| r.next() as u8).collect();
    payload.iter_mut().for_each(|b| *b = if *b >= 0xF0 && r.below(2) == 0 { 0x55 } else { *b });
    wire(payload)
}

/// Such wires until they have so many bytes.
pub fn wires(r: &mut Random, bytes: usize) -> Vec<Vec<u8>> {
    let (mut list, mut total) = (Vec::new(), 0);
    while total < bytes {
        let wire = usual(r);
        total += wire.len();
        list.push(wire);
    }
    list
}

/// Such wires, the last one cut off: exactly so many bytes.
pub fn stream(r: &mut Random, bytes: usize) -> Vec<u8> {
    let mut stream = Vec::with_capacity(bytes + 1024);
    while stream.len() < bytes {
        stream.extend(usual(r));
    }
    stream.truncate(bytes);
    stream
}

/// Random bytes, markers among them.
pub fn noise(r: &mut Random, bytes: usize) -> Vec<u8> {
    (0..bytes).map(|_| r.next() as u8).collect()
}

/// Random bytes without a start.
pub fn no_start(r: &mut Random, bytes: usize) -> Vec<u8> {
    noise(r, bytes).into_iter().map(|b| if b == 0xF0 { 0x55 } else { b }).collect()
}
