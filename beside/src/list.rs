//! The fixed list: a sample of the Rust's answers that the program crate `cases` replays with no Rust at hand, a cut escape told as
//! the port's. Made anew it is the same, byte for byte.
use crate::answer::Case;
use crate::cases::{self, Random};
use crate::{counted, ops, wanted};
use std::{fs, io};

const SEED: u64 = 1;
const CASES: usize = 2_000;

fn case(op: u8, a: u64, b: u64, data: &[u8]) -> Case {
    Case { op, a, b, data: data.to_vec() }
}

/// NaNs of both signs: quiet ones, signalling ones, those with the least and the greatest fraction.
const NANS: [u64; 8] = [
    0x7FF8_0000_0000_0000,
    0xFFF8_0000_0000_0000,
    0x7FF4_0000_0000_0000,
    0xFFF4_0000_0000_0000,
    0x7FF0_0000_0000_0001,
    0xFFF0_0000_0000_0001,
    0x7FFF_FFFF_FFFF_FFFF,
    0xFFFF_FFFF_FFFF_FFFF,
];

/// Document 01's worked examples, NaNs to write, texts, interiors that end in FD or FD 00, and the boundaries.
fn named(r: &mut Random) -> Vec<Case> {
    let wires: [&[u8]; 7] = [
        &[0xF0, 0x40, 0x10, 0x01, 0x00, 0x51, 0xF1],
        &[0xF0, 0x40, 0x10, 0x01, 0xFD, 0x01, 0x01, 0x4F, 0xF1],
        &[0xF0, 0x40, 0x10, 0x01, 0x9F, 0x00, 0xFD, 0x01, 0xF1],
        &[0xF0, 0x40, 0x10, 0x01, 0xFA, 0x01, 0x4B, 0xF1],
        &[0xF0, 0x40, 0x10, 0x01, 0xFD, 0x04, 0x01, 0x52, 0xF1],
        &[0xF0, 0x40, 0x10, 0x01, 0x00, 0xFD, 0xF1],
        &[0xF0, 0xFD, 0x01, 0x40, 0x10, 0x01, 0xF1],
    ];
    let mut list: Vec<Case> = wires.iter().flat_map(|w| cases::wire_cases(4, w)).collect();
    for front in [&[0xF0, 0x40, 0x10][..], &[0xF0, 0x40, 0x10, 0x01, 0x00, 0x51]] {
        list.extend(cases::ENDINGS.iter().flat_map(|ending| cases::wire_cases(4, &[front, ending, &[0xF1]].concat())));
    }
    for payload in [&[][..], &[0xF0], &[0x9F], &[0xFA], &[0xFF; 257]] {
        list.push(case(ops::ENCODE, 0x40_1001, 300, payload));
    }
    let floats: [[u8; 5]; 5] =
        [[0, 1, 0x40, 0, 0], [0, 0, 0xC0, 0, 0], [0x7F, 0xFF, 0, 0, 0], [0xFB, 0xE5, 0x40, 0, 0], [0xFB, 0xE4, 0x40, 0, 0]];
    list.extend(floats.iter().map(|f| case(ops::READ_FLOAT40, 0, 0, f)));
    list.push(case(ops::WRITE_FLOAT40, 0, (-0.5f64).to_bits(), &[0; 5]));
    for nan in NANS {
        list.extend([ops::WRITE_FLOAT40, ops::WRITE_FLOAT40_BITS].map(|op| case(op, 0, nan, &[ops::UNTOUCHED; 5])));
    }
    for (op, least, scale) in [(ops::FLIGHT_RESULT, 157, 109), (ops::FLIGHT_RESULT_V1, 94, 46), (ops::CLUB_RESULT, 167, 47)] {
        for len in [least - 1, least] {
            let mut data = r.bytes(len);
            data[scale..scale + 6].copy_from_slice(&[0xFF, 0xFF, 0xFE, 0, 0, 8]);
            list.push(case(op, 0, 0, &data));
        }
    }
    for (op, least) in [(ops::SPIN_RESULT, 138), (ops::TRACKING_STATUS, 82), (ops::SPEED_PROFILE, 12), (ops::PRC_DATA, 4)] {
        list.extend([least - 1, least].map(|len| case(op, 4, 0, &r.bytes(len))));
    }
    let texts: [&[u8]; 8] =
        [b"", b"\0\n\x1F", b"PROCESSED", b"\0\nPROCESSED\n", b"\x1F IDLE ", b"\nBALL\0TRIGGER", b"\tBALL TRIGGER\x7F", b"\0\xFFIDLE\xFF\0"];
    list.extend(texts.map(|text| case(ops::SHOT_TEXT, 0, 0, text)));
    list
}

/// Each field kind at both ends of its range, with its bytes short by one, exact, and at a place.
fn edges() -> Vec<Case> {
    let mut list = Vec::new();
    for (op, width) in [(1, 2), (2, 2), (3, 3), (4, 3), (5, 4), (6, 4), (7, 5), (8, 3), (9, 2)] {
        let scale = 1000f64.to_bits();
        for first in [0x00, 0x7F, 0x80, 0xFF] {
            for rest in [0x00, 0xFF] {
                let mut data = vec![rest; width];
                data[0] = first;
                list.push(case(op, 0, scale, &data));
            }
        }
        list.extend([0, 1, 2, u64::MAX - width as u64, u64::MAX].map(|at| case(op, at, scale, &vec![0x5A; width + 1])));
        list.push(case(op, 0, scale, &vec![0x5A; width - 1]));
    }
    for (op, width) in [(0x11, 2), (0x12, 2), (0x13, 3), (0x14, 3), (0x15, 4), (0x16, 4), (0x17, 5), (0x18, 5)] {
        for value in [0, 1, u64::MAX, 0x7FFF, 0x8000, 0x7F_FFFF, 0x80_0000, 0x7FFF_FFFF, 0x8000_0000, 0x7FF0_0000_0000_0000] {
            list.push(case(op, 1, value, &vec![ops::UNTOUCHED; width + 2]));
        }
        list.extend([2, u64::MAX - 1].map(|at| case(op, at, 1, &vec![ops::UNTOUCHED; width + 1])));
    }
    list
}

/// The limits that document 01 adds: room, H, an index, a number, a state.
fn limits(r: &mut Random) -> Vec<Case> {
    let wire = [0xF0, 0x40, 0x10, 0x01, 0x07, 0x08, 0x00, 0x60, 0xF1];
    let mut list: Vec<Case> = [1, 2, 3].map(|room| case(ops::COPY_PAYLOAD, room, 0, &wire)).to_vec();
    // no room either, but the address, the checksum or the escape is told first
    list.push(case(ops::COPY_PAYLOAD, 1, 0, &[0xF0, 0x41, 0x10, 0x01, 0x07, 0x08, 0x00, 0x61, 0xF1]));
    list.push(case(ops::COPY_PAYLOAD, 1, 0, &[0xF0, 0x40, 0x10, 0x01, 0x07, 0x08, 0x00, 0x61, 0xF1]));
    list.push(case(ops::COPY_PAYLOAD, 1, 0, &[0xF0, 0x40, 0x10, 0x01, 0x07, 0x08, 0xFD, 0x05, 0x00, 0x60, 0xF1]));
    list.extend([8, 9, 10].map(|room| case(ops::ENCODE, 0x40_1001, room, &[7, 8])));
    list.extend([0x41_1001, 0x40_1101, 0x41_1101].map(|fields| case(ops::ENCODE, fields, 20, &[])));
    list.extend([0, 8, 9, 10].map(|room| case(ops::SPLIT, room, 0x0002_0003_0000_0009, &[&wire[..], &wire[..4], &wire].concat())));
    list.extend(states());
    list.extend(long_splits(r));
    for (message, least, numbers) in [(0xD4, 157, 52), (0xE8, 94, 31), (0xED, 167, 55)] {
        list.extend([0, numbers - 1, numbers, u64::MAX].map(|n| case(ops::FIELD, n, message, &r.bytes(least))));
        list.push(case(ops::FIELD, 0, message, &r.bytes(least - 1)));
    }
    list.extend([0x00, 0xD5, 0xFF].map(|message| case(ops::FIELD, 0, message, &[])));
    for len in [156, 157] {
        list.extend([31, 32, 33].map(|room| case(ops::BAY_LOG, 0xDEAD_BEEF, room, &r.bytes(len))));
    }
    list.extend([76, 77, 78].map(|room| case(ops::ENCODE_REQUEST, 0, 0xBEEF, &vec![ops::UNTOUCHED; room])));
    list.extend([0, 1, 2, 3].map(|room| case(ops::SPEED_PROFILE, room, 0, &r.bytes(16))));
    let mut points = r.bytes(229);
    points[0] = 228;
    list.extend([0, 2, 3].map(|index| case(ops::CLUB_PRC_POINT, index, 0, &points)));
    points[0] = 183;
    points[3] = 3;
    list.extend([0, 2, 3].map(|index| case(ops::PRC_POINT, index, 0, &points)));
    list
}

/// States that a call gives and that none gives, each offered nothing, a frame's end, and more: what is held, completed, too long
/// or skipped.
fn states() -> Vec<Case> {
    let chunks: [&[u8]; 5] = [&[], &[0xF1], &[0x07, 0xF1, 0xF0, 0x08], &[0x07, 0x08, 0x09, 0xF1, 0xF0, 0xF1], &[0x00, 0xF0]];
    let mut list = Vec::new();
    for (count, hold, mark) in [(0, 3, 0), (1, 3, 0), (2, 3, 0), (3, 3, 0), (0, 3, 1), (0, 0, 0), (0, 0, 1)] {
        list.extend(chunks.map(|chunk| cases::state(count, hold, mark, chunk.to_vec())));
    }
    let bad = [(4, 3, 0), (1, 0, 0), (u64::MAX, 3, 0), (1, 3, 1), (3, 3, 1), (0, 3, 2), (0, 3, 255), (1, 3, 2), (0, 0, 255)];
    for (count, hold, mark) in bad {
        list.extend([chunks[0], chunks[2]].map(|chunk| cases::state(count, hold, mark, chunk.to_vec())));
    }
    list
}

/// Frames of some hundred bytes, in chunks of more than 255, with an H about the longest.
fn long_splits(r: &mut Random) -> Vec<Case> {
    let frame = |len: usize| [&[0xF0][..], &vec![0x42; len - 2], &[0xF1]].concat();
    let stream = [&frame(300)[..], &r.bytes(5), &frame(1_023), &frame(1_024), &[0xF1], &frame(1_025), &frame(600)[..599]].concat();
    [0, 300, 1_023, 1_024].into_iter().flat_map(|room| CUTS.map(|cuts| case(ops::SPLIT, room, cuts, &stream))).collect()
}

/// Chunk sizes that show a 16-bit size read as fewer bits, or out of turn.
const CUTS: [u64; 3] = [0x0100_0000_0001_0401, 0x0FFF_0001_0000_0203, 0x0000_0101_0000_0400];

/// Request 5's figures, five to a record of the log.
fn shown() -> Vec<Case> {
    [[1_250, -1_250, 1_249, -1_249, 0], [49, 50, -50, 8_388_607, -8_388_608]].map(cases::logged).to_vec()
}

/// Request 7: what decides each rule, among figures that are all below zero; numbers that are no rule's; a payload that is short.
fn failed() -> Vec<Case> {
    let mut list = Vec::new();
    for (op, least, places) in ops::ASKED {
        for rule in [1, 2] {
            for figures in [[1, 1, 0], [0, 1, 0], [-1, 1, 0], [1, 0, 0], [1, -1, 0], [1, 1, -1], [1, 1, 1]] {
                list.push(cases::failed(op, rule, places, figures, vec![0xFF; least]));
            }
            list.push(case(op, rule, 0, &vec![0; least - 1]));
        }
        list.extend(cases::NUMBERS[2..].iter().map(|&rule| case(op, rule, 0, &vec![0; least])));
        list.push(case(op, 3, 0, &[]));
    }
    list
}

/// Request 6: counts that balance, and go on; each off by one; held beside another count; sums that balance in 64 bits alone.
fn balances() -> Vec<Case> {
    let chunk = [0x07, 0xF1, 0x09, 0xF0, 0x08];
    let sound = [20, 3, 10, 5, 2];
    let mut list = [3, 4].map(|hold| counted::state(2, hold, 0, sound, &chunk)).to_vec();
    for k in 0..5 {
        list.extend([sound[k] - 1, sound[k] + 1].map(|n| {
            let mut counts = sound;
            counts[k] = n;
            counted::state(2, 4, 0, counts, &chunk)
        }));
    }
    for (count, counts) in [(1, sound), (3, sound), (2, [20, 4, 10, 5, 1]), (2, [20, 5, 10, 5, 0]), (0, [2, 0, 0, 0, 2])] {
        list.push(counted::state(count, 4, 0, counts, &chunk));
    }
    let (half, most) = (1 << 63, u64::MAX);
    for counts in [[0, half, 0, half, 0], [1, half, half, 1, 0], [19, most, 20, 0, 0], [0, 0, 1, most, 0], [most, most, most, 1, 0]] {
        list.extend([&[][..], &chunk].map(|chunk| counted::state(0, 4, 0, counts, chunk)));
    }
    // a mark needs nothing lost
    for counts in [[0; 5], [7, 3, 4, 0, 0], [7, 0, 0, 7, 0]] {
        list.extend([&[][..], &chunk].map(|chunk| counted::state(0, 4, 1, counts, chunk)));
    }
    list
}

/// Request 6: what can be counted just so, and what passes the largest number by one; a bad state is told before that.
fn nearly_full() -> Vec<Case> {
    let (chunk, most) = ([0xF0, 0x07, 0x08, 0x09, 0xF1], u64::MAX);
    let mut list = Vec::new();
    for taken in [most - 6, most - 5, most - 4, most] {
        for counts in [[taken, taken, 0, 0, 0], [taken, 0, taken, 0, 0], [taken, 0, 0, taken, 0]] {
            list.extend([4, 5].map(|hold| counted::state(0, hold, 0, counts, &chunk)));
        }
        list.push(counted::state(2, 7, 0, [taken, 1, 2, taken - 5, 2], &chunk));
        list.push(counted::state(0, 7, 1, [taken, 1, 2, taken - 3, 0], &chunk));
    }
    for counts in [[most, most, 0, 0, 0], [most - 1, 0, most - 1, 0, 0]] {
        list.extend([&[][..], &chunk[..1], &chunk[1..2]].map(|chunk| counted::state(0, 4, 0, counts, chunk)));
    }
    for (count, mark, counts) in [
        (0, 0, [most, most - 1, 0, 0, 0]),
        (0, 0, [most, most, 0, 1, 0]),
        (0, 2, [most, most, 0, 0, 0]),
        (1, 1, [most, most - 1, 0, 0, 1]),
        (5, 0, [most, most - 5, 0, 0, 5]),
        (0, 0, [most, most - 1, 0, 0, 1]),
    ] {
        list.push(counted::state(count, 4, mark, counts, &chunk));
    }
    list
}

/// What the program has room for: bytes, and the buffer that a case lends.
fn fits(c: &Case) -> bool {
    let lent = match c.op {
        ops::COPY_PAYLOAD | ops::SPLIT => c.a,
        ops::ENCODE | ops::BAY_LOG => c.b,
        ops::STATE | ops::COUNTED => c.b >> 8,
        ops::SPEED_PROFILE => c.a * 16,
        _ => 0,
    };
    c.data.len() <= 4_096 && lent <= 1_024
}

/// A thin sample of the bounded cases: every one whose number is a multiple of a step.
fn sampled(r: &mut Random) -> Vec<Case> {
    let mut list = Vec::new();
    let mut n = 0u32;
    cases::bounded(r, |c| {
        n += 1;
        if n.is_multiple_of(3_001) {
            list.push(c);
        }
    });
    list
}

pub fn write(dir: &str) -> io::Result<()> {
    let mut r = Random::new(SEED);
    let mut list = named(&mut r);
    list.extend(edges());
    list.extend(limits(&mut r));
    list.extend(shown());
    list.extend(failed());
    list.extend(balances());
    list.extend(nearly_full());
    list.extend(sampled(&mut r));
    while list.len() < CASES {
        let c = cases::random(&mut r);
        if fits(&c) {
            list.push(c);
        }
    }
    let text = |f: &dyn Fn(&Case) -> String| list.iter().map(|c| f(c) + "\n").collect::<String>();
    fs::write(format!("{dir}/stdin"), text(&|c| c.line()))?;
    fs::write(format!("{dir}/stdout"), text(&|c| wanted(c).line()))?;
    println!("{} cases", list.len());
    Ok(())
}
