//! The operations by number, and what a case's two numbers mean for each.
//! What of a case both sides are offered alike is made here: the chunks of a stream, the frame that stands for a state.
use crate::answer::{Answer, Case};
use crate::noise::{self, Counts};
use std::array::from_fn;
use std::iter::once;

/// Readers at a place: a is the place, b the scale's bits for the scaled ones.
pub const READ_INT16: u8 = 0x01;
pub const READ_UINT16: u8 = 0x02;
pub const READ_INT24: u8 = 0x03;
pub const READ_UINT24: u8 = 0x04;
pub const READ_INT32: u8 = 0x05;
pub const READ_UINT32: u8 = 0x06;
pub const READ_FLOAT40: u8 = 0x07;
pub const READ_INT24_SCALED: u8 = 0x08;
pub const READ_INT16_SCALED: u8 = 0x09;
/// Writers at a place of the lent bytes: a is the place, b the value (its low bits, or a float's bits). 17 is handed a float,
/// 18 its bits.
pub const WRITE_INT16: u8 = 0x11;
pub const WRITE_UINT16: u8 = 0x12;
pub const WRITE_INT24: u8 = 0x13;
pub const WRITE_UINT24: u8 = 0x14;
pub const WRITE_INT32: u8 = 0x15;
pub const WRITE_UINT32: u8 = 0x16;
pub const WRITE_FLOAT40: u8 = 0x17;
pub const WRITE_FLOAT40_BITS: u8 = 0x18;
/// Opens a wire: the Rust's parse without the payload.
pub const OPEN: u8 = 0x20;
/// a is DEST, SRC and TYPE, b the lent wire buffer's length.
pub const ENCODE: u8 = 0x21;
/// a is H; b has the sizes of the chunks offered, four of 16 bits, in turn (see `sizes`).
pub const SPLIT: u8 = 0x22;
/// a is the count, b is H times 256 plus the mark: the bytes are a chunk, offered to that state, which took what it holds and no more.
pub const STATE: u8 = 0x23;
/// The Rust's parse without the header: a is the lent buffer's length.
pub const COPY_PAYLOAD: u8 = 0x24;
/// As `STATE`, but the state's counts stand before the chunk: five of 64 bits, little-endian.
pub const COUNTED: u8 = 0x25;
pub const FLIGHT_RESULT: u8 = 0x30;
pub const FLIGHT_RESULT_V1: u8 = 0x31;
pub const CLUB_RESULT: u8 = 0x32;
pub const SPIN_RESULT: u8 = 0x33;
pub const TRACKING_STATUS: u8 = 0x34;
/// a is the lent speed buffer's length.
pub const SPEED_PROFILE: u8 = 0x35;
pub const PRC_DATA: u8 = 0x36;
/// a is the index.
pub const PRC_POINT: u8 = 0x37;
pub const CLUB_PRC: u8 = 0x38;
/// a is the index.
pub const CLUB_PRC_POINT: u8 = 0x39;
/// b is the start index; the bytes are the lent buffer.
pub const ENCODE_REQUEST: u8 = 0x3A;
pub const SHOT_TEXT: u8 = 0x3B;
pub const IS_MODEL_FAILURE: u8 = 0x3C;
pub const IS_NO_READ: u8 = 0x3D;
/// Of D4 and of E8: a is the rule's number.
pub const IS_FAILED: u8 = 0x3E;
pub const IS_FAILED_V1: u8 = 0x3F;
/// a is the number, b the message.
pub const FIELD: u8 = 0x40;
/// a is the event number, b the lent buffer's length.
pub const BAY_LOG: u8 = 0x41;

/// Where a D4 payload has the total, the five figures that the log shows, and the backspin.
pub const TOTAL: usize = 1;
pub const SHOWN: [usize; 5] = [16, 19, 22, 25, 31];
pub const BACKSPIN: usize = 43;

/// Where a payload has what the league's rules ask: its speed, its flight time and its carry, for each call's least length.
pub const ASKED: [(u8, usize, [usize; 3]); 2] = [(IS_FAILED, 157, [16, 28, 25]), (IS_FAILED_V1, 94, [7, 10, 13])];

/// What a lent buffer holds before a call.
pub const UNTOUCHED: u8 = 0xA5;
pub const KEPT: f64 = -7.25;

/// The kind and the width of a reader at a place.
pub fn reader(op: u8) -> Option<(u64, u64)> {
    Some(match op {
        READ_INT16 | READ_INT16_SCALED => (1, 2),
        READ_UINT16 => (2, 2),
        READ_INT24 | READ_INT24_SCALED => (3, 3),
        READ_UINT24 => (4, 3),
        READ_INT32 => (5, 4),
        READ_UINT32 => (6, 4),
        READ_FLOAT40 => (7, 5),
        _ => return None,
    })
}

/// The sizes of the chunks in which a stream is offered: the four of b in turn, 64 each where b is 0; they cover the stream.
fn sizes(b: u64, len: usize) -> Vec<usize> {
    let turn = if b == 0 { [64; 4] } else { [48, 32, 16, 0].map(|shift| (b >> shift) as u16 as usize) };
    let mut at = 0;
    let covers = |&size: &usize| {
        let more = at < len;
        at += size;
        more
    };
    turn.into_iter().cycle().take_while(covers).collect()
}

/// A state, and the chunk that it is offered.
pub struct State<'a> {
    pub count: u64,
    pub hold: u64,
    pub mark: u8,
    pub counts: Counts,
    pub chunk: &'a [u8],
}

impl<'a> State<'a> {
    pub fn of(c: &'a Case) -> Self {
        let (counts, chunk) = match c.data.split_first_chunk::<40>() {
            Some((bytes, chunk)) if c.op == COUNTED => {
                (from_fn(|k| u64::from_le_bytes(bytes[8 * k..][..8].try_into().expect("eight bytes"))), chunk)
            }
            _ => ([c.a, 0, 0, 0, c.a], &c.data[..]),
        };
        Self { count: c.a, hold: c.b >> 8, mark: c.b as u8, counts, chunk }
    }
}

/// What a splitter is offered.
pub struct Offered<'a> {
    pub hold: usize,
    /// The counts at the start.
    counts: Counts,
    /// Stands for the state at the start, on a side that has no state to give: an open frame that is held, or one above H.
    pub open: Vec<u8>,
    pub chunks: Vec<&'a [u8]>,
}

impl<'a> Offered<'a> {
    /// A split's stream, or a state's chunk; the refusal's number for a state that is refused.
    pub fn of(c: &'a Case) -> Result<Self, u64> {
        if c.op == SPLIT {
            let mut rest = &c.data[..];
            let mut next = |size: usize| {
                let (chunk, after) = rest.split_at(size.min(rest.len()));
                rest = after;
                chunk
            };
            let chunks = sizes(c.b, c.data.len()).into_iter().map(&mut next).collect();
            return Ok(Self { hold: c.a as usize, counts: [0; 5], open: Vec::new(), chunks });
        }
        let s = State::of(c);
        if let Some(number) = noise::refusal(&s) {
            return Err(number);
        }
        let len = if s.mark == 0 { s.count } else { s.hold + 1 };
        let mut open = vec![UNTOUCHED; len as usize];
        if let Some(first) = open.first_mut() {
            *first = 0xF0;
        }
        Ok(Self { hold: s.hold as usize, counts: s.counts, open, chunks: vec![s.chunk] })
    }

    /// The refusal, or what a side that is fed the frames answers.
    pub fn answered(c: &Case, split: fn(&Offered) -> Answer) -> Answer {
        Offered::of(c).map_or_else(|number| Answer::refused(number, &[]), |offered| split(&offered))
    }

    pub fn all(&self) -> impl Iterator<Item = &[u8]> {
        once(&self.open[..]).chain(self.chunks.iter().copied())
    }

    /// The counts at the end: those at the start, and what a side that started fresh counted since it was fed the open frame.
    pub fn counted(&self, opened: Counts, ended: Counts) -> impl Iterator<Item = i128> + '_ {
        (0..5).map(move |k| i128::from(self.counts[k]) + i128::from(ended[k]) - i128::from(opened[k]))
    }

    /// The answer with the bytes that were held at the start as the hold buffer has them, where it shows them: they are those
    /// of the first frame told, or of the one that is still held.
    pub fn as_held(&self, mut answer: Answer) -> Answer {
        let held = self.open.len();
        if answer.whole[0] >= held as i128 {
            answer.bytes[..held].fill(UNTOUCHED);
        }
        answer
    }
}

type Fields = Vec<Result<i64, f64>>;

fn by_number(answer: &Answer, counts: &[usize], numbers: usize, skip: usize) -> Fields {
    let mut whole = answer.whole.iter().skip(skip).map(|&n| n as i64);
    let mut figures = answer.figures.iter().map(|&x| f64::from_bits(x));
    (0..numbers)
        .map(|n| if counts.contains(&n) { Ok(whole.next().unwrap()) } else { Err(figures.next().unwrap()) })
        .collect()
}

pub fn flight_fields(a: &Answer) -> Fields {
    by_number(a, &[0, 14, 15, 16, 17, 18, 19, 36], 52, 0)
}

pub fn flight_v1_fields(a: &Answer) -> Fields {
    by_number(a, &[0, 11, 12, 15], 31, 0)
}

/// ED's first whole number is byte 1, which has no number.
pub fn club_fields(a: &Answer) -> Fields {
    by_number(a, &[0, 15], 55, 1)
}
