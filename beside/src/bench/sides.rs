//! Both sides of each operation on frames and streams: the Rust's own functions, and the exported calls as a host in C makes them.
//! An answer is a length, so that the two sides can be held to each other and none is optimised away.
use ironsight::frame::{FrameSplitter, RawFrame};
use movaleduft::c;
use std::hint::black_box;

/// H, the room of the port's hold buffer.
pub const HOLD: usize = 2048;

/// The room for a payload of any length, and for its wire where each byte is special.
const ROOM: usize = 2 * (65_535 + 5) + 2;

/// The answer where a wire is refused.
const REFUSED: usize = 1 << 32;

pub fn rust_parse(wire: &[u8]) -> usize {
    black_box(RawFrame::parse(black_box(wire))).map_or(REFUSED, |f| f.payload.len())
}

pub fn rust_encode(frame: &RawFrame) -> usize {
    black_box(black_box(frame).encode()).len()
}

/// The sum of what is answered to each frame of a stream; those above H are found, and left alone.
pub fn rust_split(stream: &[u8], chunk: usize, mut take: impl FnMut(&[u8]) -> usize) -> usize {
    let (mut splitter, mut sum) = (FrameSplitter::new(), 0);
    for part in black_box(stream).chunks(chunk) {
        for frame in splitter.feed(part) {
            sum += if frame.len() <= HOLD { take(&frame) } else { 0 };
        }
    }
    sum
}

/// How many frames the Rust finds, of any length.
pub fn rust_count(stream: &[u8], chunk: usize) -> usize {
    let mut splitter = FrameSplitter::new();
    stream.chunks(chunk).map(|part| splitter.feed(part).len()).sum()
}

/// What the port's calls on wires are lent.
pub struct Lent {
    buf: Vec<u8>,
    header: [u64; 4],
    len: usize,
    values: [u64; 3],
}

impl Lent {
    pub fn new() -> Self {
        Self { buf: vec![0; ROOM], header: [0; 4], len: 0, values: [0; 3] }
    }

    pub fn open(&mut self, wire: &[u8]) -> usize {
        match unsafe { c::mvd_open(wire.as_ptr(), wire.len(), self.header.as_mut_ptr(), self.values.as_mut_ptr()) } {
            0 => self.header[3] as usize,
            _ => REFUSED,
        }
    }

    pub fn copy_payload(&mut self, wire: &[u8]) -> usize {
        let (buf, room, values) = (self.buf.as_mut_ptr(), self.buf.len(), self.values.as_mut_ptr());
        match unsafe { c::mvd_copy_payload(wire.as_ptr(), wire.len(), buf, room, &mut self.len, values) } {
            0 => self.len,
            _ => REFUSED,
        }
    }

    /// Opened, and copied where that is not refused.
    pub fn parse(&mut self, wire: &[u8]) -> usize {
        match self.open(wire) {
            REFUSED => REFUSED,
            _ => self.copy_payload(wire),
        }
    }

    pub fn encode(&mut self, frame: &RawFrame) -> usize {
        let (dest, src, payload) = (frame.dest.as_byte(), frame.src.as_byte(), &frame.payload);
        let (wire, room, values) = (self.buf.as_mut_ptr(), self.buf.len(), self.values.as_mut_ptr());
        match unsafe { c::mvd_encode(dest, src, frame.type_id, payload.as_ptr(), payload.len(), wire, room, &mut self.len, values) } {
            0 => self.len,
            _ => REFUSED,
        }
    }
}

/// The sum of what is answered to each frame of a stream.
pub fn port_split(hold: &mut [u8; HOLD], stream: &[u8], chunk: usize, mut take: impl FnMut(&[u8]) -> usize) -> usize {
    let (mut splitter, mut fed, mut values, mut sum) = ([0u64; 7], [0u64; 5], [0u64; 3], 0);
    for part in stream.chunks(chunk) {
        let mut rest = part;
        while !rest.is_empty() {
            let refusal = unsafe {
                let (s, h, f, v) = (splitter.as_mut_ptr(), hold.as_mut_ptr(), fed.as_mut_ptr(), values.as_mut_ptr());
                c::mvd_feed(s, h, HOLD, rest.as_ptr(), rest.len(), f, v)
            };
            assert_eq!(refusal, 0, "a state that feed gave was refused");
            let [event, taken, in_hold, start, len] = fed.map(|n| n as usize);
            if event == 1 {
                sum += take(&(if in_hold == 1 { &hold[..] } else { rest })[start..start + len]);
            }
            rest = &rest[taken..];
        }
    }
    sum
}
