//! Makes cases: every boundary that document 01 names, short inputs exhaustively, and random, extreme and damaged ones.
use crate::answer::Case;
use crate::{counted, ops};
use ironsight::addr::BusAddr;
use ironsight::frame::RawFrame;

/// A small generator of numbers (xorshift64*), so that a seed makes the same cases everywhere.
pub struct Random(u64);

impl Random {
    pub fn new(seed: u64) -> Self {
        Self(seed.wrapping_mul(0x9E37_79B9_7F4A_7C15) | 1)
    }

    pub fn next(&mut self) -> u64 {
        self.0 ^= self.0 >> 12;
        self.0 ^= self.0 << 25;
        self.0 ^= self.0 >> 27;
        self.0.wrapping_mul(0x2545_F491_4F6C_DD1D)
    }

    pub fn below(&mut self, n: usize) -> usize {
        (self.next() % n as u64) as usize
    }

    fn one_of<T: Copy>(&mut self, xs: &[T]) -> T {
        xs[self.below(xs.len())]
    }

    /// Bytes that meet the rules' edges often: markers, escapes and their codes, extremes, anything.
    fn byte(&mut self) -> u8 {
        match self.below(4) {
            0 => self.one_of(&[0xF0, 0xF1, 0xFD, 0xFA, 0x00, 0x01, 0x02, 0x03, 0x04, 0x05]),
            1 => self.one_of(&[0x00, 0x7F, 0x80, 0xFF]),
            _ => self.next() as u8,
        }
    }

    pub fn bytes(&mut self, n: usize) -> Vec<u8> {
        match self.below(6) {
            0 => vec![self.byte(); n],
            1 => (0..n).map(|_| self.next() as u8).collect(),
            _ => (0..n).map(|_| self.byte()).collect(),
        }
    }
}

const ADDRESSES: [u8; 4] = [0x10, 0x12, 0x30, 0x40];

/// A message's operation and least length.
const MESSAGES: [(u8, usize); 5] = [
    (ops::FLIGHT_RESULT, 157),
    (ops::FLIGHT_RESULT_V1, 94),
    (ops::CLUB_RESULT, 167),
    (ops::SPIN_RESULT, 138),
    (ops::TRACKING_STATUS, 82),
];

/// The place of a scale, by message: it is made 0, negative or small often.
const SCALES: [(u8, usize); 4] =
    [(ops::FLIGHT_RESULT, 109), (ops::FLIGHT_RESULT_V1, 46), (ops::CLUB_RESULT, 47), (ops::SPEED_PROFILE, 4)];

fn case(op: u8, a: u64, b: u64, data: Vec<u8>) -> Case {
    Case { op, a, b, data }
}

/// A wire opened, and its payload copied into a buffer of some length.
pub fn wire_cases(room: u64, wire: &[u8]) -> [Case; 2] {
    [case(ops::OPEN, 0, 0, wire.to_vec()), case(ops::COPY_PAYLOAD, room, 0, wire.to_vec())]
}

fn wire(r: &mut Random, payload: Vec<u8>) -> Vec<u8> {
    let addr = |b| BusAddr::from_byte(b).unwrap();
    let (dest, src) = (addr(r.one_of(&ADDRESSES)), addr(r.one_of(&ADDRESSES)));
    RawFrame { dest, src, type_id: r.byte(), payload }.encode()
}

/// Some bytes with one changed, cut off, doubled or dropped.
fn damage(r: &mut Random, mut bytes: Vec<u8>) -> Vec<u8> {
    if bytes.is_empty() {
        return bytes;
    }
    let at = r.below(bytes.len());
    match r.below(5) {
        0 => bytes[at] = r.byte(),
        1 => bytes.truncate(at),
        2 => bytes.insert(at, r.byte()),
        3 => drop(bytes.remove(at)),
        _ => bytes[at] ^= 1 << r.below(8),
    }
    bytes
}

/// A float's bits: every exponent, subnormals, infinities, NaN, or a divisor that the messages use.
fn float_bits(r: &mut Random) -> u64 {
    match r.below(6) {
        0 => r.one_of(&[100.0, 1000.0, 1_000_000.0, 10.0, 1.0, -1.0, 0.1, 3.0f64]).to_bits(),
        1 => r.one_of(&[0.0, -0.0, f64::INFINITY, f64::NEG_INFINITY, f64::MAX, f64::MIN_POSITIVE, 5e-324]).to_bits(),
        2 => (r.next() & 1) << 63 | r.next() >> 12,
        3 => 0x7FF << 52 | r.next() & !(0x7FF << 52),
        _ => r.next(),
    }
}

fn field_case(r: &mut Random) -> Case {
    let op = r.one_of(&[0x01, 0x02, 0x03, 0x04, 0x05, 0x06, 0x07, 0x08, 0x09]);
    let len = r.below(12);
    let at = match r.below(8) {
        0 => u64::MAX - r.below(9) as u64,
        1 => r.next(),
        _ => r.below(len + 3) as u64,
    };
    case(op, at, float_bits(r), r.bytes(len))
}

fn write_case(r: &mut Random) -> Case {
    let op = r.one_of(&[0x11, 0x12, 0x13, 0x14, 0x15, 0x16, 0x17, 0x17, 0x18, 0x18]);
    let len = r.below(10);
    let at = if r.below(10) == 0 { u64::MAX - r.below(9) as u64 } else { r.below(len + 2) as u64 };
    let value = if r.below(3) == 0 { u64::from_be_bytes(r.bytes(8).try_into().unwrap()) } else { float_bits(r) };
    case(op, at, value, r.bytes(len))
}

/// The wire opened, or its payload copied.
fn wire_case(r: &mut Random, room: u64, wire: Vec<u8>) -> Case {
    let [open, copy] = wire_cases(room, &wire);
    if r.below(3) == 0 { open } else { copy }
}

fn frame_case(r: &mut Random) -> Case {
    let len = match r.below(10) {
        0 => r.below(600),
        1..=4 => r.below(8),
        _ => r.below(60),
    };
    match r.below(5) {
        0 => {
            let len = r.below(16);
            let mut bytes = r.bytes(len);
            if len > 1 && r.below(4) > 0 {
                bytes[0] = 0xF0;
                bytes[len - 1] = 0xF1;
            }
            wire_case(r, 64, bytes)
        }
        1 => {
            let payload = r.bytes(len);
            let sound = wire(r, payload);
            let room = (len + r.below(3)).saturating_sub(r.below(3));
            wire_case(r, room as u64, sound)
        }
        2 => {
            let len = if r.below(500) == 0 { 65_536 + r.below(70_000) } else { len };
            let payload = r.bytes(len);
            let sound = wire(r, payload);
            let hurt = damage(r, sound);
            let room = r.one_of(&[0, 700, len as u64]);
            wire_case(r, room, hurt)
        }
        _ => {
            let payload = r.bytes(len);
            let (dest, src) = if r.below(8) == 0 { (r.byte(), r.byte()) } else { (r.one_of(&ADDRESSES), r.one_of(&ADDRESSES)) };
            let fields = (dest as u64) << 16 | (src as u64) << 8 | r.byte() as u64;
            let exact = case(ops::ENCODE, fields, 2000, payload);
            let room = crate::rust::ask(&exact).whole.first().map_or(20, |&n| n as u64);
            case(ops::ENCODE, fields, (room + r.below(3) as u64).saturating_sub(r.below(2) as u64), exact.data)
        }
    }
}

/// Some frames, sound and damaged, and bytes between them, each made of less than so many bytes.
fn stream(r: &mut Random, most: usize) -> Vec<u8> {
    let mut bytes = Vec::new();
    for _ in 0..r.below(7) {
        let len = r.below(most);
        let part = r.bytes(len);
        let next = match r.below(4) {
            0 => part,
            1 => {
                let sound = wire(r, part);
                damage(r, sound)
            }
            _ => wire(r, part),
        };
        bytes.extend(next);
    }
    bytes
}

/// Four chunk sizes, each below so many, some of them 0.
fn cuts(r: &mut Random, most: usize) -> u64 {
    (0..4).fold(0, |b, _| b << 16 | if r.below(6) == 0 { 0 } else { r.below(most) as u64 })
}

fn split_case(r: &mut Random) -> Case {
    if r.below(100) == 0 {
        let bytes = stream(r, 9_000);
        let room = r.one_of(&[9_000, 18_000, bytes.len() + 1]);
        return case(ops::SPLIT, r.below(room) as u64, cuts(r, 10_001), bytes);
    }
    let bytes = stream(r, 30);
    let room = match r.below(4) {
        0 => r.below(3),
        1 => r.below(12),
        _ => r.below(64),
    };
    case(ops::SPLIT, room as u64, cuts(r, 40), bytes)
}

/// The stream of a case in another cutting, if it is one.
pub fn recut(r: &mut Random, c: &Case) -> Option<Case> {
    let most = if c.data.len() < 250 { 40 } else { 10_001 };
    (c.op == ops::SPLIT).then(|| case(ops::SPLIT, c.a, cuts(r, most), c.data.clone()))
}

/// A state, and what is offered to it.
pub fn state(count: u64, hold: u64, mark: u8, chunk: Vec<u8>) -> Case {
    case(ops::STATE, count, hold << 8 | mark as u64, chunk)
}

/// Every kind of mark: no, yes, and numbers that are neither.
pub const MARKS: [u8; 4] = [0, 1, 2, 255];

/// A state, most often one that a call gives, with a chunk that has something in it most often.
pub fn state_case(r: &mut Random) -> Case {
    let hold = r.one_of(&[6, 40, 300]);
    let hold = r.below(hold);
    let (count, mark) = match r.below(8) {
        0 => (r.next(), 0),
        1 => ((hold + r.below(3)) as u64, r.one_of(&MARKS)),
        2 | 3 => (0, 1),
        _ => (r.below(hold + 1) as u64, 0),
    };
    let chunk = match r.below(3) {
        0 => stream(r, 30),
        1 => {
            let len = r.below(hold + 3);
            let mut bytes = r.bytes(len);
            bytes.push(0xF1);
            bytes.extend(stream(r, 8));
            bytes
        }
        _ => {
            let len = r.below(8);
            r.bytes(len)
        }
    };
    state(count, hold as u64, mark, chunk)
}

/// A scale of 0, 1, a negative one, or anything.
fn set_scale(r: &mut Random, op: u8, data: &mut [u8]) {
    let Some(&(_, at)) = SCALES.iter().find(|s| s.0 == op) else {
        return;
    };
    if at + 3 <= data.len() {
        let scale: i32 = r.one_of(&[0, 1, -1, -2, 2, 100, 1000, -8_388_608, 8_388_607]);
        data[at..at + 3].copy_from_slice(&scale.to_be_bytes()[1..]);
    }
}

fn message_case(r: &mut Random) -> Case {
    let (op, least) = r.one_of(&MESSAGES);
    let len = if r.below(10) == 0 { r.below(least + 21) } else { least + r.below(21) };
    let mut data = r.bytes(len);
    if r.below(2) == 0 {
        set_scale(r, op, &mut data);
    }
    case(op, 0, 0, data)
}

fn by_number_case(r: &mut Random) -> Case {
    let (message, op, least, numbers) =
        r.one_of(&[(0xD4u64, ops::FLIGHT_RESULT, 157, 52), (0xE8, ops::FLIGHT_RESULT_V1, 94, 31), (0xED, ops::CLUB_RESULT, 167, 55)]);
    let len = least + r.below(4) - r.below(2);
    let mut data = r.bytes(len);
    set_scale(r, op, &mut data);
    let number = if r.below(12) == 0 { r.next() } else { r.below(numbers + 2) as u64 };
    case(ops::FIELD, number, message, data)
}

/// A speed of 0, below it, or above: the figure that says whether a record was read.
fn speed_case(r: &mut Random) -> Case {
    let (op, least, place) = r.one_of(&[(ops::IS_MODEL_FAILURE, 157, 16), (ops::IS_NO_READ, 94, 7)]);
    let len = least + r.below(3) - r.below(2);
    let mut data = r.bytes(len);
    let speed = r.one_of(&ABOUT_ZERO);
    data[place..place + 3].copy_from_slice(&speed.to_be_bytes()[1..]);
    case(op, 0, 0, data)
}

/// What a rule may ask of a figure: 0, one thousandth to either side, and the ends.
pub const ABOUT_ZERO: [i32; 5] = [0, 1, -1, -8_388_608, 8_388_607];

/// The two rules, and numbers that would be one of them if they were cut to 8, 16 or 32 bits.
pub const NUMBERS: [u64; 8] = [1, 2, 0, 3, 257, 65_538, 1 << 32 | 1, u64::MAX];

/// A payload asked by a rule's number, with the three figures that the rules ask.
pub fn failed(op: u8, rule: u64, places: [usize; 3], figures: [i32; 3], mut data: Vec<u8>) -> Case {
    for (place, figure) in places.into_iter().zip(figures) {
        data[place..place + 3].copy_from_slice(&figure.to_be_bytes()[1..]);
    }
    case(op, rule, 0, data)
}

fn failed_case(r: &mut Random) -> Case {
    let (op, least, places) = r.one_of(&ops::ASKED);
    let len = least + r.below(3) - r.below(2);
    let figures = [r.one_of(&ABOUT_ZERO), r.one_of(&ABOUT_ZERO), r.one_of(&ABOUT_ZERO)];
    let rule = if r.below(12) == 0 { r.next() } else { r.one_of(&[1, 2, 2, 2]) };
    failed(op, rule, places, figures, r.bytes(len))
}

fn other_case(r: &mut Random) -> Case {
    match r.below(10) {
        0 => {
            let len = r.below(60);
            let mut data = r.bytes(len);
            set_scale(r, ops::SPEED_PROFILE, &mut data);
            case(ops::SPEED_PROFILE, (len.saturating_sub(12) / 2 + r.below(3)).saturating_sub(r.below(2)) as u64, 0, data)
        }
        1 => prc_case(r),
        2 => club_prc_case(r),
        3 => {
            let len = 74 + r.below(6);
            case(ops::ENCODE_REQUEST, 0, r.next() & 0xFFFF, r.bytes(len))
        }
        6 => speed_case(r),
        9 => failed_case(r),
        4 | 5 => text_case(r),
        _ => {
            let len = 156 + r.below(3);
            case(ops::BAY_LOG, r.next() & 0xFFFF_FFFF, 30 + r.below(5) as u64, r.bytes(len))
        }
    }
}

/// An EC, mostly with a header that has points, or a point of it.
fn prc_case(r: &mut Random) -> Case {
    let len = r.below(260);
    let mut data = r.bytes(len);
    if len > 3 && r.below(4) > 0 {
        data[0] = r.one_of(&[3, 63, 123, 183, 243, 0, 4, 62]);
        data[3] = r.below(6) as u8;
    }
    let op = r.one_of(&[ops::PRC_DATA, ops::PRC_POINT]);
    case(op, r.below(6) as u64, 0, data)
}

/// An EE, mostly with a header that has points, or a point of it.
fn club_prc_case(r: &mut Random) -> Case {
    let len = r.below(320);
    let mut data = r.bytes(len);
    if len > 0 && r.below(4) > 0 {
        data[0] = r.one_of(&[0, 75, 76, 152, 228, 255]);
    }
    let op = r.one_of(&[ops::CLUB_PRC, ops::CLUB_PRC_POINT]);
    case(op, r.below(5) as u64, 0, data)
}

/// An E5 with some of the words, and some that are nearly one.
fn text_case(r: &mut Random) -> Case {
    let mut data = Vec::new();
    for _ in 0..r.below(4) {
        let n = r.below(5);
        data.extend(r.bytes(n));
        data.extend_from_slice(r.one_of(&[&b"PROCESSED"[..], b"IDLE", b"BALL TRIGGER", b"BALL TRIGGE", b"\n\0", b" IDL", b"\x1F\x20\x21"]));
    }
    case(ops::SHOT_TEXT, 0, 0, data)
}

/// Any case at all.
pub fn random(r: &mut Random) -> Case {
    match r.below(16) {
        0..=3 => field_case(r),
        4..=6 => write_case(r),
        7..=9 => frame_case(r),
        10 if r.below(4) == 0 => state_case(r),
        10 if r.below(3) == 0 => counted::random(r),
        10 | 11 => split_case(r),
        12 => message_case(r),
        13 => by_number_case(r),
        _ => other_case(r),
    }
}

/// Reading an exponent and the low 24 bits of a mantissa.
fn float40(e: u16, m: u32) -> Case {
    case(ops::READ_FLOAT40, 0, 0, [&e.to_be_bytes()[..], &m.to_be_bytes()[1..]].concat())
}

/// Exponents of each kind: normal values alone, subnormal ones too, the least power, two powers that are zeros, finite for
/// every mantissa, for all but one, for three, and for 0 alone.
const EXPONENTS: [i16; 9] = [1, -1010, -1051, -1052, -1053, 1023, 1024, 1046, 1047];

/// FLOAT40 read with each leading one, of both signs, at every exponent, and with every mantissa at `EXPONENTS`.
pub fn mantissas(mut take: impl FnMut(Case)) {
    for e in 0..=u16::MAX {
        for m in (0..24).map(|place| 1u32 << place) {
            take(float40(e, m));
            take(float40(e, m.wrapping_neg()));
        }
    }
    for e in EXPONENTS {
        (0..1 << 24).for_each(|m| take(float40(e as u16, m)));
    }
}

/// The log's record of five numbers of thousandths, the first of them as total and backspin too, which are not rounded.
pub fn logged(figures: [i32; 5]) -> Case {
    let mut data = vec![0; 157];
    let mut put = |place: usize, n: i32| data[place..place + 3].copy_from_slice(&n.to_be_bytes()[1..]);
    put(ops::TOTAL, figures[0]);
    ops::SHOWN.iter().zip(figures).for_each(|(&place, n)| put(place, n));
    put(ops::BACKSPIN, figures[0]);
    case(ops::BAY_LOG, 1, 32, data)
}

/// All the bounded cases, each once: `take` is called with every one.
pub fn bounded(r: &mut Random, mut take: impl FnMut(Case)) {
    // FLOAT40: every exponent, with mantissas at the edges and sampled
    for e in 0..=u16::MAX {
        for m in [0, 1, 0x40_0000, 0x7F_FFFF, 0x80_0000, 0xFF_FFFF, r.next() as u32 & 0xFF_FFFF] {
            take(float40(e, m));
        }
    }
    // f64 patterns of every exponent, both signs
    for e in 0..2048u64 {
        for f in [0, 1, 0xF_FFFF_FFFF_FFFF, 1 << 51, 0x3FFF_FFFF, 0x4000_0000, r.next() >> 12] {
            for s in 0..2u64 {
                for op in [ops::WRITE_FLOAT40, ops::WRITE_FLOAT40_BITS] {
                    take(case(op, 0, s << 63 | e << 52 | f, vec![ops::UNTOUCHED; 5]));
                }
            }
        }
    }
    // every INT16 and every UINT16, and every first byte of the wider fields
    for n in 0..=u16::MAX {
        for op in [ops::READ_INT16, ops::READ_UINT16] {
            take(case(op, 0, 0, n.to_be_bytes().to_vec()));
        }
        for op in [ops::WRITE_INT16, ops::WRITE_UINT16] {
            take(case(op, 0, n as u64, vec![0; 2]));
        }
        for op in [ops::READ_INT24, ops::READ_UINT24, ops::READ_INT32, ops::READ_UINT32] {
            let tail = r.bytes(2);
            take(case(op, 0, 0, [&n.to_be_bytes()[..], &tail].concat()));
        }
    }
    // every length from 0 to 20 past the least
    for (op, least) in MESSAGES {
        for len in 0..=least + 20 {
            take(case(op, 0, 0, r.bytes(len)));
        }
    }
    for len in 0..=32 {
        for room in 0..=12 {
            take(case(ops::SPEED_PROFILE, room, 0, r.bytes(len)));
        }
    }
    for header in 0..=255u8 {
        for len in (0..=25).chain([63, 64, 65, 76, 77, 78, 124, 153, 184]) {
            let mut data = r.bytes(len);
            if len > 0 {
                data[0] = header;
            }
            take(case(ops::PRC_DATA, 0, 0, data.clone()));
            take(case(ops::PRC_POINT, r.below(4) as u64, 0, data.clone()));
            take(case(ops::CLUB_PRC, 0, 0, data.clone()));
            take(case(ops::CLUB_PRC_POINT, r.below(4) as u64, 0, data));
        }
    }
    for len in 0..=20 {
        take(case(ops::SHOT_TEXT, 0, 0, r.bytes(len)));
        take(case(ops::ENCODE_REQUEST, 0, r.next() & 0xFFFF, r.bytes(67 + len)));
        take(case(ops::BAY_LOG, r.next() & 0xFFFF_FFFF, 22 + len as u64, r.bytes(157)));
        take(case(ops::BAY_LOG, r.next() & 0xFFFF_FFFF, 40, r.bytes(147 + len)));
    }
    // every field by number
    for (message, least, numbers) in [(0xD4, 157, 52), (0xE8, 94, 31), (0xED, 167, 55)] {
        for number in 0..numbers + 2 {
            for len in [least - 1, least, least + 1] {
                take(case(ops::FIELD, number, message, r.bytes(len)));
            }
        }
    }
    // every type byte: three have numbers
    for message in 0..=255 {
        for len in [0, 167] {
            take(case(ops::FIELD, 0, message, r.bytes(len)));
        }
    }
    // every wire of up to five of the bytes that matter, between the markers
    let bytes = [0x40, 0x10, 0x00, 0x01, 0x50, 0x51, 0xF0, 0xF1, 0xFA, 0xFD];
    for inner in strings(&bytes, 5) {
        wire_cases(2, &[&[0xF0][..], &inner, &[0xF1]].concat()).into_iter().for_each(&mut take);
    }
    // every stream of up to six bytes over four, for H from 0 to 4, whole and byte by byte
    let bytes = [0x00, 0xF0, 0xF1, 0xFD];
    for stream in strings(&bytes, 6) {
        for room in 0..=4 {
            for cuts in [0, 0x0001_0001_0001_0001, 0x0002_0000_0001_0003] {
                take(case(ops::SPLIT, room, cuts, stream.clone()));
            }
        }
    }
    // every three figures about zero by either rule, and numbers that are no rule's
    for (op, least, places) in ops::ASKED {
        for k in 0..125 {
            let figures = [ABOUT_ZERO[k / 25], ABOUT_ZERO[k / 5 % 5], ABOUT_ZERO[k % 5]];
            for rule in NUMBERS {
                for len in [least - 1, least, least + 1] {
                    take(failed(op, rule, places, figures, r.bytes(len)));
                }
            }
        }
    }
}

/// Every string of up to so many of some bytes, the shorter ones first.
fn strings(bytes: &[u8], most: u32) -> impl Iterator<Item = Vec<u8>> + '_ {
    let string = |n, k| (0..n).map(|i| bytes[k / bytes.len().pow(i) % bytes.len()]).collect();
    (0..=most).flat_map(move |n| (0..bytes.len().pow(n)).map(move |k| string(n, k)))
}

/// What an interior ends in where its last escape may be wrong: cut off, behind another, behind a sound one; FD 00, and a cut behind it.
pub const ENDINGS: [&[u8]; 5] = [&[0xFD], &[0xFD, 0xFD], &[0xFD, 0x03, 0xFD], &[0xFD, 0x00], &[0xFD, 0x00, 0xFD]];

/// Every such ending behind every two bytes, with a header before them or none, and behind up to five of the bytes that matter.
fn endings(mut take: impl FnMut(Case)) {
    let mut wires = |front: &[u8]| {
        for ending in ENDINGS {
            wire_cases(2, &[&[0xF0], front, ending, &[0xF1]].concat()).into_iter().for_each(&mut take);
        }
    };
    for n in 0..=u16::MAX {
        let [a, b] = n.to_be_bytes();
        wires(&[a, b]);
        wires(&[0x40, 0x10, 0x01, a, b]);
    }
    let bytes = [0x40, 0x10, 0x00, 0x01, 0x03, 0x05, 0xF0, 0xF1, 0xFA, 0xFD];
    for front in strings(&bytes, 5) {
        wires(&front);
    }
}

/// Short inputs, all of them: every INT24 read, written and logged, every wire and every text of up to two bytes, short
/// interiors by how they end, every count and H up to eight with every mark, offered short chunks.
pub fn exhaustive(mut take: impl FnMut(Case)) {
    for n in 0..1u32 << 24 {
        let bytes = n.to_be_bytes();
        for op in [ops::READ_INT24, ops::READ_UINT24] {
            take(case(op, 0, 0, bytes[1..].to_vec()));
        }
        for op in [ops::WRITE_INT24, ops::WRITE_UINT24] {
            take(case(op, 0, (n as u64) << 8 | n as u64 >> 16, vec![ops::UNTOUCHED; 3]));
        }
        take(logged([n as i32; 5]));
    }
    for n in 0..=u16::MAX {
        let bytes = n.to_be_bytes();
        for len in [1, 2] {
            wire_cases(2, &bytes[..len]).into_iter().for_each(&mut take);
            take(case(ops::SHOT_TEXT, 0, 0, bytes[..len].to_vec()));
        }
    }
    endings(&mut take);
    for count in 0..=8 {
        for hold in 0..=8 {
            for mark in 0..=255 {
                take(state(count, hold, mark, vec![]));
                take(state(count, hold, mark, vec![0xF1, 0xF0]));
            }
            for mark in MARKS {
                strings(&[0x00, 0xF0, 0xF1], 5).for_each(|chunk| take(state(count, hold, mark, chunk)));
            }
        }
    }
}

/// A wire with a fault: at its end the checksum, the mark, an escape, one that is cut off; at its front addresses with the same sum.
fn faults(sound: &[u8]) -> [Vec<u8>; 5] {
    let (front, last) = sound.split_at(sound.len() - 1);
    let (mut checksum, mut addresses) = (sound.to_vec(), sound.to_vec());
    checksum[sound.len() - 2] ^= 1;
    addresses[1..3].copy_from_slice(&[0x11, 0x11]);
    [checksum, [front, &[0xF2]].concat(), [front, &[0xFD, 0x05], last].concat(), [front, &[0xFD], last].concat(), addresses]
}

/// The longest payload, one more, the checksum that wraps; wires above 65,536 bytes, sound, damaged, and with each fault.
pub fn long(r: &mut Random) -> Vec<Case> {
    let fields = 0x40_1001;
    let mut cases = vec![
        case(ops::ENCODE, fields, 140_000, vec![0xFF; 257]),
        case(ops::ENCODE, fields, 140_000, vec![0xFD; 65_535]),
        case(ops::ENCODE, fields, 140_000, vec![0xFD; 65_536]),
        case(ops::ENCODE, fields, 131_000, vec![0xF0; 65_535]),
    ];
    for n in [257, 2_048, 65_535] {
        let payload = r.bytes(n);
        let sound = wire(r, payload);
        cases.extend(wire_cases(n as u64, &sound));
        cases.push(case(ops::COPY_PAYLOAD, n as u64 - 1, 0, sound.clone()));
        for sizes in [u64::MAX, 0x2710_0001_0000_2710] {
            cases.push(case(ops::SPLIT, sound.len() as u64, sizes, sound.clone()));
            cases.push(case(ops::SPLIT, sound.len() as u64 - 1, sizes, sound.clone()));
        }
    }
    for n in [65_535, 65_536, 70_000, 131_072] {
        let payload = r.bytes(n);
        let sound = RawFrame { dest: BusAddr::App, src: BusAddr::Pi, type_id: 0xD4, payload }.encode();
        let hurt: Vec<_> = (0..8).map(|_| damage(r, sound.clone())).collect();
        for wire in hurt.iter().chain(&faults(&sound)).chain([&sound]) {
            cases.extend(wire_cases(n as u64, wire));
        }
    }
    cases
}
