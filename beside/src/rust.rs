//! What the Rust answers to a case: host.rs over ironsight itself. What it does not have is reckoned here by the client's words:
//! a place near the largest usize, a payload's length to encode, a splitter's counts, where a text lies, the league's rules, a field by
//! number, the log.
use crate::answer::{Answer, Case};
use crate::noise;
use crate::ops::{self, Offered};
use ironsight as radar;
use radar::codec;
use radar::error::WireError;
use radar::frame::RawFrame;
use radar::protocol::shot::{ClubResult, FlightResult, FlightResultV1};

#[allow(clippy::duplicate_mod)] // the same text over both crates is what it is for
#[path = "host.rs"]
mod host;

/// The kind number of the name that the Rust's error carries.
fn kind(name: &str) -> u64 {
    match name {
        "INT16" => 1,
        "UINT16" => 2,
        "INT24" => 3,
        "UINT24" => 4,
        "INT32" => 5,
        "UINT32" => 6,
        "FLOAT40" => 7,
        "FlightResult" => 0xD4,
        "FlightResultV1" => 0xE8,
        "ClubResult" => 0xED,
        "SpinResult" => 0xEF,
        "TrackingStatus" => 0xE9,
        "PrcData" => 0xEC,
        other => panic!("no kind for {other}"),
    }
}

fn refusal(e: WireError) -> Answer {
    match e {
        WireError::FrameTooShort { len } => Answer::refused(1, &[len as u64]),
        WireError::MissingStart { got } => Answer::refused(2, &[got as u64]),
        WireError::MissingEnd => Answer::refused(3, &[]),
        WireError::InvalidEscape { code, offset } => Answer::refused(4, &[code as u64, offset as u64]),
        WireError::ChecksumMismatch { expected, computed } => Answer::refused(5, &[expected as u64, computed as u64]),
        WireError::UnknownBusAddr { addr } => Answer::refused(6, &[addr as u64]),
        WireError::PayloadTooShort { msg_type, need, got, .. } => Answer::refused(7, &[kind(msg_type), need as u64, got as u64]),
        other => panic!("the Rust gave {other}, which nothing ported gives"),
    }
}

/// The Rust encodes a payload of any length.
fn wire(frame: &RawFrame) -> Result<Vec<u8>, Answer> {
    let len = frame.payload.len();
    if len > 65_535 { Err(Answer::refused(10, &[len as u64])) } else { Ok(frame.encode()) }
}

/// A place whose field would pass the largest usize is refused with that need: the Rust's sum wraps there.
fn past_largest(c: &Case) -> Option<Answer> {
    let (kind, width) = ops::reader(c.op)?;
    c.a.checked_add(width).is_none().then(|| Answer::refused(7, &[kind, u64::MAX, c.data.len() as u64]))
}

/// The Rust's frames, and the counts that they give.
fn split(offered: &Offered) -> Answer {
    let counts = |line: &[u8]| noise::counts(line, offered.hold);
    let line: Vec<u8> = offered.all().flatten().copied().collect();
    let mut answer = host::split(offered);
    answer.whole.extend(offered.counted(counts(&offered.open), counts(&line)));
    answer
}

/// The Rust has the repaired text, not its place: the part without bytes below 20 hex at both ends.
fn text(c: &Case) -> Answer {
    let end = c.data.iter().rposition(|&b| b >= 0x20).map_or(0, |p| p + 1);
    let start = c.data[..end].iter().position(|&b| b >= 0x20).unwrap_or(0);
    host::text(c, start, end - start)
}

/// The record's numbers by number: count or figure, as document 01 lists them.
fn field(c: &Case) -> Answer {
    let decoded = match c.b {
        0xD4 => FlightResult::decode(&c.data).map(|r| ops::flight_fields(&host::flight(&r))),
        0xE8 => FlightResultV1::decode(&c.data).map(|r| ops::flight_v1_fields(&host::flight_v1(&r))),
        0xED => ClubResult::decode(&c.data).map(|r| ops::club_fields(&host::club(&r))),
        other => return Answer::refused(11, &[other]),
    };
    decoded.map_or_else(refusal, |fields| match fields.get(c.a as usize) {
        None => Answer::refused(11, &[c.a]),
        Some(Ok(n)) => host::whole(&[*n]),
        Some(Err(x)) => host::record(&[], &[*x]),
    })
}

/// Request 7: rule 1 is the Rust's own method; rule 2 also compares two figures of the Rust's record, NaN failing wherever it is asked.
fn failed(c: &Case, rule_1: bool, flight_time: f64, carry: f64) -> Answer {
    let more = flight_time.is_nan() || flight_time <= 0.0 || carry.is_nan() || carry < 0.0;
    host::whole(&[(rule_1 || (c.a == 2 && more)) as i64])
}

/// A number that is no rule's is told before the payload is looked at.
fn by_rule(c: &Case, ask: impl FnOnce() -> Answer) -> Answer {
    if c.a == 1 || c.a == 2 { ask() } else { Answer::refused(11, &[c.a]) }
}

fn bay_log(c: &Case) -> Answer {
    let mut buf = vec![ops::UNTOUCHED; c.b as usize];
    let mut answer = match FlightResult::decode(&c.data) {
        Err(e) => refusal(e),
        Ok(_) if buf.len() < 32 => Answer::refused(8, &[32, buf.len() as u64]),
        Ok(r) => {
            // request 5: `round` takes a half away from zero, and a half is exact in an f64
            let tenths = |place| (f64::from(codec::read_int24(&c.data, place).unwrap()) / 100.0).round() as i32;
            let mut out = (c.a as u32).to_be_bytes().to_vec();
            out.push(0xD4);
            codec::write_int24(&mut out, r.total);
            ops::SHOWN.iter().for_each(|&place| codec::write_int32(&mut out, tenths(place)));
            codec::write_int32(&mut out, r.backspin_rpm);
            buf[..32].copy_from_slice(&out);
            Answer::default()
        }
    };
    answer.bytes = buf;
    answer
}

pub fn ask(c: &Case) -> Answer {
    if let Some(answer) = past_largest(c) {
        return answer;
    }
    let d = &c.data[..];
    match c.op {
        ops::SPLIT | ops::STATE | ops::COUNTED => Offered::answered(c, split),
        ops::SHOT_TEXT => text(c),
        ops::IS_FAILED => by_rule(c, || {
            FlightResult::decode(d).map_or_else(refusal, |r| failed(c, r.is_model_failure(), r.flight_time, r.carry_distance))
        }),
        ops::IS_FAILED_V1 => {
            by_rule(c, || FlightResultV1::decode(d).map_or_else(refusal, |r| failed(c, r.is_no_read(), r.flight_time, r.distance)))
        }
        ops::FIELD => field(c),
        ops::BAY_LOG => bay_log(c),
        _ => host::ask(c),
    }
}
