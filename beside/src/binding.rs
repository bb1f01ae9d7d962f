//! What the crate of bindings/rust answers to a case: host.rs over it, as over the Rust. A refusal is its own number and values.
//! Its own calls are asked where it has what the Rust lacks: a header alone, a lent payload buffer, a splitter's hold, where a text
//! lies, a float by its bits, the league's rules, a field by number, the log's record.
//!
//! Its other answers are vectors: host.rs cuts them to a lent buffer's length for both crates alike, so refusal 8 and the bytes
//! past an answer are not the crate's there. A state that no call gives cannot be had, nor one near 2^64, so 9 and 13 are not the
//! crate's; every other is reached by an open frame that stands for it, and the crate's counts are those since.
use crate::answer::{Answer, Case};
use crate::noise::Counts;
use crate::ops::{self, Offered};
use movaleduft as radar;
use radar::codec;
use radar::error::WireError;
use radar::frame::{self, FrameSplitter, RawFrame};
use radar::protocol::shot::{self, Field, FlightResult, FlightResultV1, LeagueRule, ShotText};

#[allow(clippy::duplicate_mod)] // the same text over both crates is what it is for
#[path = "host.rs"]
mod host;

fn refusal(e: WireError) -> Answer {
    Answer::refused(e.number(), &e.values())
}

fn wire(frame: &RawFrame) -> Result<Vec<u8>, Answer> {
    frame.encode().map_err(refusal)
}

/// `parse` is held to `open`, which answers.
fn open(c: &Case) -> Answer {
    let answer = RawFrame::open(&c.data).map_or_else(refusal, |h| {
        host::whole(&[h.dest.as_byte() as i64, h.src.as_byte() as i64, h.type_id as i64, h.len as i64])
    });
    assert_eq!(answer, host::ask(c), "open and parse answer differently");
    answer
}

/// `parse` is held to `copy_payload`, which answers.
fn copy_payload(c: &Case) -> Answer {
    let mut buf = vec![ops::UNTOUCHED; c.a as usize];
    let answer = RawFrame::copy_payload(&c.data, &mut buf).map_or_else(refusal, |len| host::whole(&[len as i64]));
    let answer = Answer { bytes: buf, ..answer };
    assert_eq!(answer, host::ask(c), "copy_payload and parse answer differently");
    answer
}

fn counts(splitter: &FrameSplitter) -> Counts {
    let frame::Counts { taken, dropped, framed, lost, held } = splitter.counts();
    [taken, dropped, framed, lost, held]
}

/// A splitter that holds H bytes is held to one that holds every wire of the encoder, whose longer frames are told as -1.
fn split(offered: &Offered) -> Answer {
    let mut unlimited = host::split(offered);
    let mut splitter = FrameSplitter::with_hold(offered.hold);
    let mut frames = splitter.feed(&offered.open);
    let opened = counts(&splitter);
    frames.extend(offered.chunks.iter().flat_map(|chunk| splitter.feed(chunk)));
    let mut limited = Answer { bytes: frames.concat(), ..Answer::default() };
    limited.bytes.extend_from_slice(splitter.held());
    limited.whole.extend(frames.iter().map(|f| f.len() as i128));
    limited.whole.extend([splitter.held().len() as i128, splitter.is_skipping() as i128]);
    let mut told = unlimited.clone();
    told.whole.retain(|&n| n != -1);
    assert_eq!(splitter.overlong() as usize, unlimited.whole.len() - told.whole.len(), "other frames were left out");
    if unlimited.whole[0] != -1 {
        limited = offered.as_held(limited);
    }
    assert_eq!(limited, told, "the frames differ by the hold");
    unlimited.whole.extend(offered.counted(opened, counts(&splitter)));
    unlimited
}

fn text(c: &Case) -> Answer {
    let part = ShotText::trimmed(&c.data);
    host::text(c, part.as_ptr() as usize - c.data.as_ptr() as usize, part.len())
}

/// Yes or no of a payload by the rule of a number.
fn failed(c: &Case, ask: fn(LeagueRule, &[u8]) -> Result<bool, WireError>) -> Answer {
    LeagueRule::from_number(c.a).and_then(|rule| ask(rule, &c.data)).map_or_else(refusal, |yes| host::whole(&[yes as i64]))
}

fn field(c: &Case) -> Answer {
    match shot::field(c.b as u8, &c.data, c.a as usize) {
        Err(e) => refusal(e),
        Ok(Field::Count(n)) => host::whole(&[n as i64]),
        Ok(Field::Figure(x)) => host::record(&[], &[x]),
    }
}

/// The record at the front of a buffer of the case's length, or 8: the crate's is an array.
fn bay_log(c: &Case) -> Answer {
    let mut buf = vec![ops::UNTOUCHED; c.b as usize];
    let room = buf.len() as u64;
    let answer = match (shot::bay_log(c.a as u32, &c.data), buf.first_chunk_mut()) {
        (Err(e), _) => refusal(e),
        (Ok(_), None) => Answer::refused(8, &[32, room]),
        (Ok(record), Some(front)) => {
            *front = record;
            Answer::default()
        }
    };
    Answer { bytes: buf, ..answer }
}

pub fn ask(c: &Case) -> Answer {
    match c.op {
        ops::WRITE_FLOAT40_BITS => host::written(c, c.a, |v| codec::write_float40_bits(v, c.b)),
        ops::OPEN => open(c),
        ops::COPY_PAYLOAD => copy_payload(c),
        ops::SPLIT | ops::STATE | ops::COUNTED => Offered::answered(c, split),
        ops::SHOT_TEXT => text(c),
        ops::IS_FAILED => failed(c, FlightResult::payload_failed),
        ops::IS_FAILED_V1 => failed(c, FlightResultV1::payload_failed),
        ops::FIELD => field(c),
        ops::BAY_LOG => bay_log(c),
        _ => host::ask(c),
    }
}
