//! What is refused, by name, number and values (ironsight's error.rs, and what the port adds).
//! The numbers and values are the library's own; the texts are this crate's.
use std::fmt;

use crate::ffi;

/// A refusal. The first seven are ironsight's, as they stand there; the others are the port's.
///
/// ironsight's `InvalidFloat40`, `InvalidString` and `UnexpectedLength` are left out: nothing that was ported gives them.
#[derive(Debug, Clone, PartialEq, Eq)]
pub enum WireError {
    /// 1: a wire below seven bytes, or below five once unstuffed.
    FrameTooShort {
        /// The wire's length.
        len: usize,
    },
    /// 2: a wire that does not start with F0.
    MissingStart {
        /// The byte found there.
        got: u8,
    },
    /// 3: a wire that does not end with F1.
    MissingEnd,
    /// 4: an FD with a byte behind it that is no escape's code.
    InvalidEscape {
        /// That byte.
        code: u8,
        /// The FD's place in the interior.
        offset: usize,
    },
    /// 5: a checksum that is not the sum of the bytes before it.
    ChecksumMismatch {
        /// The checksum that the frame carries.
        expected: u16,
        /// The sum of its bytes.
        computed: u16,
    },
    /// 6: a byte that is no bus address.
    UnknownBusAddr {
        /// The byte.
        addr: u8,
    },
    /// 7: too few bytes for a message or a field.
    PayloadTooShort {
        /// The message or the field kind, by ironsight's name.
        msg_type: &'static str,
        /// The least length: a message's, or a field's place plus its width (the largest `usize` where that sum passes it;
        /// ironsight's wraps there).
        need: usize,
        /// The length found.
        got: usize,
        /// The payload, once [`with_raw`](Self::with_raw) was called.
        raw: Vec<u8>,
    },
    /// 8: a lent buffer that is too small. ironsight has no such limit.
    NoRoom {
        /// The room needed.
        need: usize,
        /// The room lent.
        got: usize,
    },
    /// 9: a splitter's state that no call gives. A [`FrameSplitter`](crate::frame::FrameSplitter) is never in one.
    BadState,
    /// 10: a payload above 65,535 bytes, to be encoded. ironsight has no such limit.
    PayloadTooLong {
        /// The payload's length.
        len: usize,
    },
    /// 11: no field, point, rule or message has that number.
    NoField {
        /// The number asked.
        number: u64,
    },
    /// 12: an FD with nothing behind it, a wire that was cut. ironsight tells it as `InvalidEscape` with code 00.
    CutEscape {
        /// The FD's place in the interior.
        offset: usize,
    },
    /// 13: more bytes to a splitter than 64 bits count. ironsight counts none.
    CounterFull,
}

/// ironsight's name for each kind of message and field, with the port's number for it.
const KINDS: [(u64, &str); 13] = [
    (1, "INT16"),
    (2, "UINT16"),
    (3, "INT24"),
    (4, "UINT24"),
    (5, "INT32"),
    (6, "UINT32"),
    (7, "FLOAT40"),
    (0xD4, "FlightResult"),
    (0xE8, "FlightResultV1"),
    (0xED, "ClubResult"),
    (0xEF, "SpinResult"),
    (0xE9, "TrackingStatus"),
    (0xEC, "PrcData"),
];

impl WireError {
    /// The refusal of a number that the library told, with its values.
    pub(crate) fn told(number: u64, values: [u64; 3]) -> Self {
        let [first, second, third] = values.map(|v| v as usize);
        match number {
            1 => Self::FrameTooShort { len: first },
            2 => Self::MissingStart { got: first as u8 },
            3 => Self::MissingEnd,
            4 => Self::InvalidEscape { code: first as u8, offset: second },
            5 => Self::ChecksumMismatch { expected: first as u16, computed: second as u16 },
            6 => Self::UnknownBusAddr { addr: first as u8 },
            7 => {
                let named = KINDS.into_iter().find(|&(kind, _)| kind == values[0]);
                let msg_type = named.expect("the library tells a kind that has a name").1;
                Self::PayloadTooShort { msg_type, need: second, got: third, raw: Vec::new() }
            }
            8 => Self::NoRoom { need: first, got: second },
            9 => Self::BadState,
            10 => Self::PayloadTooLong { len: first },
            11 => Self::NoField { number: values[0] },
            12 => Self::CutEscape { offset: first },
            13 => Self::CounterFull,
            other => unreachable!("the library told refusal {other}, which there is not"),
        }
    }

    /// The refusal's number, 1 to 13.
    pub fn number(&self) -> u64 {
        match self {
            Self::FrameTooShort { .. } => 1,
            Self::MissingStart { .. } => 2,
            Self::MissingEnd => 3,
            Self::InvalidEscape { .. } => 4,
            Self::ChecksumMismatch { .. } => 5,
            Self::UnknownBusAddr { .. } => 6,
            Self::PayloadTooShort { .. } => 7,
            Self::NoRoom { .. } => 8,
            Self::BadState => 9,
            Self::PayloadTooLong { .. } => 10,
            Self::NoField { .. } => 11,
            Self::CutEscape { .. } => 12,
            Self::CounterFull => 13,
        }
    }

    /// The refusal's values, in the variant's order; as many as [`value_count`] says. `msg_type` is the kind's number: a message's
    /// type byte, 1 to 7 for a field's kind, or 0 for a name that the library does not give.
    pub fn values(&self) -> Vec<u64> {
        match *self {
            Self::MissingEnd | Self::BadState | Self::CounterFull => Vec::new(),
            Self::FrameTooShort { len } | Self::PayloadTooLong { len } => vec![len as u64],
            Self::MissingStart { got: byte } | Self::UnknownBusAddr { addr: byte } => vec![byte.into()],
            Self::InvalidEscape { code, offset } => vec![code.into(), offset as u64],
            Self::ChecksumMismatch { expected, computed } => vec![expected.into(), computed.into()],
            Self::PayloadTooShort { msg_type, need, got, .. } => {
                let kind = KINDS.into_iter().find(|&(_, name)| name == msg_type).map_or(0, |(kind, _)| kind);
                vec![kind, need as u64, got as u64]
            }
            Self::NoRoom { need, got } => vec![need as u64, got as u64],
            Self::NoField { number } => vec![number],
            Self::CutEscape { offset } => vec![offset as u64],
        }
    }

    /// The same refusal; of a payload that is too short, with the payload's bytes.
    pub fn with_raw(mut self, payload: &[u8]) -> Self {
        if let Self::PayloadTooShort { raw, .. } = &mut self {
            *raw = payload.to_vec();
        }
        self
    }
}

/// How many values the refusal of a number has, 0 for a number that is no refusal's.
pub fn value_count(number: u64) -> usize {
    ffi::value_count(number)
}

impl fmt::Display for WireError {
    fn fmt(&self, f: &mut fmt::Formatter<'_>) -> fmt::Result {
        match self {
            Self::FrameTooShort { len } => write!(f, "the wire has {len} bytes, too few for a frame: offer all of it, F0 to F1"),
            Self::MissingStart { got } => write!(f, "the wire starts with {got:02X}, not F0: offer it from its F0 on"),
            Self::MissingEnd => write!(f, "the wire does not end with F1: offer it up to its F1"),
            Self::InvalidEscape { code, offset } => {
                write!(f, "FD {code:02X} at {offset} in the interior is no escape: drop the frame, and look at its sender")
            }
            Self::ChecksumMismatch { expected, computed } => {
                write!(f, "the frame says checksum {expected:04X}, its bytes sum to {computed:04X}: drop it, or ask for it again")
            }
            Self::UnknownBusAddr { addr } => write!(f, "{addr:02X} is no bus address: use 10, 12, 30 or 40"),
            Self::PayloadTooShort { msg_type, need, got, raw } => {
                write!(f, "{msg_type} needs {need} bytes, {got} are there: offer the whole payload")?;
                if !raw.is_empty() {
                    f.write_str(" (it begins")?;
                    raw.iter().take(16).try_for_each(|byte| write!(f, " {byte:02X}"))?;
                    f.write_str(")")?;
                }
                Ok(())
            }
            Self::NoRoom { need, got } => write!(f, "room for {need} is needed, {got} is lent: lend more"),
            Self::BadState => write!(f, "the splitter's state is none that a call gave: start with a new splitter"),
            Self::PayloadTooLong { len } => write!(f, "the payload has {len} bytes, 65535 are the most: send it as several"),
            Self::NoField { number } => write!(f, "nothing has the number {number}: ask for a field, point or rule that there is"),
            Self::CutEscape { offset } => {
                write!(f, "FD at {offset} ends the interior and escapes nothing: drop the frame, and look at the cable")
            }
            Self::CounterFull => write!(f, "the splitter has counted all that 64 bits count: start with a new splitter"),
        }
    }
}

impl std::error::Error for WireError {}

/// What a call answers that may refuse.
pub type Result<T> = std::result::Result<T, WireError>;
