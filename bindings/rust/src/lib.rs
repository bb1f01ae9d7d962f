//! A golf radar's wire protocol by the names of ironsight's five files, over the Movaleduft library, in which every function is
//! proved to meet its contract. A host of ironsight changes one line of its Cargo.toml, and unwraps what `encode` answers:
//!
//! ```toml
//! ironsight = { package = "movaleduft", path = "PATH/bindings/rust" }
//! ```
//!
//! The build links target/libmovaleduft.a, which `./library` writes in the folder of the repository (or the libmovaleduft.a of
//! the folder that `MOVALEDUFT_LIB_DIR` names).
//!
//! ```
//! use movaleduft::frame::{FrameSplitter, RawFrame};
//!
//! // document 01's stream: noise, a frame, and a frame with nothing in it
//! let stream = [0x00, 0xF0, 0x40, 0x10, 0x01, 0x00, 0x51, 0xF1, 0xF0, 0xF1];
//! let mut splitter = FrameSplitter::new();
//! let wires = splitter.feed(&stream);
//!
//! let frame = RawFrame::parse(&wires[0])?;
//! assert_eq!((frame.dest.as_byte(), frame.src.as_byte(), frame.type_id), (0x40, 0x10, 0x01));
//! assert_eq!(frame.encode()?, wires[0]);
//!
//! let refused = RawFrame::parse(&wires[1]).unwrap_err();
//! assert_eq!((refused.number(), refused.values()), (1, vec![2]));
//!
//! // what the line loses: one byte of ten was noise
//! let counts = splitter.counts();
//! assert_eq!((counts.taken, counts.dropped, counts.framed), (10, 1, 9));
//! # Ok::<(), movaleduft::error::WireError>(())
//! ```
//!
//! # Where it has a limit that ironsight lacks
//!
//! - [`FrameSplitter::new`](frame::FrameSplitter::new) holds 131,082 bytes, enough for every wire of the encoder; a longer frame is
//!   left out and counted. [`with_hold`](frame::FrameSplitter::with_hold) takes another length.
//! - [`RawFrame::encode`](frame::RawFrame::encode) answers a `Result`: a payload above 65,535 bytes is refused.
//! - A splitter takes 2^64 - 1 bytes in all, which its [`counts`](frame::FrameSplitter::counts) can count, and panics at more.
//! - A field's place whose sum with its width passes the largest `usize` is refused; ironsight's sum wraps.
//!
//! # What else differs
//!
//! - A wire whose interior ends in a lone FD is [`CutEscape`](error::WireError::CutEscape), not `InvalidEscape` with code 00.
//! - Texts of errors are this crate's own; [`number`](error::WireError::number) and [`values`](error::WireError::values) tell which
//!   refusal it is. Three variants that nothing ported gives are left out, and so are serde and the messages of config.rs.
#![deny(missing_docs, unsafe_code)]

pub mod addr;
#[doc(hidden)]
pub mod c;
pub mod codec;
pub mod error;
#[allow(unsafe_code)]
mod ffi;
pub mod frame;
pub mod protocol;
