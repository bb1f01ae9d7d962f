//! Frames and the splitter (ironsight's frame.rs). A wire is F0, the stuffed bytes DEST SRC TYPE PAYLOAD CS_HI CS_LO, and F1.
//! The library checks, copies and stuffs; here are the buffers that it is lent.
use crate::addr::BusAddr;
use crate::error::Result;
use crate::ffi;

/// A frame, unstuffed.
#[derive(Debug, Clone, PartialEq, Eq)]
pub struct RawFrame {
    /// Where it goes.
    pub dest: BusAddr,
    /// Where it comes from.
    pub src: BusAddr,
    /// The message's type byte.
    pub type_id: u8,
    /// The payload.
    pub payload: Vec<u8>,
}

/// What a frame says before its payload, and how long that is.
#[derive(Debug, Clone, Copy, PartialEq, Eq)]
pub struct Header {
    /// Where it goes.
    pub dest: BusAddr,
    /// Where it comes from.
    pub src: BusAddr,
    /// The message's type byte.
    pub type_id: u8,
    /// The payload's length.
    pub len: usize,
}

impl RawFrame {
    /// Parses one wire, from its F0 to its F1.
    ///
    /// # Errors
    ///
    /// Refusals 1 to 6, as ironsight's, and 12, [`CutEscape`](crate::error::WireError::CutEscape), where ironsight has 4 with
    /// code 00.
    pub fn parse(wire: &[u8]) -> Result<Self> {
        let Header { dest, src, type_id, len } = Self::open(wire)?;
        let mut payload = vec![0; len];
        ffi::copy_payload(wire, &mut payload)?;
        Ok(Self { dest, src, type_id, payload })
    }

    /// Makes every check of [`parse`](Self::parse), and copies nothing.
    ///
    /// # Errors
    ///
    /// As `parse`.
    pub fn open(wire: &[u8]) -> Result<Header> {
        let [dest, src, type_id, len] = ffi::open(wire)?;
        Ok(Header {
            dest: BusAddr::from_byte(dest as u8)?,
            src: BusAddr::from_byte(src as u8)?,
            type_id: type_id as u8,
            len: len as usize,
        })
    }

    /// Copies a wire's payload to the front of a buffer, and answers its length; the rest of the buffer keeps its bytes.
    ///
    /// # Errors
    ///
    /// As `parse`, then 8, [`NoRoom`](crate::error::WireError::NoRoom); the buffer is as it was.
    pub fn copy_payload(wire: &[u8], buf: &mut [u8]) -> Result<usize> {
        ffi::copy_payload(wire, buf)
    }

    /// Encodes the frame as a wire. ironsight's answers a `Vec` for a payload of any length.
    ///
    /// # Errors
    ///
    /// [`PayloadTooLong`](crate::error::WireError::PayloadTooLong) for a payload above 65,535 bytes.
    pub fn encode(&self) -> Result<Vec<u8>> {
        // the two marks, and at most two bytes for each of DEST, SRC, TYPE, the payload's and the checksum's two
        let mut wire = vec![0; 2 * self.payload.len() + 12];
        let len = ffi::encode(self.dest.as_byte(), self.src.as_byte(), self.type_id, &self.payload, &mut wire)?;
        wire.truncate(len);
        Ok(wire)
    }
}

/// The longest wire that [`RawFrame::encode`] gives: the marks, and 65,540 bytes, each of them stuffed.
const LONGEST: usize = 131_082;

/// Cuts a stream of bytes into wires, however it is chunked: of two ways to chunk it, the wires, the counts, the mark and the bytes
/// held are the same.
///
/// It holds an open frame up to a limit that ironsight lacks, 131,082 bytes or [`with_hold`](Self::with_hold)'s. A longer
/// frame is left out of what [`feed`](Self::feed) answers, and [`overlong`](Self::overlong) counts it.
/// [`counts`](Self::counts) tells what became of every byte.
pub struct FrameSplitter {
    hold: Box<[u8]>,
    /// The count, the mark and the five counts.
    state: [u64; 7],
    overlong: u64,
}

/// What became of the bytes that a splitter was fed since it was new, so many of each; `taken` is the sum of the other four.
#[derive(Debug, Clone, Copy, Default, PartialEq, Eq)]
pub struct Counts {
    /// All of them.
    pub taken: u64,
    /// Outside frames: the line's noise.
    pub dropped: u64,
    /// In the frames that were answered, F0 and F1 included.
    pub framed: u64,
    /// In frames longer than the splitter holds, one that is still open included.
    pub lost: u64,
    /// In the frame that is still open, where it is no longer than that.
    pub held: u64,
}

impl FrameSplitter {
    /// A splitter that holds 131,082 bytes: enough for every wire that [`RawFrame::encode`] gives.
    pub fn new() -> Self {
        Self::with_hold(LONGEST)
    }

    /// A splitter that holds so many bytes, and leaves out every frame longer than that.
    pub fn with_hold(bytes: usize) -> Self {
        Self { hold: vec![0; bytes].into(), state: [0; 7], overlong: 0 }
    }

    /// Takes all the bytes, and answers the frames that they complete, each from its F0 to its F1.
    ///
    /// # Panics
    ///
    /// Where the bytes since it was new would be more than 18,446,744,073,709,551,615, which [`Counts`] cannot count.
    pub fn feed(&mut self, data: &[u8]) -> Vec<Vec<u8>> {
        let mut frames = Vec::new();
        let mut rest = data;
        while !rest.is_empty() {
            let fed = ffi::feed(&mut self.state, &mut self.hold, rest);
            let fed = fed.expect("the library takes each state that it gave, up to 2^64 - 1 bytes");
            let [event, taken, in_hold, start, len] = fed.map(|n| n as usize);
            match event {
                1 => frames.push((if in_hold == 1 { &self.hold } else { rest })[start..start + len].to_vec()),
                2 => self.overlong += 1,
                _ => {}
            }
            rest = &rest[taken..];
        }
        frames
    }

    /// How many frames were left out so far since they were longer than the splitter holds.
    pub fn overlong(&self) -> u64 {
        self.overlong
    }

    /// What became of the bytes so far.
    pub fn counts(&self) -> Counts {
        let [_, _, taken, dropped, framed, lost, held] = self.state;
        Counts { taken, dropped, framed, lost, held }
    }

    /// The bytes held of a frame that is still open.
    pub fn held(&self) -> &[u8] {
        &self.hold[..self.state[0] as usize]
    }

    /// Whether the frame that is still open is already longer than the splitter holds.
    pub fn is_skipping(&self) -> bool {
        self.state[1] != 0
    }
}

impl Default for FrameSplitter {
    fn default() -> Self {
        Self::new()
    }
}
