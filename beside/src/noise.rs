//! Request 6: the five counts of a line, reckoned from the Rust's frames and by a walk of its own, and the states that are refused.
//! The Rust counts nothing; it is fed the whole line at once, however the port's is cut.
use crate::ops::State;
use ironsight::frame::FrameSplitter;

/// Bytes taken, dropped, framed, lost and held, in this order everywhere.
pub type Counts = [u64; 5];

/// The bytes that stand in no frame and in no open start.
fn dropped(line: &[u8]) -> usize {
    let mut open = false;
    let outside = |&&byte: &&u8| {
        let was_open = open;
        open = if was_open { byte != 0xF1 } else { byte == 0xF0 };
        !was_open && !open
    };
    line.iter().filter(outside).count()
}

/// The counts of a line from its first byte on, where an open frame is held up to so many bytes.
pub fn counts(line: &[u8], hold: usize) -> Counts {
    let mut rust = FrameSplitter::new();
    let frames: Vec<usize> = rust.feed(line).iter().map(Vec::len).collect();
    // what its buffer keeps, an end hands over
    let open = rust.feed(&[0xF1]).first().map_or(0, |frame| frame.len() - 1);
    let sum = |kept: bool| frames.iter().filter(|&&len| (len <= hold) == kept).sum::<usize>();
    let (lost, held) = if open > hold { (open, 0) } else { (0, open) };
    let counts = [line.len(), dropped(line), sum(true), sum(false) + lost, held].map(|n| n as u64);
    assert!(balance(counts), "the Rust's frames and the walk leave a byte out, or have one twice: {counts:?}");
    counts
}

/// Whether taken is the sum of the other four, which no sum of 128 bits wraps.
pub fn balance(counts: Counts) -> bool {
    let [taken, others @ ..] = counts.map(u128::from);
    taken == others.iter().sum()
}

/// The refusal of a state, with the chunk that it is offered: 9, then 13.
pub fn refusal(s: &State) -> Option<u64> {
    let held = match s.mark {
        0 => s.count <= s.hold,
        1 => s.count == 0,
        _ => false,
    };
    if !(held && balance(s.counts) && s.counts[4] == s.count) {
        return Some(9);
    }
    let taken = u128::from(s.counts[0]) + s.chunk.len() as u128;
    (taken > u128::from(u64::MAX)).then_some(13)
}
