//! Makes request 6's cases: states with their counts, which balance or nearly do, that are offered chunks which can be counted, or
//! nearly can. What each has to answer is reckoned in noise.rs.
use crate::answer::Case;
use crate::cases::{self, Random};
use crate::noise::Counts;
use crate::ops::{self, State};

/// A state with its counts, and what is offered to it.
pub fn state(count: u64, hold: u64, mark: u8, counts: Counts, chunk: &[u8]) -> Case {
    let mut data: Vec<u8> = counts.into_iter().flat_map(u64::to_le_bytes).collect();
    data.extend_from_slice(chunk);
    Case { op: ops::COUNTED, a: count, b: hold << 8 | mark as u64, data }
}

/// Counts about some that balance: each off by one; and of each two of the parts, one raised by as much as the other is lowered, in
/// 64 bits. Where that moves bytes from one to the other, the sum is as it was; where a part wraps, it is so in 64 bits alone.
fn about(counts: Counts) -> impl Iterator<Item = Counts> {
    let with = move |changes: &[(usize, u64)]| {
        let mut other = counts;
        changes.iter().for_each(|&(k, by)| other[k] = other[k].wrapping_add(by));
        other
    };
    let off = (0..5).flat_map(move |k| [1, u64::MAX].map(|by| with(&[(k, by)])));
    let two = (1..5).flat_map(|i| (1..i).map(move |j| (i, j)));
    off.chain(two.flat_map(move |(i, j)| [1, u64::MAX, 1 << 63].map(|by| with(&[(i, by), (j, by.wrapping_neg())]))))
}

/// Counts that balance: of the bytes that were taken and are not held, so many were dropped and so many handed over in frames.
fn balanced(taken: u64, dropped: u64, framed: u64, held: u64) -> Counts {
    [taken, dropped, framed, taken - held - dropped - framed, held]
}

/// The bytes that are not held, all in one of the three others, or some in each.
fn shares(rest: u64) -> [(u64, u64); 4] {
    [(rest, 0), (0, rest), (0, 0), (rest / 3, rest / 2)]
}

/// Nothing, an end, a start, and more: what is dropped, held, completed, too long or skipped.
const CHUNKS: [&[u8]; 8] = [
    &[],
    &[0xF1],
    &[0xF0],
    &[0x00, 0xF0],
    &[0x07, 0xF1, 0xF0, 0x08],
    &[0x07, 0x08, 0x09, 0xF1, 0xF0, 0xF1],
    &[0x00, 0xF1, 0x00, 0xF1, 0x00],
    &[0xF0, 0xF0, 0xF0, 0xF0, 0xF0],
];

/// Counts, marks and H: those of a call, then those that no call gives, whatever was counted.
const STATES: [(u64, u64, u8); 11] = [
    (0, 0, 0),
    (0, 3, 0),
    (1, 3, 0),
    (2, 3, 0),
    (3, 3, 0),
    (0, 0, 1),
    (0, 3, 1),
    (4, 3, 0),
    (1, 3, 1),
    (0, 3, 2),
    (0, 3, 255),
];

/// What may have been taken before so many bytes more: little, much, all that leaves room for them, a byte less, a byte more.
fn taken(held: u64, more: u64) -> [u64; 8] {
    let most = u64::MAX - more;
    [held, held + 1, held + 7, 1 << 32, 1 << 63, most - 1, most, most.saturating_add(1)]
}

/// States with counts that balance and all about them, offered each chunk.
fn near_balance(mut take: impl FnMut(Case)) {
    for (count, hold, mark) in STATES {
        for chunk in CHUNKS {
            for taken in taken(count, chunk.len() as u64) {
                for (dropped, framed) in shares(taken - count) {
                    let counts = balanced(taken, dropped, framed, count);
                    take(state(count, hold, mark, counts, chunk));
                    about(counts).for_each(|other| take(state(count, hold, mark, other, chunk)));
                }
            }
        }
    }
}

/// Every five counts of a few numbers, in every small state.
fn every_few(mut take: impl FnMut(Case)) {
    const NUMBERS: [u64; 4] = [0, 1, 2, u64::MAX];
    for k in 0..1 << 10 {
        let counts = [8, 6, 4, 2, 0].map(|shift| NUMBERS[k >> shift & 3]);
        for (count, hold, mark) in STATES {
            CHUNKS[..4].iter().for_each(|chunk| take(state(count, hold, mark, counts, chunk)));
        }
    }
}

pub fn bounded(mut take: impl FnMut(Case)) {
    near_balance(&mut take);
    every_few(&mut take);
}

/// A state that is given counts: most often those of some line of any length, else some about them.
pub fn random(r: &mut Random) -> Case {
    let c = cases::state_case(r);
    let State { count, hold, mark, chunk, .. } = State::of(&c);
    let taken = match r.below(3) {
        0 => r.next() >> r.below(64),
        1 => (u64::MAX - chunk.len() as u64).saturating_add(r.below(4) as u64) - r.below(3) as u64,
        _ => count.saturating_add(r.below(300) as u64),
    };
    let taken = taken.max(count);
    let mut part = |of: u64| if r.below(3) == 0 { 0 } else { r.next() % of.max(1) };
    let dropped = part(taken - count);
    let framed = part(taken - count - dropped);
    let counts = balanced(taken, dropped, framed, count);
    if r.below(3) > 0 {
        return state(count, hold, mark, counts, chunk);
    }
    let others: Vec<Counts> = about(counts).collect();
    state(count, hold, mark, others[r.below(others.len())], chunk)
}
