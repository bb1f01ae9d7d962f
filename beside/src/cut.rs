//! Request 2: an escape that is cut off, FD with nothing behind it in the interior. The Rust tells it as code 00, the port by a
//! number of its own; condition 2 reads the one as the other.
use crate::answer::{Answer, Case};
use crate::ops;

/// The offset of the escape that is cut off, where a case is a wire whose first wrong escape it is: found in the wire's own bytes.
fn found(c: &Case) -> Option<u64> {
    let inner = match &c.data[..] {
        [0xF0, inner @ .., 0xF1] if matches!(c.op, ops::OPEN | ops::COPY_PAYLOAD) && inner.len() >= 5 => inner,
        _ => return None,
    };
    let mut bytes = inner.iter().enumerate();
    while let Some((offset, &byte)) = bytes.next() {
        if byte == 0xFD {
            match bytes.next() {
                None => return Some(offset as u64),
                Some((_, 1..=4)) => {}
                Some(_) => return None,
            }
        }
    }
    None
}

/// The Rust's answer as the port has to tell it: code 00 is the cut escape exactly where the case's bytes have one.
pub fn as_port(c: &Case, rust: Answer) -> Answer {
    match found(c) {
        Some(offset) => {
            let told = Answer { bytes: rust.bytes.clone(), ..Answer::refused(4, &[0x00, offset]) };
            assert_eq!(rust, told, "the Rust tells a cut escape by another answer");
            Answer { bytes: rust.bytes, ..Answer::refused(12, &[offset]) }
        }
        None => rust,
    }
}
