//! The speed of the port beside the Rust: the same inputs, the same process, in pairs; lent buffers are not cleared before a call.
//! The rows come in groups: one that is measured alone has the inputs that it has among all.
mod fields;
mod inputs;
mod messages;
mod pairs;
mod sides;
mod streams;
mod wires;
mod worst;

use pairs::Table;

/// Measures the rows of a group.
type Measure = fn(&mut Table);

pub static GROUPS: [(&str, Measure); 7] = [
    ("fields", fields::measure),
    ("messages", messages::measure),
    ("frames", wires::frames),
    ("specials", wires::specials),
    ("sizes", wires::sizes),
    ("streams", streams::measure),
    ("worst", worst::measure),
];

const HEAD: &str = "\
Rust / port is the Rust's time over the port's: how many times as fast as the Rust the port is. 1.00 is as fast, higher is better.
It is the median of the pairs' own ratios; a time is the median of its side, ns a call: a field, a message, a frame, of a stream a
frame found there, or a chunk where none is. MiB/s is the port's, of wire or stream. To parse is, in the port, to open and then copy.";

/// The group of a name, alone.
pub fn group(name: &str) -> Option<&'static [(&'static str, Measure)]> {
    GROUPS.iter().position(|g| g.0 == name).map(|at| &GROUPS[at..=at])
}

pub fn run(groups: &[(&str, Measure)]) {
    println!("{HEAD}");
    let mut table = Table::default();
    for (name, measure) in groups {
        table.open(name);
        measure(&mut table);
    }
    table.end();
}
