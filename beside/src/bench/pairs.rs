//! Times both sides in pairs, and prints a row for each operation; at the end, the rows in which the port is the slower one.
//! A pair is both sides, one right after the other, in alternating order: where the machine's speed swings, it swings for both.
use std::hint::black_box;
use std::time::Instant;

/// A row's pairs take this long in all, or as long as the least number of them takes.
const ROW_SECONDS: f64 = 0.5;
const LEAST_PAIRS: usize = 31;
/// For a stream so long that more would take many seconds.
const LONG: usize = 1 << 26;
const LEAST_LONG_PAIRS: usize = 9;
/// A pair takes at least this long: the clock's own step is nothing beside it.
const PAIR_SECONDS: f64 = 0.0005;

/// What a row says of its input, for one pass over it; no bytes where a rate would say nothing.
pub struct Row<'a> {
    pub name: &'a str,
    pub calls: usize,
    pub bytes: usize,
}

/// The rows in which the port is the slower one, as printed.
#[derive(Default)]
pub struct Table {
    below: Vec<String>,
}

fn seconds(turns: usize, pass: &mut impl FnMut() -> usize) -> f64 {
    let start = Instant::now();
    for _ in 0..turns {
        black_box(pass());
    }
    start.elapsed().as_secs_f64()
}

/// How often a pass is made in each half of a pair. What a side does once, at its first calls, is done here.
fn turns(rust: &mut impl FnMut() -> usize, port: &mut impl FnMut() -> usize) -> usize {
    let mut turns = 1;
    while seconds(turns, port) + seconds(turns, rust) < PAIR_SECONDS {
        turns *= 2;
    }
    turns
}

fn median(mut xs: Vec<f64>) -> f64 {
    xs.sort_by(f64::total_cmp);
    xs[xs.len() / 2]
}

const COLUMNS: &str = "| operation | port, ns | Rust, ns | Rust / port | MiB/s |\n|---|---|---|---|---|";

impl Table {
    pub fn open(&self, group: &str) {
        println!("\n{group}\n\n{COLUMNS}");
    }

    /// Prints a row: each number is the median over the pairs. What a pass answers is the same on both sides.
    pub fn row(&mut self, row: Row, mut rust: impl FnMut() -> usize, mut port: impl FnMut() -> usize) {
        assert_eq!(rust(), port(), "the two sides answer differently: {}", row.name);
        let turns = turns(&mut rust, &mut port);
        let least = if row.bytes < LONG { LEAST_PAIRS } else { LEAST_LONG_PAIRS };
        let (start, mut pairs) = (Instant::now(), Vec::new());
        while pairs.len() < least || start.elapsed().as_secs_f64() < ROW_SECONDS {
            pairs.push(if pairs.len() % 2 == 0 {
                let first = seconds(turns, &mut port);
                (first, seconds(turns, &mut rust))
            } else {
                let first = seconds(turns, &mut rust);
                (seconds(turns, &mut port), first)
            });
        }
        self.print(&row, turns, &pairs);
    }

    fn print(&mut self, row: &Row, turns: usize, pairs: &[(f64, f64)]) {
        let of = |f: fn(&(f64, f64)) -> f64| median(pairs.iter().map(f).collect());
        let (port, rust, ratio) = (of(|p| p.0) / turns as f64, of(|p| p.1) / turns as f64, of(|p| p.1 / p.0));
        let ns = 1e9 / row.calls as f64;
        let rate = if row.bytes == 0 { String::new() } else { format!("{:.0}", row.bytes as f64 / port / f64::from(1 << 20)) };
        let line = format!("| {} | {:.1} | {:.1} | {ratio:.2} | {rate} |", row.name, port * ns, rust * ns);
        println!("{line}");
        if ratio < 0.995 {
            self.below.push(line);
        }
    }

    pub fn end(&self) {
        if self.below.is_empty() {
            println!("\nNo row is below 1.00.");
        } else {
            println!("\nBelow 1.00, {} of the rows:\n\n{COLUMNS}\n{}", self.below.len(), self.below.join("\n"));
        }
    }
}
