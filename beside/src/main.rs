//! Runs the port beside the Rust: the same cases to the Rust, to the exported calls and to the crate of bindings/rust, every value
//! compared, floats by their bits. beside/run builds it; `USAGE` has the words.
mod answer;
mod bench;
mod binding;
mod cases;
mod counted;
mod cut;
mod differences;
mod list;
mod noise;
mod ops;
mod port;
mod rust;

use answer::{Answer, Case};
use cases::Random;
use std::panic::catch_unwind;
use std::process::exit;

const SEED: u64 = 2026;
const CASES: u64 = 10_000_000;

const USAGE: &str = "\
beside [CASES [SEED]]   compare: short inputs all, the boundaries, and CASES random ones (10000000) of SEED (2026),
                        each random stream in two cuttings
beside mantissas        compare FLOAT40 read: each leading one at every exponent, every mantissa at a few exponents
beside bench [GROUP]    the time of both sides, in pairs, and how many times as fast as the Rust the port is;
                        GROUP alone: fields, messages, frames, specials, sizes, streams or worst
beside differences      the inputs of docs/DIFFERENCES.md, and what each side answers
beside list DIR         write the fixed list: DIR/stdin has the cases, DIR/stdout the Rust's answers";

/// What answers a case.
type Ask = fn(&Case) -> Answer;

/// A side's answer to a case. Where it panics, the case is printed and ends the run.
fn asked(side: &str, c: &Case, ask: Ask) -> Answer {
    catch_unwind(|| ask(c)).unwrap_or_else(|_| {
        println!("PANICS\n  side  {side}\n  case  {}", c.line());
        exit(1)
    })
}

/// The Rust's answer, a cut escape told as the port has to.
fn wanted(c: &Case) -> Answer {
    asked("rust", c, |c| cut::as_port(c, rust::ask(c)))
}

/// What is held to the Rust.
const SIDES: [(&str, Ask); 2] = [("port", port::ask), ("crate", binding::ask)];

/// Every side's answer to a case; the first that differs ends the run.
fn compare(c: &Case) {
    let want = wanted(c);
    for (side, ask) in SIDES {
        let got = asked(side, c, ask);
        if got != want {
            let rust = rust::ask(c);
            println!("DIFFERS\n  case  {}\n  rust  {}\n  want  {}\n  {side:5} {}", c.line(), rust.line(), want.line(), got.line());
            exit(1);
        }
    }
}

/// Request 14: of two cuttings of one stream a side hears the same, the frames, the Overlong answers, the count, the mark, the counts and
/// the bytes held; and it hears what the Rust does.
fn compare_cuttings(one: &Case, other: &Case) {
    for (side, ask) in SIDES {
        let (heard, again) = (asked(side, one, ask), asked(side, other, ask));
        if heard != again {
            let (one, other) = (one.line(), other.line());
            println!("DIFFERS BY THE CUT\n  case  {one}\n  {side:5} {}\n  case  {other}\n  {side:5} {}", heard.line(), again.line());
            exit(1);
        }
    }
    compare(one);
    compare(other);
}

fn run(count: u64, seed: u64) {
    let mut r = Random::new(seed);
    let (mut done, mut streams) = (0u64, 0u64);
    let mut take = |c: Case| {
        compare(&c);
        done += 1;
    };
    cases::exhaustive(&mut take);
    cases::bounded(&mut r, &mut take);
    counted::bounded(&mut take);
    cases::long(&mut r).into_iter().for_each(&mut take);
    for _ in 0..count {
        let c = cases::random(&mut r);
        if let Some(other) = cases::recut(&mut r, &c) {
            compare_cuttings(&c, &other);
            streams += 1;
        } else {
            compare(&c);
        }
        done += 1;
    }
    println!("{done} cases, {count} of them random, seed {seed}: every answer of the port and of its crate is the Rust's");
    println!("{streams} of the random ones are streams, each in two cuttings: what is heard is the same");
}

fn mantissas() {
    let mut done = 0u64;
    cases::mantissas(|c| {
        compare(&c);
        done += 1;
    });
    println!("{done} FLOAT40 fields: every answer of the port and of its crate is the Rust's");
}

/// What was asked for cannot be understood.
fn refuse(word: &str) -> ! {
    eprintln!("beside: no such word, or one too many: {word}\n{USAGE}");
    exit(2)
}

fn number(word: &str) -> u64 {
    word.parse().unwrap_or_else(|_| refuse(word))
}

fn main() {
    let args: Vec<String> = std::env::args_os().skip(1).map(|word| word.to_string_lossy().into_owned()).collect();
    match args.iter().map(String::as_str).collect::<Vec<_>>()[..] {
        ["--help"] => println!("{USAGE}"),
        ["bench"] => bench::run(&bench::GROUPS),
        ["bench", group] => bench::run(bench::group(group).unwrap_or_else(|| refuse(group))),
        ["differences"] => differences::run(),
        ["mantissas"] => mantissas(),
        ["list", dir] => {
            if let Err(e) = list::write(dir) {
                eprintln!("beside: the list cannot be written into {dir}: {e}");
                exit(1);
            }
        }
        [] => run(CASES, SEED),
        [count] => run(number(count), SEED),
        [count, seed] => run(number(count), number(seed)),
        [.., last] => refuse(last),
    }
}
