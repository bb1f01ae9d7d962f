//! The inputs of docs/DIFFERENCES.md on both sides: what the Rust itself answers, without document 01's limits, and the port.
//! A debug build of the Rust panics where a sum wraps: run this in both builds.
use crate::answer::{hex, Answer, Case};
use crate::{cases, counted, ops, port};
use ironsight::addr::BusAddr;
use ironsight::codec;
use ironsight::frame::{FrameSplitter, RawFrame};
use ironsight::protocol::shot::{ClubPrc, FlightResult, PrcData, ShotText, SpeedProfile};
use std::panic::{catch_unwind, set_hook, take_hook, UnwindSafe};

/// What the Rust answers, or that it panics.
fn rust(f: impl FnOnce() -> String + UnwindSafe) -> String {
    catch_unwind(f).unwrap_or_else(|_| "panics".into())
}

fn said(a: &Answer) -> String {
    let bytes = if a.bytes.len() > 16 { format!(":{} bytes", a.bytes.len()) } else { format!(":{}", hex(&a.bytes)) };
    let numbers = Answer { bytes: Vec::new(), ..a.clone() }.line();
    numbers.trim_end_matches(':').to_string() + &bytes
}

fn row(what: &str, op: u8, a: u64, b: u64, data: &[u8], f: impl FnOnce() -> String + UnwindSafe) {
    let port = port::ask(&Case { op, a, b, data: data.to_vec() });
    println!("| {what} | {} | {} |", rust(f), said(&port));
}

/// The bytes that the Rust's writer appends.
fn pushed(f: impl FnOnce(&mut Vec<u8>)) -> String {
    let mut v = Vec::new();
    f(&mut v);
    hex(&v)
}

fn frame(payload: Vec<u8>) -> RawFrame {
    RawFrame { dest: BusAddr::App, src: BusAddr::Dsp, type_id: 1, payload }
}

fn fields() {
    let far = u64::MAX - 1;
    row("read_int24 of no bytes at 18446744073709551614", ops::READ_INT24, far, 0, &[], move || {
        format!("{:?}", codec::read_int24(&[], far as usize))
    });
    row("read_int24 of 01 02 03 at 18446744073709551615", ops::READ_INT24, u64::MAX, 0, &[1, 2, 3], || {
        format!("{:?}", codec::read_int24(&[1, 2, 3], usize::MAX))
    });
    row("read_float40 of 5 bytes at 18446744073709551611", ops::READ_FLOAT40, u64::MAX - 4, 0, &[0; 5], || {
        format!("{:?}", codec::read_float40(&[0; 5], usize::MAX - 4))
    });
    row("write_int24 of 1 into 2 bytes", ops::WRITE_INT24, 0, 1, &[0xA5; 2], || pushed(|v| codec::write_int24(v, 1)));
}

fn frames() {
    row("encode 257 bytes FF after 40 10 01: the checksum passes 65,535", ops::ENCODE, 0x40_1001, 300, &[0xFF; 257], || {
        let wire = RawFrame { dest: BusAddr::Dsp, src: BusAddr::App, type_id: 1, payload: vec![0xFF; 257] }.encode();
        format!("{} bytes, checksum {}", wire.len(), hex(&wire[wire.len() - 3..wire.len() - 1]))
    });
    row("encode 65,536 bytes", ops::ENCODE, 0x10_4001, 8, &[0; 65_536], || format!("{} bytes", frame(vec![0; 65_536]).encode().len()));
    row("encode no bytes into 6", ops::ENCODE, 0x10_4001, 6, &[], || hex(&frame(Vec::new()).encode()));
    let wire = frame(vec![7, 7]).encode();
    let same = wire.clone();
    let sound = [0xF0, 0x40, 0x10, 0x01, 0x00, 0x51, 0xF1];
    row("open F0 40 10 01 00 51 F1", ops::OPEN, 0, 0, &sound, move || format!("{:?}", RawFrame::parse(&sound)));
    row("copy the payload of F0 40 10 01 00 51 F1", ops::COPY_PAYLOAD, 1, 0, &sound, move || format!("{:?}", RawFrame::parse(&sound).map(|f| f.payload)));
    let cut = [0xF0, 0x40, 0x10, 0x01, 0x00, 0xFD, 0xF1];
    row("open F0 40 10 01 00 FD F1", ops::OPEN, 0, 0, &cut, move || format!("{:?}", RawFrame::parse(&cut)));
    row("copy a payload of 2 into 1", ops::COPY_PAYLOAD, 1, 0, &wire, move || {
        format!("{:?}", RawFrame::parse(&same).map(|f| f.payload))
    });
    row("split F0 00 00 F1, H 3", ops::SPLIT, 3, 0, &[0xF0, 0, 0, 0xF1], || {
        format!("{:X?}", FrameSplitter::new().feed(&[0xF0, 0, 0, 0xF1]))
    });
    states();
}

/// A state that the caller gives: the Rust's is its own.
fn state_row(what: &str, c: Case) {
    row(what, c.op, c.a, c.b, &c.data, || "no such state".into());
}

fn states() {
    state_row("a count of 1 where H is 0", cases::state(1, 0, 0, vec![]));
    state_row("a mark of 2, H 3", cases::state(0, 3, 2, vec![0xF1]));
    let noise = [0x00, 0xF0, 0xF1, 0x00, 0xF0, 0x00, 0x00, 0xF1, 0xF0];
    row("the counts of 00 F0 F1 00 F0 00 00 F1 F0, H 3", ops::SPLIT, 3, 0, &noise, move || {
        format!("{:X?}, no counts", FrameSplitter::new().feed(&noise))
    });
    state_row("taken 1, and nothing else counted, H 3", counted::state(0, 3, 0, [1, 0, 0, 0, 0], &[]));
    state_row("held 1 with a count of 0, H 3", counted::state(0, 3, 0, [1, 0, 0, 0, 1], &[]));
    let most = [u64::MAX, u64::MAX, 0, 0, 0];
    state_row("taken 18446744073709551615, all dropped, and no byte more", counted::state(0, 3, 0, most, &[]));
    state_row("taken 18446744073709551615, all dropped, and 00", counted::state(0, 3, 0, most, &[0x00]));
}

fn messages() {
    row("D9 of 14 bytes, room for none", ops::SPEED_PROFILE, 0, 0, &[0; 14], || {
        format!("{} speeds", SpeedProfile::decode(&[0; 14]).unwrap().speeds.len())
    });
    row("EC of 4 bytes, point 0", ops::PRC_POINT, 0, 0, &[0; 4], || format!("{} points", PrcData::decode(&[0; 4]).unwrap().points.len()));
    row("EE of no bytes, point 0", ops::CLUB_PRC_POINT, 0, 0, &[], || format!("{} points", ClubPrc::decode(&[]).unwrap().points.len()));
    row("EE request into 76 bytes", ops::ENCODE_REQUEST, 0, 1, &[0; 76], || format!("{} bytes", ClubPrc::encode_request(1).len()));
    row("E5 of FF", ops::SHOT_TEXT, 0, 0, &[0xFF], || hex(ShotText::decode(&[0xFF]).unwrap().text.as_bytes()));
    let mut short = [0; 157];
    short[18] = 1;
    row("D4, launch speed 0.001, flight time 0, by rule 2", ops::IS_FAILED, 2, 0, &short, move || {
        format!("is_model_failure: {}", FlightResult::decode(&short).unwrap().is_model_failure())
    });
    row("D4 by rule 3", ops::IS_FAILED, 3, 0, &[0; 157], || "no such call".into());
    row("D5, field 0", ops::FIELD, 0, 0xD5, &[0; 157], || "no such call".into());
    row("D4, field 52", ops::FIELD, 52, 0xD4, &[0; 157], || "no such call".into());
    row("the bay log's record into 31 bytes", ops::BAY_LOG, 1, 31, &[0; 157], || "no such call".into());
}

pub fn run() {
    let hook = take_hook();
    set_hook(Box::new(|_| {}));
    println!("The Rust's build: {}\n", if cfg!(debug_assertions) { "debug" } else { "release" });
    println!("| input | Rust | port |\n|---|---|---|");
    fields();
    frames();
    messages();
    set_hook(hook);
}
