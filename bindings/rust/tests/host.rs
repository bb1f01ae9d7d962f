//! The crate as a host meets it: document 01's worked examples, a frame that is too long, a refusal's number and values.
//! Whether it answers as ironsight does is what `beside/run` compares.
use movaleduft::addr::BusAddr;
use movaleduft::codec::{read_float40, read_int24, write_float40, write_int24};
use movaleduft::error::{value_count, WireError};
use movaleduft::frame::{Counts, FrameSplitter, RawFrame};
use movaleduft::protocol::shot::{bay_log, field, ClubPrc, Field, FlightResult, FlightResultV1, LeagueRule, ShotText};

fn wire(payload: &[u8]) -> Vec<u8> {
    let frame = RawFrame { dest: BusAddr::Dsp, src: BusAddr::App, type_id: 0x01, payload: payload.to_vec() };
    let wire = frame.encode().unwrap();
    assert_eq!(RawFrame::parse(&wire), Ok(frame));
    wire
}

#[test]
fn document_01s_wires() {
    assert_eq!(wire(&[]), [0xF0, 0x40, 0x10, 0x01, 0x00, 0x51, 0xF1]);
    assert_eq!(wire(&[0xF0]), [0xF0, 0x40, 0x10, 0x01, 0xFD, 0x01, 0x01, 0x4F, 0xF1]);
    assert_eq!(wire(&[0x9F]), [0xF0, 0x40, 0x10, 0x01, 0x9F, 0x00, 0xFD, 0x01, 0xF1]);
    assert_eq!(wire(&[0xFA]), [0xF0, 0x40, 0x10, 0x01, 0xFD, 0x04, 0x01, 0x52, 0xF1]);
    let raw = RawFrame::parse(&[0xF0, 0x40, 0x10, 0x01, 0xFA, 0x01, 0x4B, 0xF1]).unwrap();
    assert_eq!(raw.payload, [0xFA]);
    let cut = RawFrame::parse(&[0xF0, 0x40, 0x10, 0x01, 0x00, 0xFD, 0xF1]);
    assert_eq!(cut, Err(WireError::CutEscape { offset: 4 }));
    let short = RawFrame::open(&[0xF0, 0xFD, 0x01, 0x40, 0x10, 0x01, 0xF1]);
    assert_eq!(short, Err(WireError::FrameTooShort { len: 7 }));
    // the checksum wraps, the longest wire is all stuffed but for its header, and one byte more is refused
    assert_eq!(wire(&[0xFF; 257])[261..], [0x00, 0x50, 0xF1]);
    assert_eq!(wire(&[0xFD; 65_535]).len(), 131_077);
    let longer = RawFrame { dest: BusAddr::Dsp, src: BusAddr::App, type_id: 0x01, payload: vec![0; 65_536] };
    assert_eq!(longer.encode(), Err(WireError::PayloadTooLong { len: 65_536 }));
}

#[test]
fn document_01s_float40s() {
    for (bytes, value) in [
        ([0x00, 0x01, 0x40, 0x00, 0x00], 1.0),
        ([0x00, 0x00, 0xC0, 0x00, 0x00], -0.5),
        ([0x7F, 0xFF, 0x00, 0x00, 0x00], 0.0),
        ([0xFB, 0xE5, 0x40, 0x00, 0x00], f64::from_bits(1 << 22)),
        ([0xFB, 0xE4, 0x40, 0x00, 0x00], 0.0),
    ] {
        assert_eq!(read_float40(&bytes, 0).map(f64::to_bits), Ok(value.to_bits()));
    }
    let mut buf = vec![7];
    write_float40(&mut buf, -0.5);
    write_float40(&mut buf, f64::from_bits(0xFFF8_0000_0000_0000));
    assert_eq!(buf, [7, 0x00, 0x00, 0xC0, 0x00, 0x00, 0x04, 0x01, 0xA0, 0x00, 0x00]);
}

#[test]
fn document_01s_scales() {
    let scaled = |len: usize, place: usize| {
        let mut head = vec![0; place];
        write_int24(&mut head, -2);
        write_int24(&mut head, 8);
        head.resize(len, 0);
        head
    };
    assert_eq!(FlightResult::decode(&scaled(157, 109)).unwrap().poly_x[0], -4.0);
    assert_eq!(FlightResultV1::decode(&scaled(94, 46)).unwrap().poly_x[0], 8.0);
    assert_eq!(field(0xD4, &scaled(157, 109), 37), Ok(Field::Figure(-4.0)));
    assert_eq!(field(0xD4, &scaled(157, 109), 36), Ok(Field::Count(-2)));
}

#[test]
fn a_frame_above_the_hold_is_left_out_and_counted() {
    let stream = [&wire(&[0; 100])[..], &wire(&[1])[..], &wire(&[2; 9])[..4]].concat();
    for chunk in [1, 7, 50, stream.len()] {
        let mut splitter = FrameSplitter::with_hold(50);
        let frames: Vec<_> = stream.chunks(chunk).flat_map(|part| splitter.feed(part)).collect();
        assert_eq!((frames, splitter.overlong()), (vec![wire(&[1])], 1));
        assert_eq!((splitter.held(), splitter.is_skipping()), (&wire(&[2; 9])[..4], false));
    }
    // the longest wire of the encoder is held
    let mut splitter = FrameSplitter::new();
    let longest = wire(&[0xFD; 65_535]);
    assert!(splitter.feed(&longest[..131_000]).is_empty());
    assert_eq!((splitter.feed(&longest[131_000..]), splitter.overlong()), (vec![longest], 0));
}

#[test]
fn every_byte_is_counted_once() {
    // noise, a frame, noise with an end, a frame above the hold, a frame that is still open
    let stream = [&[0, 0xF1][..], &wire(&[1]), &[0xF1; 3], &wire(&[0; 100]), &wire(&[2; 9])[..4]].concat();
    let long = wire(&[0; 100]).len() as u64;
    for chunk in [1, 7, 50, stream.len()] {
        let mut splitter = FrameSplitter::with_hold(50);
        assert_eq!(splitter.counts(), Counts::default());
        stream.chunks(chunk).for_each(|part| drop(splitter.feed(part)));
        let counts = Counts { taken: stream.len() as u64, dropped: 5, framed: 8, lost: long, held: 4 };
        assert_eq!(splitter.counts(), counts);
        // an empty chunk alters nothing; an end that completes what is held, then noise
        assert!(splitter.feed(&[]).is_empty());
        assert_eq!(splitter.counts(), counts);
        splitter.feed(&[0xF1, 0xF1]);
        assert_eq!(splitter.counts(), Counts { taken: counts.taken + 2, dropped: 6, framed: 13, held: 0, ..counts });
        // what is being skipped is lost already
        splitter.feed(&[0xF0; 51]);
        assert_eq!(splitter.counts(), Counts { taken: counts.taken + 53, dropped: 6, framed: 13, lost: long + 51, held: 0 });
    }
}

#[test]
fn two_cuttings_are_one_session() {
    let stream = [&[0x13, 0xF1][..], &wire(&[7]), &wire(&[8])[..4], &wire(&[0; 30]), &wire(&[9]), &[0xF0, 0x40]].concat();
    for hold in [1, 2, 8, 60] {
        let heard = |size: usize| {
            let mut splitter = FrameSplitter::with_hold(hold);
            let wires: Vec<_> = stream.chunks(size).flat_map(|chunk| [splitter.feed(&[]), splitter.feed(chunk)].concat()).collect();
            (wires, splitter.overlong(), splitter.counts(), splitter.is_skipping(), splitter.held().to_vec())
        };
        let whole = heard(stream.len());
        assert!(whole.0.len() + whole.1 as usize == 3);
        (1..stream.len()).for_each(|size| assert_eq!(heard(size), whole));
    }
}

#[test]
fn a_refusal_tells_its_number_and_values() {
    let refused = read_int24(&[1, 2, 3], usize::MAX).unwrap_err();
    assert_eq!((refused.number(), refused.values()), (7, vec![3, u64::MAX, 3]));
    let short = FlightResult::decode(&[0xAB; 156]).unwrap_err().with_raw(&[0xAB]);
    assert!(matches!(&short, WireError::PayloadTooShort { msg_type: "FlightResult", need: 157, got: 156, raw } if raw == &[0xAB]));
    assert_eq!((short.number(), short.values()), (7, vec![0xD4, 157, 156]));
    assert_eq!(short.to_string(), "FlightResult needs 157 bytes, 156 are there: offer the whole payload (it begins AB)");
    let all = [
        refused,
        short,
        WireError::FrameTooShort { len: 1 },
        WireError::MissingStart { got: 1 },
        WireError::MissingEnd,
        WireError::InvalidEscape { code: 0, offset: 4 },
        WireError::ChecksumMismatch { expected: 1, computed: 2 },
        WireError::UnknownBusAddr { addr: 1 },
        WireError::NoRoom { need: 2, got: 1 },
        WireError::BadState,
        WireError::PayloadTooLong { len: 65_536 },
        WireError::NoField { number: 52 },
        WireError::CutEscape { offset: 4 },
        WireError::CounterFull,
    ];
    for e in all {
        assert_eq!(e.values().len(), value_count(e.number()), "{e}");
    }
    assert_eq!((value_count(0), value_count(14)), (0, 0));
}

#[test]
fn what_the_port_adds() {
    // launch speed a thousandth, flight time 0: failed by rule 2 alone
    let mut payload = vec![0; 157];
    payload[18] = 1;
    assert!(!FlightResult::decode(&payload).unwrap().is_model_failure());
    assert_eq!(FlightResult::payload_failed(LeagueRule::Rule1, &payload), Ok(false));
    assert_eq!(FlightResult::payload_failed(LeagueRule::Rule2, &payload), Ok(true));
    assert_eq!(LeagueRule::from_number(3), Err(WireError::NoField { number: 3 }));
    assert_eq!(field(0xD4, &payload, 52), Err(WireError::NoField { number: 52 }));
    assert_eq!(bay_log(7, &payload).unwrap()[..8], [0, 0, 0, 7, 0xD4, 0, 0, 0]);
    assert_eq!(ClubPrc::encode_request(0x0102)[..4], [0x4C, 0x01, 0x02, 0]);
    let text = ShotText::decode(b"\0\nIDLE \xFF\n").unwrap();
    assert_eq!((&text.text[..], text.is_idle(), text.is_processed()), ("IDLE \u{FFFD}", true, false));
    assert_eq!(ShotText::trimmed(b"\0\nIDLE \xFF\n"), b"IDLE \xFF");
}
