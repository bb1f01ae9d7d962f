//! A host of ironsight: what its five files answer to a case, by their names. The same text is compiled over the Rust (rust.rs)
//! and over the crate of bindings/rust (binding.rs): `radar` is the one line in which they differ. A lent buffer's length, which
//! neither has, is added here by document 01's words: room, H, an index.
use super::radar::addr::BusAddr;
use super::radar::codec;
use super::radar::error::WireError;
use super::radar::frame::{FrameSplitter, RawFrame};
use super::radar::protocol::shot::{
    ClubPrc, ClubPrcPoint, ClubResult, FlightResult, FlightResultV1, PrcData, PrcPoint, ShotText, SpeedProfile, SpinResult,
    TrackingStatus,
};
use super::{refusal, wire};
use crate::answer::{bits, Answer, Case};
use crate::ops::{self, Offered};

pub fn whole(ns: &[i64]) -> Answer {
    Answer { whole: ns.iter().map(|&n| n as i128).collect(), ..Answer::default() }
}

pub fn record(ns: &[i64], xs: &[f64]) -> Answer {
    Answer { figures: xs.iter().map(|&x| bits(x)).collect(), ..whole(ns) }
}

fn number<T: Into<i64>>(r: Result<T, WireError>) -> Answer {
    r.map_or_else(refusal, |n| whole(&[n.into()]))
}

fn float(r: Result<f64, WireError>) -> Answer {
    r.map_or_else(refusal, |x| record(&[], &[x]))
}

/// The bytes that a writer appends, written at a place of the lent buffer, or 8.
pub fn written(c: &Case, place: u64, write: impl FnOnce(&mut Vec<u8>)) -> Answer {
    let mut bytes = Vec::new();
    write(&mut bytes);
    let mut buf = c.data.clone();
    let end = place.checked_add(bytes.len() as u64).filter(|&end| end <= buf.len() as u64);
    let answer = match end {
        None => Answer::refused(8, &[place.saturating_add(bytes.len() as u64), buf.len() as u64]),
        Some(end) => {
            buf[place as usize..end as usize].copy_from_slice(&bytes);
            Answer::default()
        }
    };
    Answer { bytes: buf, ..answer }
}

/// Some bytes at the front of a lent buffer, and their length, or 8.
fn filled(room: u64, answered: Result<Vec<u8>, Answer>) -> Answer {
    let mut buf = vec![ops::UNTOUCHED; room as usize];
    let answer = match answered {
        Err(refused) => refused,
        Ok(bytes) if bytes.len() > buf.len() => Answer::refused(8, &[bytes.len() as u64, room]),
        Ok(bytes) => {
            buf[..bytes.len()].copy_from_slice(&bytes);
            whole(&[bytes.len() as i64])
        }
    };
    Answer { bytes: buf, ..answer }
}

fn open(c: &Case) -> Answer {
    RawFrame::parse(&c.data).map_or_else(refusal, |f| {
        whole(&[f.dest.as_byte() as i64, f.src.as_byte() as i64, f.type_id as i64, f.payload.len() as i64])
    })
}

fn copy_payload(c: &Case) -> Answer {
    filled(c.a, RawFrame::parse(&c.data).map(|f| f.payload).map_err(refusal))
}

fn encode(c: &Case) -> Answer {
    let address = |shift: u32| BusAddr::from_byte((c.a >> shift) as u8).map_err(refusal);
    let encoded = address(16).and_then(|dest| {
        let src = address(8)?;
        wire(&RawFrame { dest, src, type_id: c.a as u8, payload: c.data.clone() })
    });
    filled(c.b, encoded)
}

/// The frames, those longer than H replaced by -1; then the count and the mark at the end. A frame shows as its length and its
/// bytes, and the bytes that are held come last.
pub fn split(offered: &Offered) -> Answer {
    let mut splitter = FrameSplitter::new();
    let mut answer = Answer::default();
    let stream: Vec<u8> = offered.all().flatten().copied().collect();
    let mut rest = &stream[..];
    let opened = |rest: &[u8]| rest.iter().position(|&b| b == 0xF0);
    for frame in offered.all().flat_map(|chunk| splitter.feed(chunk)) {
        rest = &rest[opened(rest).expect("a frame's F0") + frame.len()..];
        if frame.len() > offered.hold {
            answer.whole.push(-1);
        } else {
            answer.whole.push(frame.len() as i128);
            answer.bytes.extend(frame);
        }
    }
    let open = opened(rest).map_or(&[][..], |at| &rest[at..]);
    if open.len() > offered.hold {
        answer.whole.extend([0, 1]);
    } else {
        answer.whole.extend([open.len() as i128, 0]);
        answer.bytes.extend_from_slice(open);
    }
    offered.as_held(answer)
}

pub fn flight(r: &FlightResult) -> Answer {
    let s = r.landing_spin_rpm;
    let ns = [r.total, r.backspin_rpm, r.sidespin_rpm, r.riflespin_rpm, s[0], s[1], s[2], r.poly_scale];
    let mut xs = vec![r.track_time];
    xs.extend(r.start_position);
    xs.extend([r.launch_speed, r.launch_azimuth, r.launch_elevation, r.carry_distance, r.flight_time, r.max_height]);
    xs.extend(r.landing_position);
    xs.extend(r.landing_velocity);
    xs.extend([r.total_distance, r.roll_distance]);
    xs.extend(r.final_position);
    xs.extend([r.clubhead_speed, r.club_strike_direction, r.club_attack_angle, r.clubhead_speed_post]);
    xs.extend([r.club_swing_plane_tilt, r.club_swing_plane_rotation, r.club_effective_loft, r.club_face_angle]);
    xs.extend(r.poly_x.iter().chain(&r.poly_y).chain(&r.poly_z));
    record(&ns.map(i64::from), &xs)
}

pub fn flight_v1(r: &FlightResultV1) -> Answer {
    let ns = [r.total, r.backspin_rpm, r.sidespin_rpm, r.poly_scale];
    let mut xs = vec![r.club_velocity, r.ball_velocity, r.flight_time, r.distance, r.height, r.lateral, r.elevation];
    xs.extend([r.azimuth, r.tracked_time, r.drag, r.acceleration, r.club_strike_direction]);
    xs.extend(r.poly_x.iter().chain(&r.poly_y).chain(&r.poly_z));
    record(&ns.map(i64::from), &xs)
}

pub fn club(r: &ClubResult) -> Answer {
    let ns = [r.num_club_prc_points as i64, r.flags as i64, r.poly_scale as i64];
    let mut xs = vec![r.pre_club_speed, r.post_club_speed, r.strike_direction, r.attack_angle, r.face_angle];
    xs.extend([r.dynamic_loft, r.smash_factor, r.dispersion_correction, r.swing_plane_horizontal]);
    xs.extend([r.swing_plane_vertical, r.club_azimuth, r.club_elevation, r.club_offset, r.club_height]);
    xs.extend(r.poly_coeffs.iter().flatten());
    xs.extend([r.pre_impact_time, r.post_impact_time, r.club_to_ball_time]);
    record(&ns, &xs)
}

fn spin(r: &SpinResult) -> Answer {
    let antennas: Vec<_> = r.antenna_data.iter().flatten().collect();
    let mut ns = vec![r.version as i64];
    ns.extend(antennas.iter().flat_map(|e| [e.spin_rpm as i64, e.snr as i64]));
    ns.extend([r.pm_spin_raw, r.pm_spin_final, r.pm_spin_confidence, r.lift_spin].map(i64::from));
    ns.extend([r.spin_validate_expected, r.spin_validate_low, r.spin_validate_high, r.spin_validate_scaling].map(i64::from));
    ns.extend([r.spin_method as i64, r.spin_flags as i64]);
    ns.extend([r.launch_spin, r.am_spin, r.pm_spin, r.aod_spin, r.pll_spin].map(i64::from));
    let mut xs: Vec<f64> = antennas.iter().map(|e| e.peak).collect();
    xs.push(r.spin_axis);
    record(&ns, &xs)
}

/// The unsigned numbers first, as the exported call gives them.
fn tracking(r: &TrackingStatus) -> Answer {
    let m = r.track_measure;
    whole(&[
        r.state as i64,
        r.flags as i64,
        r.pre_trig_buf_start as i64,
        r.club_impact_idx as i64,
        r.trigger_idx as i64,
        r.radar_cal1 as i64,
        r.radar_cal2 as i64,
        r.radar_cal_avr as i64,
        r.processing_iteration as i64,
        r.result_quality as i64,
        r.detection_subtype as i64,
        r.prc_tracking_count as i64,
        r.radar_measurement as i64,
        r.trigger_flags as i64,
        r.event_counter as i64,
        r.track_measure4 as i64,
        r.radar_baseline as i64,
        m[0] as i64,
        m[1] as i64,
        m[2] as i64,
    ])
}

fn speed(c: &Case) -> Answer {
    let r = SpeedProfile::decode(&c.data).expect("D9 is never refused");
    let (room, need) = (c.a, r.speeds.len() as u64);
    if need > room {
        return Answer { figures: vec![ops::KEPT.to_bits(); room as usize], ..Answer::refused(8, &[need, room]) };
    }
    let ns = [r.flags as i64, r.num_pre as i64, r.num_post as i64, r.scale_factor as i64, need as i64];
    let mut xs = vec![r.time_interval];
    xs.extend(&r.speeds);
    xs.resize(1 + room as usize, ops::KEPT);
    record(&ns, &xs)
}

fn prc_point(p: &PrcPoint) -> Answer {
    let ns = [p.index as i32, p.peak as i32, p.snr, p.buf_idx as i32, p.flags as i32, p.time, p.sync_idx, p.sync_buf];
    let mut xs = vec![p.n, p.az, p.el, p.vel, p.dist, p.az1, p.az2, p.az3, p.el1, p.el2];
    xs.extend(p.pk);
    record(&ns.map(i64::from), &xs)
}

fn club_prc_point(p: &ClubPrcPoint) -> Answer {
    let ns = [p.index as i32, p.buf_ofs as i32, p.peak as i32, p.snr, p.buf_idx as i32, p.time, p.version as i32, p.f39, p.f42];
    let mut xs = vec![p.n, p.az, p.el, p.vel, p.vel2, p.dist, p.f30, p.f33, p.f45, p.az1, p.az2, p.az3, p.el1, p.el2];
    xs.extend(p.pk);
    record(&ns.map(i64::from), &xs)
}

/// The point of an index, or 11 past the last.
fn point<P>(c: &Case, points: &[P], show: impl FnOnce(&P) -> Answer) -> Answer {
    points.get(c.a as usize).map_or_else(|| Answer::refused(11, &[c.a]), show)
}

/// The text, which has to be a part of the payload, repaired.
pub fn text(c: &Case, start: usize, len: usize) -> Answer {
    let t = ShotText::decode(&c.data).expect("E5 is never refused");
    let part = &c.data[start..start + len];
    assert_eq!(t.text, String::from_utf8_lossy(part), "the text is not that part of the payload");
    let said = [t.is_processed(), t.is_idle(), t.is_trigger()].map(i64::from);
    Answer { bytes: part.to_vec(), ..whole(&[&[start as i64, len as i64][..], &said].concat()) }
}

pub fn ask(c: &Case) -> Answer {
    let (d, at, val) = (&c.data[..], c.a as usize, c.b as u32);
    match c.op {
        ops::READ_INT16 => number(codec::read_int16(d, at)),
        ops::READ_UINT16 => number(codec::read_uint16(d, at)),
        ops::READ_INT24 => number(codec::read_int24(d, at)),
        ops::READ_UINT24 => number(codec::read_uint24(d, at)),
        ops::READ_INT32 => number(codec::read_int32(d, at)),
        ops::READ_UINT32 => number(codec::read_uint32(d, at)),
        ops::READ_FLOAT40 => float(codec::read_float40(d, at)),
        ops::READ_INT24_SCALED => float(codec::read_int24_scaled(d, at, f64::from_bits(c.b))),
        ops::READ_INT16_SCALED => float(codec::read_int16_scaled(d, at, f64::from_bits(c.b))),
        ops::WRITE_INT16 => written(c, c.a, |v| codec::write_int16(v, val as i16)),
        ops::WRITE_UINT16 => written(c, c.a, |v| codec::write_uint16(v, val as u16)),
        ops::WRITE_INT24 => written(c, c.a, |v| codec::write_int24(v, val as i32)),
        ops::WRITE_UINT24 => written(c, c.a, |v| codec::write_uint24(v, val)),
        ops::WRITE_INT32 => written(c, c.a, |v| codec::write_int32(v, val as i32)),
        ops::WRITE_UINT32 => written(c, c.a, |v| codec::write_uint32(v, val)),
        ops::WRITE_FLOAT40 | ops::WRITE_FLOAT40_BITS => written(c, c.a, |v| codec::write_float40(v, f64::from_bits(c.b))),
        ops::OPEN => open(c),
        ops::COPY_PAYLOAD => copy_payload(c),
        ops::ENCODE => encode(c),
        ops::FLIGHT_RESULT => FlightResult::decode(d).map_or_else(refusal, |r| flight(&r)),
        ops::FLIGHT_RESULT_V1 => FlightResultV1::decode(d).map_or_else(refusal, |r| flight_v1(&r)),
        ops::CLUB_RESULT => ClubResult::decode(d).map_or_else(refusal, |r| club(&r)),
        ops::SPIN_RESULT => SpinResult::decode(d).map_or_else(refusal, |r| spin(&r)),
        ops::TRACKING_STATUS => TrackingStatus::decode(d).map_or_else(refusal, |r| tracking(&r)),
        ops::SPEED_PROFILE => speed(c),
        ops::PRC_DATA => PrcData::decode(d).map_or_else(refusal, |r| whole(&[r.sequence as i64, r.points.len() as i64])),
        ops::PRC_POINT => PrcData::decode(d).map_or_else(refusal, |r| point(c, &r.points, prc_point)),
        ops::CLUB_PRC => ClubPrc::decode(d).map_or_else(refusal, |r| whole(&[r.points.len() as i64])),
        ops::CLUB_PRC_POINT => ClubPrc::decode(d).map_or_else(refusal, |r| point(c, &r.points, club_prc_point)),
        ops::ENCODE_REQUEST => written(c, 0, |v| v.extend(ClubPrc::encode_request(c.b as u16))),
        ops::IS_MODEL_FAILURE => FlightResult::decode(d).map_or_else(refusal, |r| whole(&[r.is_model_failure() as i64])),
        ops::IS_NO_READ => FlightResultV1::decode(d).map_or_else(refusal, |r| whole(&[r.is_no_read() as i64])),
        other => panic!("no operation {other:02X}"),
    }
}
