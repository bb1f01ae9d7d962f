//! Each message decoded, over 64 random payloads of the least length in turn (D9: 80 samples; EC and EE: three points, all asked for).
use super::pairs::{Row, Table};
use crate::cases::Random;
use ironsight::protocol::shot::*;
use movaleduft::c;
use std::hint::black_box;

/// Whether the Rust decoded: all of its record is made.
fn made<T, E>(record: Result<T, E>) -> bool {
    black_box(record).is_ok()
}

struct Messages<'a> {
    r: Random,
    table: &'a mut Table,
}

impl Messages<'_> {
    /// A message of a length, its first bytes given.
    fn row(&mut self, name: &str, len: usize, first: &[u8], rust: impl Fn(&[u8]) -> bool, mut port: impl FnMut(&[u8]) -> bool) {
        let mut payload = |_| {
            let mut p: Vec<u8> = (0..len).map(|_| self.r.next() as u8).collect();
            p[..first.len()].copy_from_slice(first);
            p
        };
        let payloads: Vec<Vec<u8>> = (0..64).map(&mut payload).collect();
        self.table.row(
            Row { name, calls: payloads.len(), bytes: 0 },
            || payloads.iter().filter(|p| rust(black_box(p))).count(),
            || payloads.iter().filter(|p| port(black_box(p))).count(),
        );
    }
}

pub fn measure(table: &mut Table) {
    let mut messages = Messages { r: Random::new(8), table };
    let (mut whole, mut figures, mut values, mut interval) = ([0i32; 64], [0f64; 256], [0u64; 3], 0f64);
    let (w, x, v) = (whole.as_mut_ptr(), figures.as_mut_ptr(), values.as_mut_ptr());
    macro_rules! record {
        ($name:literal, $rust:ident, $port:ident, $len:expr) => {
            let port = |p: &[u8]| unsafe { c::$port(p.as_ptr(), p.len(), w, x, v) == 0 };
            messages.row($name, $len, &[], |p| made($rust::decode(p)), port);
        };
    }
    record!("decode D4", FlightResult, mvd_flight_result, 157);
    record!("decode E8", FlightResultV1, mvd_flight_result_v1, 94);
    record!("decode ED", ClubResult, mvd_club_result, 167);
    record!("decode EF", SpinResult, mvd_spin_result, 138);
    let (mut counts, mut sequence, mut points) = ([0u64; 16], 0i16, 0usize);
    let n = counts.as_mut_ptr();
    let port = |p: &[u8]| unsafe { c::mvd_tracking_status(p.as_ptr(), p.len(), n, w, v) == 0 };
    messages.row("decode E9", 82, &[], |p| made(TrackingStatus::decode(p)), port);
    let port = |p: &[u8]| unsafe { c::mvd_speed_profile(p.as_ptr(), p.len(), x, 256, w, &mut points, &mut interval, v) == 0 };
    messages.row("decode D9", 172, &[], |p| made(SpeedProfile::decode(p)), port);
    let port = |p: &[u8]| unsafe {
        c::mvd_prc_data(p.as_ptr(), p.len(), &mut sequence, &mut points, v) == 0
            && (0..points).all(|i| c::mvd_prc_point(p.as_ptr(), p.len(), i, w, x, v) == 0)
    };
    messages.row("decode EC, three points", 184, &[183, 0, 0, 3], |p| made(PrcData::decode(p)), port);
    let port = |p: &[u8]| unsafe {
        let points = c::mvd_club_prc(p.as_ptr(), p.len());
        (0..points).all(|i| c::mvd_club_prc_point(p.as_ptr(), p.len(), i, w, x, v) == 0)
    };
    messages.row("decode EE, three points", 229, &[228], |p| made(ClubPrc::decode(p)), port);
}
