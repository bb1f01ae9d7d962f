//! One safe function over each exported call: the only unsafe code of the crate.
//! A slice lends its pointer and its length, an array is as long as include/movaleduft.h says, and `&mut` keeps lent places apart.
use crate::c;
use crate::error::{Result, WireError};
use crate::protocol::shot::Field;

/// Runs a call that may refuse: what it stored, or the refusal with its values.
fn told<T>(mut answer: T, call: impl FnOnce(&mut T, *mut u64) -> u64) -> Result<T> {
    let mut values = [0; 3];
    match call(&mut answer, values.as_mut_ptr()) {
        0 => Ok(answer),
        number => Err(WireError::told(number, values)),
    }
}

pub(crate) fn value_count(refusal: u64) -> usize {
    unsafe { c::mvd_value_count(refusal) }
}

macro_rules! readers {
    ($($name:ident: $call:ident $(($scale:ident))? -> $value:ty;)*) => {$(
        pub(crate) fn $name(data: &[u8], offset: usize $(, $scale: f64)?) -> Result<$value> {
            told(<$value>::default(), |value, values| unsafe {
                c::$call(data.as_ptr(), data.len(), offset, $($scale,)? value, values)
            })
        }
    )*};
}

readers! {
    read_int16: mvd_read_int16 -> i16;
    read_uint16: mvd_read_uint16 -> u16;
    read_int24: mvd_read_int24 -> i32;
    read_uint24: mvd_read_uint24 -> u32;
    read_int32: mvd_read_int32 -> i32;
    read_uint32: mvd_read_uint32 -> u32;
    read_int24_scaled: mvd_read_int24_scaled(scale) -> f64;
    read_int16_scaled: mvd_read_int16_scaled(scale) -> f64;
    read_float40: mvd_read_float40 -> f64;
}

macro_rules! writers {
    ($($name:ident: $call:ident($value:ty);)*) => {$(
        pub(crate) fn $name(buf: &mut [u8], offset: usize, val: $value) -> Result<()> {
            told((), |_, values| unsafe { c::$call(buf.as_mut_ptr(), buf.len(), offset, val, values) })
        }
    )*};
}

writers! {
    write_int16: mvd_write_int16(i16);
    write_uint16: mvd_write_uint16(u16);
    write_int24: mvd_write_int24(i32);
    write_uint24: mvd_write_uint24(u32);
    write_int32: mvd_write_int32(i32);
    write_uint32: mvd_write_uint32(u32);
    write_float40_bits: mvd_write_float40_bits(u64);
}

/// DEST, SRC, TYPE and the payload's length.
pub(crate) fn open(wire: &[u8]) -> Result<[u64; 4]> {
    told([0; 4], |header, values| unsafe { c::mvd_open(wire.as_ptr(), wire.len(), header.as_mut_ptr(), values) })
}

pub(crate) fn copy_payload(wire: &[u8], buf: &mut [u8]) -> Result<usize> {
    told(0, |len, values| unsafe {
        c::mvd_copy_payload(wire.as_ptr(), wire.len(), buf.as_mut_ptr(), buf.len(), len, values)
    })
}

pub(crate) fn encode(dest: u8, src: u8, type_id: u8, payload: &[u8], wire: &mut [u8]) -> Result<usize> {
    told(0, |len, values| unsafe {
        let (p, n, w, room) = (payload.as_ptr(), payload.len(), wire.as_mut_ptr(), wire.len());
        c::mvd_encode(dest, src, type_id, p, n, w, room, len, values)
    })
}

/// The event; the bytes taken; of a frame where it lies (1: in the hold), its start there and its length.
/// The state is the count, the mark and the counts, in the order of [`Counts`](crate::frame::Counts).
pub(crate) fn feed(splitter: &mut [u64; 7], hold: &mut [u8], chunk: &[u8]) -> Result<[u64; 5]> {
    told([0; 5], |fed, values| unsafe {
        let (h, room, p, n) = (hold.as_mut_ptr(), hold.len(), chunk.as_ptr(), chunk.len());
        c::mvd_feed(splitter.as_mut_ptr(), h, room, p, n, fed.as_mut_ptr(), values)
    })
}

/// A record's whole numbers and floats, each in the record's order.
type Record<const W: usize, const F: usize> = ([i32; W], [f64; F]);

macro_rules! records {
    ($($name:ident: $call:ident $(($index:ident))? -> $wholes:literal, $floats:literal;)*) => {$(
        pub(crate) fn $name(payload: &[u8] $(, $index: usize)?) -> Result<Record<$wholes, $floats>> {
            told(([0; $wholes], [0.0; $floats]), |(whole, figures), values| unsafe {
                c::$call(payload.as_ptr(), payload.len(), $($index,)? whole.as_mut_ptr(), figures.as_mut_ptr(), values)
            })
        }
    )*};
}

records! {
    flight_result: mvd_flight_result -> 8, 44;
    flight_result_v1: mvd_flight_result_v1 -> 4, 27;
    club_result: mvd_club_result -> 3, 53;
    spin_result: mvd_spin_result -> 46, 16;
    prc_point: mvd_prc_point(index) -> 8, 16;
    club_prc_point: mvd_club_prc_point(index) -> 9, 20;
}

/// The unsigned numbers, then the signed ones.
pub(crate) fn tracking_status(payload: &[u8]) -> Result<([u64; 16], [i32; 4])> {
    told(([0; 16], [0; 4]), |(counts, whole), values| unsafe {
        c::mvd_tracking_status(payload.as_ptr(), payload.len(), counts.as_mut_ptr(), whole.as_mut_ptr(), values)
    })
}

/// The whole numbers, how many speeds were stored, and the time interval.
pub(crate) fn speed_profile(payload: &[u8], speeds: &mut [f64]) -> Result<([i32; 4], usize, f64)> {
    told(([0; 4], 0, 0.0), |(whole, samples, time), values| unsafe {
        let (s, room) = (speeds.as_mut_ptr(), speeds.len());
        c::mvd_speed_profile(payload.as_ptr(), payload.len(), s, room, whole.as_mut_ptr(), samples, time, values)
    })
}

/// The sequence number, and how many points there are.
pub(crate) fn prc_data(payload: &[u8]) -> Result<(i16, usize)> {
    told((0, 0), |(sequence, points), values| unsafe {
        c::mvd_prc_data(payload.as_ptr(), payload.len(), sequence, points, values)
    })
}

pub(crate) fn club_prc(payload: &[u8]) -> usize {
    unsafe { c::mvd_club_prc(payload.as_ptr(), payload.len()) }
}

pub(crate) fn encode_request(start_index: u16, buf: &mut [u8]) -> Result<()> {
    told((), |_, values| unsafe { c::mvd_encode_request(start_index, buf.as_mut_ptr(), buf.len(), values) })
}

pub(crate) fn is_failed(rule: usize, payload: &[u8]) -> Result<bool> {
    let failed =
        told(0, |failed, values| unsafe { c::mvd_is_failed(rule, payload.as_ptr(), payload.len(), failed, values) })?;
    Ok(failed != 0)
}

pub(crate) fn is_failed_v1(rule: usize, payload: &[u8]) -> Result<bool> {
    let failed =
        told(0, |failed, values| unsafe { c::mvd_is_failed_v1(rule, payload.as_ptr(), payload.len(), failed, values) })?;
    Ok(failed != 0)
}

/// Where the text starts in the payload, and its length.
pub(crate) fn shot_text(payload: &[u8]) -> (usize, usize) {
    let (mut start, mut len) = (0, 0);
    unsafe { c::mvd_shot_text(payload.as_ptr(), payload.len(), &mut start, &mut len) };
    (start, len)
}

pub(crate) fn is_processed(text: &[u8]) -> bool {
    unsafe { c::mvd_is_processed(text.as_ptr(), text.len()) != 0 }
}

pub(crate) fn is_idle(text: &[u8]) -> bool {
    unsafe { c::mvd_is_idle(text.as_ptr(), text.len()) != 0 }
}

pub(crate) fn is_trigger(text: &[u8]) -> bool {
    unsafe { c::mvd_is_trigger(text.as_ptr(), text.len()) != 0 }
}

pub(crate) fn field(message: u8, payload: &[u8], number: usize) -> Result<Field> {
    let (count, figure, is_figure) = told((0, 0.0, 0), |(count, figure, is_figure), values| unsafe {
        c::mvd_field(message, payload.as_ptr(), payload.len(), number, count, figure, is_figure, values)
    })?;
    Ok(if is_figure == 0 { Field::Count(count) } else { Field::Figure(figure) })
}

pub(crate) fn bay_log(event: u32, payload: &[u8]) -> Result<[u8; 32]> {
    told([0; 32], |record, values| unsafe {
        c::mvd_bay_log(event, payload.as_ptr(), payload.len(), record.as_mut_ptr(), record.len(), values)
    })
}
