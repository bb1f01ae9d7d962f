//! Fields at a place (ironsight's codec.rs): big-endian, two's complement.
//! A place whose sum with the width passes the largest `usize` is refused, with that as need; ironsight's sum wraps there.
use crate::error::Result;
use crate::ffi;

macro_rules! readers {
    ($($(#[doc = $text:literal])* $name:ident -> $value:ty;)*) => {$(
        $(#[doc = $text])*
        ///
        /// # Errors
        ///
        /// [`PayloadTooShort`](crate::error::WireError::PayloadTooShort) where `data` ends before the field does.
        pub fn $name(data: &[u8], offset: usize) -> Result<$value> {
            ffi::$name(data, offset)
        }
    )*};
}

readers! {
    /// Reads INT16.
    read_int16 -> i16;
    /// Reads UINT16.
    read_uint16 -> u16;
    /// Reads INT24.
    read_int24 -> i32;
    /// Reads UINT24.
    read_uint24 -> u32;
    /// Reads INT32.
    read_int32 -> i32;
    /// Reads UINT32.
    read_uint32 -> u32;
    /// Reads FLOAT40: an exponent e (INT16) and a mantissa m (INT24), m times 2^(e-23). The power is exact from -1074 to 1023,
    /// 0 below and infinite above; ironsight leaves the precision of its `exp2` open.
    read_float40 -> f64;
}

/// Reads INT24 and divides it by a scale.
///
/// # Errors
///
/// [`PayloadTooShort`](crate::error::WireError::PayloadTooShort) where `data` ends before the field does.
pub fn read_int24_scaled(data: &[u8], offset: usize, scale: f64) -> Result<f64> {
    ffi::read_int24_scaled(data, offset, scale)
}

/// Reads INT16 and divides it by a scale.
///
/// # Errors
///
/// [`PayloadTooShort`](crate::error::WireError::PayloadTooShort) where `data` ends before the field does.
pub fn read_int16_scaled(data: &[u8], offset: usize, scale: f64) -> Result<f64> {
    ffi::read_int16_scaled(data, offset, scale)
}

/// Appends a field: room for it, then the library's writer at its place.
fn append(buf: &mut Vec<u8>, width: usize, write: impl FnOnce(&mut [u8], usize) -> Result<()>) {
    let place = buf.len();
    buf.resize(place + width, 0);
    write(buf, place).expect("the field has its room");
}

/// Appends INT16.
pub fn write_int16(buf: &mut Vec<u8>, val: i16) {
    append(buf, 2, |buf, place| ffi::write_int16(buf, place, val));
}

/// Appends UINT16.
pub fn write_uint16(buf: &mut Vec<u8>, val: u16) {
    append(buf, 2, |buf, place| ffi::write_uint16(buf, place, val));
}

/// Appends INT24: the low 24 bits.
pub fn write_int24(buf: &mut Vec<u8>, val: i32) {
    append(buf, 3, |buf, place| ffi::write_int24(buf, place, val));
}

/// Appends UINT24: the low 24 bits.
pub fn write_uint24(buf: &mut Vec<u8>, val: u32) {
    append(buf, 3, |buf, place| ffi::write_uint24(buf, place, val));
}

/// Appends INT32.
pub fn write_int32(buf: &mut Vec<u8>, val: i32) {
    append(buf, 4, |buf, place| ffi::write_int32(buf, place, val));
}

/// Appends UINT32.
pub fn write_uint32(buf: &mut Vec<u8>, val: u32) {
    append(buf, 4, |buf, place| ffi::write_uint32(buf, place, val));
}

/// Appends FLOAT40: the mantissa's leading bits, rounded toward zero. A NaN writes by its bits, as ironsight's does.
pub fn write_float40(buf: &mut Vec<u8>, value: f64) {
    write_float40_bits(buf, value.to_bits());
}

/// Appends FLOAT40 of a float that is given by its bits.
pub fn write_float40_bits(buf: &mut Vec<u8>, bits: u64) {
    append(buf, 5, |buf, place| ffi::write_float40_bits(buf, place, bits));
}
