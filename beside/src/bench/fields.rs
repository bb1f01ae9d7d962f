//! FLOAT40 read and written, a field a call.
use super::inputs::BYTES;
use super::pairs::{Row, Table};
use crate::cases::Random;
use ironsight::codec;
use movaleduft::c;
use std::hint::black_box;

const FIELDS: usize = BYTES / 5;

fn row(name: &str) -> Row<'_> {
    Row { name, calls: FIELDS, bytes: 0 }
}

fn read(r: &mut Random, table: &mut Table) {
    let field = |_| {
        let exponent = (r.below(60) as i16 - 30).to_be_bytes();
        let mantissa = (r.next() as u32).to_be_bytes();
        [exponent[0], exponent[1], mantissa[1], mantissa[2], mantissa[3]]
    };
    let data: Vec<u8> = (0..FIELDS).flat_map(field).collect();
    let (mut value, mut values) = (0f64, [0u64; 3]);
    table.row(
        row("FLOAT40 read"),
        || (0..FIELDS).filter(|i| black_box(codec::read_float40(black_box(&data), i * 5)).is_ok()).count(),
        || {
            let call = |i: &usize| unsafe {
                c::mvd_read_float40(data.as_ptr(), data.len(), i * 5, &mut value, values.as_mut_ptr()) == 0
            };
            (0..FIELDS).filter(call).count()
        },
    );
}

fn write(r: &mut Random, table: &mut Table) {
    let xs: Vec<f64> = (0..FIELDS).map(|_| f64::from_bits(r.next() & !(1 << 62))).collect();
    let (mut old, mut buf, mut values) = (Vec::with_capacity(BYTES), vec![0u8; BYTES], [0u64; 3]);
    table.row(
        row("FLOAT40 write"),
        || {
            old.clear();
            xs.iter().for_each(|&x| codec::write_float40(&mut old, black_box(x)));
            black_box(&old).len() / 5
        },
        || {
            let call = |(i, x): &(usize, &f64)| unsafe {
                c::mvd_write_float40_bits(buf.as_mut_ptr(), buf.len(), i * 5, x.to_bits(), values.as_mut_ptr()) == 0
            };
            xs.iter().enumerate().filter(call).count()
        },
    );
}

pub fn measure(table: &mut Table) {
    let mut r = Random::new(8);
    read(&mut r, table);
    write(&mut r, table);
}
