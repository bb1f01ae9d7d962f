//! The exported library as C declares it: include/movaleduft.h, call by call. Its head says what a caller has to keep.
//! Every pointer to `values` has room for three numbers.
#![allow(missing_docs)]

extern "C" {
    pub fn mvd_value_count(refusal: u64) -> usize;

    pub fn mvd_read_int16(data: *const u8, data_len: usize, offset: usize, value: *mut i16, values: *mut u64) -> u64;
    pub fn mvd_read_uint16(data: *const u8, data_len: usize, offset: usize, value: *mut u16, values: *mut u64) -> u64;
    pub fn mvd_read_int24(data: *const u8, data_len: usize, offset: usize, value: *mut i32, values: *mut u64) -> u64;
    pub fn mvd_read_uint24(data: *const u8, data_len: usize, offset: usize, value: *mut u32, values: *mut u64) -> u64;
    pub fn mvd_read_int32(data: *const u8, data_len: usize, offset: usize, value: *mut i32, values: *mut u64) -> u64;
    pub fn mvd_read_uint32(data: *const u8, data_len: usize, offset: usize, value: *mut u32, values: *mut u64) -> u64;
    pub fn mvd_read_int24_scaled(
        data: *const u8,
        data_len: usize,
        offset: usize,
        scale: f64,
        value: *mut f64,
        values: *mut u64,
    ) -> u64;
    pub fn mvd_read_int16_scaled(
        data: *const u8,
        data_len: usize,
        offset: usize,
        scale: f64,
        value: *mut f64,
        values: *mut u64,
    ) -> u64;
    pub fn mvd_read_float40(data: *const u8, data_len: usize, offset: usize, value: *mut f64, values: *mut u64) -> u64;
    pub fn mvd_write_int16(buf: *mut u8, buf_len: usize, offset: usize, val: i16, values: *mut u64) -> u64;
    pub fn mvd_write_uint16(buf: *mut u8, buf_len: usize, offset: usize, val: u16, values: *mut u64) -> u64;
    pub fn mvd_write_int24(buf: *mut u8, buf_len: usize, offset: usize, val: i32, values: *mut u64) -> u64;
    pub fn mvd_write_uint24(buf: *mut u8, buf_len: usize, offset: usize, val: u32, values: *mut u64) -> u64;
    pub fn mvd_write_int32(buf: *mut u8, buf_len: usize, offset: usize, val: i32, values: *mut u64) -> u64;
    pub fn mvd_write_uint32(buf: *mut u8, buf_len: usize, offset: usize, val: u32, values: *mut u64) -> u64;
    pub fn mvd_write_float40_bits(buf: *mut u8, buf_len: usize, offset: usize, bits: u64, values: *mut u64) -> u64;

    pub fn mvd_open(wire: *const u8, wire_len: usize, header: *mut u64, values: *mut u64) -> u64;
    pub fn mvd_copy_payload(
        wire: *const u8,
        wire_len: usize,
        buf: *mut u8,
        buf_len: usize,
        len: *mut usize,
        values: *mut u64,
    ) -> u64;
    pub fn mvd_encode(
        dest: u8,
        src: u8,
        type_id: u8,
        payload: *const u8,
        payload_len: usize,
        wire: *mut u8,
        wire_len: usize,
        len: *mut usize,
        values: *mut u64,
    ) -> u64;
    pub fn mvd_feed(
        splitter: *mut u64,
        hold: *mut u8,
        hold_len: usize,
        chunk: *const u8,
        chunk_len: usize,
        fed: *mut u64,
        values: *mut u64,
    ) -> u64;

    pub fn mvd_flight_result(
        payload: *const u8,
        payload_len: usize,
        whole: *mut i32,
        figures: *mut f64,
        values: *mut u64,
    ) -> u64;
    pub fn mvd_flight_result_v1(
        payload: *const u8,
        payload_len: usize,
        whole: *mut i32,
        figures: *mut f64,
        values: *mut u64,
    ) -> u64;
    pub fn mvd_club_result(
        payload: *const u8,
        payload_len: usize,
        whole: *mut i32,
        figures: *mut f64,
        values: *mut u64,
    ) -> u64;
    pub fn mvd_spin_result(
        payload: *const u8,
        payload_len: usize,
        whole: *mut i32,
        figures: *mut f64,
        values: *mut u64,
    ) -> u64;
    pub fn mvd_tracking_status(
        payload: *const u8,
        payload_len: usize,
        counts: *mut u64,
        whole: *mut i32,
        values: *mut u64,
    ) -> u64;
    pub fn mvd_speed_profile(
        payload: *const u8,
        payload_len: usize,
        speeds: *mut f64,
        speeds_len: usize,
        whole: *mut i32,
        samples: *mut usize,
        time_interval: *mut f64,
        values: *mut u64,
    ) -> u64;
    pub fn mvd_prc_data(
        payload: *const u8,
        payload_len: usize,
        sequence: *mut i16,
        points: *mut usize,
        values: *mut u64,
    ) -> u64;
    pub fn mvd_prc_point(
        payload: *const u8,
        payload_len: usize,
        index: usize,
        whole: *mut i32,
        figures: *mut f64,
        values: *mut u64,
    ) -> u64;
    pub fn mvd_club_prc(payload: *const u8, payload_len: usize) -> usize;
    pub fn mvd_club_prc_point(
        payload: *const u8,
        payload_len: usize,
        index: usize,
        whole: *mut i32,
        figures: *mut f64,
        values: *mut u64,
    ) -> u64;
    pub fn mvd_encode_request(start_index: u16, buf: *mut u8, buf_len: usize, values: *mut u64) -> u64;
    pub fn mvd_is_failed(rule: usize, payload: *const u8, payload_len: usize, failed: *mut u8, values: *mut u64) -> u64;
    pub fn mvd_is_failed_v1(rule: usize, payload: *const u8, payload_len: usize, failed: *mut u8, values: *mut u64) -> u64;
    pub fn mvd_is_model_failure(payload: *const u8, payload_len: usize, failed: *mut u8, values: *mut u64) -> u64;
    pub fn mvd_is_no_read(payload: *const u8, payload_len: usize, unread: *mut u8, values: *mut u64) -> u64;
    pub fn mvd_shot_text(payload: *const u8, payload_len: usize, start: *mut usize, len: *mut usize);
    pub fn mvd_is_processed(text: *const u8, text_len: usize) -> u8;
    pub fn mvd_is_idle(text: *const u8, text_len: usize) -> u8;
    pub fn mvd_is_trigger(text: *const u8, text_len: usize) -> u8;

    pub fn mvd_field(
        message: u8,
        payload: *const u8,
        payload_len: usize,
        number: usize,
        count: *mut i32,
        figure: *mut f64,
        is_figure: *mut u8,
        values: *mut u64,
    ) -> u64;
    pub fn mvd_bay_log(
        event: u32,
        payload: *const u8,
        payload_len: usize,
        buf: *mut u8,
        buf_len: usize,
        values: *mut u64,
    ) -> u64;
}
