/* Movaleduft for C and C++: a golf radar's frames, fields and messages, the calls of target/libmovaleduft.a.
 * ./library writes that archive; compile with -Iinclude and give the archive to the linker. C99, C++11.
 *
 * Answers. A call that may refuse answers MVD_OK, or the number of a refusal (enum mvd_refusal) with its values in `values`:
 * `mvd_value_count` of them, 0 in the rest of the three. A refusal alters no other lent place; a call that is not refused
 * keeps `values`. Of a lent buffer the bytes that a call does not fill keep what they had.
 *
 * Ownership. Nothing is allocated and nothing is kept: a call reads and writes the places that it is lent, until it returns.
 * There is no global state, nothing to set up and nothing to free. Any thread may call at any time; two calls at once are to
 * share no place that one of them writes. A splitter's state is the caller's own: one variable and a hold buffer.
 *
 * Pointers and lengths. No pointer is NULL, that of an empty buffer neither: lend any place and the length 0. A length is how
 * many elements stand at the pointer, bytes or, for speeds, doubles. No two places that are lent to a call overlap.
 */
#ifndef MOVALEDUFT_H
#define MOVALEDUFT_H

#include <stddef.h>
#include <stdint.h>
#include <string.h>

#define MVD_VERSION "0.1.0"
#define MVD_VERSION_MAJOR 0
#define MVD_VERSION_MINOR 1
#define MVD_VERSION_PATCH 0

#ifdef __cplusplus
extern "C" {
#endif

/* ---- Refusals */

enum mvd_refusal { /* behind each its values, in their order */
    MVD_OK = 0,
    MVD_FRAME_TOO_SHORT = 1,   /* wire length */
    MVD_MISSING_START = 2,     /* byte found */
    MVD_MISSING_END = 3,
    MVD_INVALID_ESCAPE = 4,    /* code, offset in the interior */
    MVD_CHECKSUM_MISMATCH = 5, /* received, computed */
    MVD_UNKNOWN_BUS_ADDR = 6,  /* byte */
    MVD_PAYLOAD_TOO_SHORT = 7, /* kind, need, got */
    MVD_NO_ROOM = 8,           /* need, got */
    MVD_BAD_STATE = 9,
    MVD_PAYLOAD_TOO_LONG = 10, /* length */
    MVD_NO_FIELD = 11,         /* number asked: a field's, a point's, a rule's, or a byte that is no such message's */
    MVD_CUT_ESCAPE = 12,       /* offset in the interior */
    MVD_COUNTER_FULL = 13
};

/* The kind among the values of MVD_PAYLOAD_TOO_SHORT: a field's, or a message's type byte (enum mvd_message). */
enum mvd_kind {
    MVD_KIND_SKIP = 0,
    MVD_KIND_INT16 = 1,
    MVD_KIND_UINT16 = 2,
    MVD_KIND_INT24 = 3,
    MVD_KIND_UINT24 = 4,
    MVD_KIND_INT32 = 5,
    MVD_KIND_UINT32 = 6,
    MVD_KIND_FLOAT40 = 7
};

/* How many values the refusal of a number has; 0 for MVD_OK and for a number that is no refusal's. */
size_t mvd_value_count(uint64_t refusal);

/* ---- Fields at a place */

/* Big-endian, two's complement. A field that `data` has not all of is refused with MVD_PAYLOAD_TOO_SHORT. */
uint64_t mvd_read_int16(const uint8_t *data, size_t data_len, size_t offset, int16_t *value, uint64_t values[3]);
uint64_t mvd_read_uint16(const uint8_t *data, size_t data_len, size_t offset, uint16_t *value, uint64_t values[3]);
uint64_t mvd_read_int24(const uint8_t *data, size_t data_len, size_t offset, int32_t *value, uint64_t values[3]);
uint64_t mvd_read_uint24(const uint8_t *data, size_t data_len, size_t offset, uint32_t *value, uint64_t values[3]);
uint64_t mvd_read_int32(const uint8_t *data, size_t data_len, size_t offset, int32_t *value, uint64_t values[3]);
uint64_t mvd_read_uint32(const uint8_t *data, size_t data_len, size_t offset, uint32_t *value, uint64_t values[3]);

/* The field over `scale`, divided once. */
uint64_t mvd_read_int24_scaled(const uint8_t *data, size_t data_len, size_t offset, double scale, double *value, uint64_t values[3]);
uint64_t mvd_read_int16_scaled(const uint8_t *data, size_t data_len, size_t offset, double scale, double *value, uint64_t values[3]);

/* FLOAT40: an INT16 exponent e, then an INT24 mantissa m; the value is m times 2^(e - 23). */
uint64_t mvd_read_float40(const uint8_t *data, size_t data_len, size_t offset, double *value, uint64_t values[3]);

/* A field that `buf` has not room for is refused with MVD_NO_ROOM. The writers of 24 bits keep the low 24 of `val`. */
uint64_t mvd_write_int16(uint8_t *buf, size_t buf_len, size_t offset, int16_t val, uint64_t values[3]);
uint64_t mvd_write_uint16(uint8_t *buf, size_t buf_len, size_t offset, uint16_t val, uint64_t values[3]);
uint64_t mvd_write_int24(uint8_t *buf, size_t buf_len, size_t offset, int32_t val, uint64_t values[3]);
uint64_t mvd_write_uint24(uint8_t *buf, size_t buf_len, size_t offset, uint32_t val, uint64_t values[3]);
uint64_t mvd_write_int32(uint8_t *buf, size_t buf_len, size_t offset, int32_t val, uint64_t values[3]);
uint64_t mvd_write_uint32(uint8_t *buf, size_t buf_len, size_t offset, uint32_t val, uint64_t values[3]);

/* FLOAT40 of the double that has these 64 bits. */
uint64_t mvd_write_float40_bits(uint8_t *buf, size_t buf_len, size_t offset, uint64_t bits, uint64_t values[3]);

/* FLOAT40 of a double. It stands here, and not in the archive, so that a NaN's own bits reach the writer. */
static inline uint64_t mvd_write_float40(uint8_t *buf, size_t buf_len, size_t offset, double value, uint64_t values[3]) {
    uint64_t bits;
    memcpy(&bits, &value, sizeof bits);
    return mvd_write_float40_bits(buf, buf_len, offset, bits, values);
}

/* ---- Frames */

enum mvd_address { MVD_APP = 0x10, MVD_PI = 0x12, MVD_AVR = 0x30, MVD_DSP = 0x40 };

/* A frame's addresses (enum mvd_address), its type byte (enum mvd_message, or another) and its payload's length. */
struct mvd_header {
    uint64_t dest, src, type_id, len;
};

/* `mvd_open` checks a wire and copies nothing; it never answers MVD_NO_ROOM. `mvd_copy_payload` makes the same checks, then tests
 * the room; the payload fills the front of `buf`, and `len` gets its length. What was opened is copied, given room for that:
 *
 *     struct mvd_header header;
 *     uint64_t values[3], refusal;
 *     uint8_t payload[256];
 *     size_t len;
 *     if ((refusal = mvd_open(wire, wire_len, &header, values)) != MVD_OK) return refusal;
 *     if (header.type_id != MVD_FLIGHT_RESULT || header.len > sizeof payload) return pass_on(&header);
 *     mvd_copy_payload(wire, wire_len, payload, sizeof payload, &len, values);    (MVD_OK, and len is header.len) */
uint64_t mvd_open(const uint8_t *wire, size_t wire_len, struct mvd_header *header, uint64_t values[3]);
uint64_t mvd_copy_payload(const uint8_t *wire, size_t wire_len, uint8_t *buf, size_t buf_len, size_t *len, uint64_t values[3]);

/* Writes a frame at the front of `wire`, and its length to `len`. An address byte that is none of the four is refused with
 * MVD_UNKNOWN_BUS_ADDR, DEST's first. */
uint64_t mvd_encode(uint8_t dest, uint8_t src, uint8_t type_id, const uint8_t *payload, size_t payload_len,
                    uint8_t *wire, size_t wire_len, size_t *len, uint64_t values[3]);

/* ---- The splitter */

enum mvd_event { MVD_MORE = 0, MVD_FRAME = 1, MVD_OVERLONG = 2 };

/* What a call found (enum mvd_event) and how many bytes of the chunk it took; of a frame whether it lies in the hold (1) or in
 * the chunk (0), where it starts there and how long it is, F0 and F1 included; 0, 0 and 0 where there is no frame. */
struct mvd_fed {
    uint64_t event, taken, in_hold, start, len;
};

/* A splitter's state, all 0 at the start. After a frame, or one that is too long, the count and the mark are 0 again; the five counts
 * run on: each is of the bytes since the start. */
struct mvd_splitter {
    uint64_t count;    /* how many bytes of an open frame lie in the hold */
    uint64_t skipping; /* the mark: 1 where the open frame has outgrown the hold, else 0 */
    uint64_t taken;    /* bytes taken: the sum of the next four */
    uint64_t dropped;  /* dropped outside frames */
    uint64_t framed;   /* handed over in frames, F0 and F1 included */
    uint64_t lost;     /* lost in overlong frames, those being skipped now included */
    uint64_t held;     /* held: the count again */
};

/* One event of a stream, which may be cut anywhere: however it is cut, the frames, the MVD_OVERLONGs, the state at the end and the bytes
 * held are the same. The call alone alters `splitter` and `hold`. A frame longer than the hold is MVD_OVERLONG. MVD_BAD_STATE is a count
 * above `hold_len`, a mark that is neither 0 nor 1, a mark with a count other than 0, a `taken` that is not the sum of the other four,
 * added without wrapping, and a `held` that differs from the count. Then MVD_COUNTER_FULL: `taken` and `chunk_len` would pass UINT64_MAX.
 * What was not taken is offered again; read a frame before that:
 *
 *     struct mvd_splitter splitter = {0};
 *     struct mvd_fed fed;
 *     uint8_t hold[2048];
 *     for (size_t at = 0; at < got; at += fed.taken) {
 *         if (mvd_feed(&splitter, hold, sizeof hold, chunk + at, got - at, &fed, values) != MVD_OK) abort();
 *         if (fed.event == MVD_FRAME) frame((fed.in_hold ? hold : chunk + at) + fed.start, fed.len);
 *     } */
uint64_t mvd_feed(struct mvd_splitter *splitter, uint8_t *hold, size_t hold_len, const uint8_t *chunk, size_t chunk_len,
                  struct mvd_fed *fed, uint64_t values[3]);

/* ---- Messages */

enum mvd_message {
    MVD_FLIGHT_RESULT = 0xD4,
    MVD_SPEED_PROFILE = 0xD9,
    MVD_SHOT_TEXT = 0xE5,
    MVD_FLIGHT_RESULT_V1 = 0xE8,
    MVD_TRACKING_STATUS = 0xE9,
    MVD_PRC_DATA = 0xEC,
    MVD_CLUB_RESULT = 0xED,
    MVD_CLUB_PRC = 0xEE,
    MVD_SPIN_RESULT = 0xEF
};

/* A record comes in two parts: its whole numbers, and its figures, the floats. A payload below the message's least length is
 * refused with MVD_PAYLOAD_TOO_SHORT, and neither part is altered. Lengths are in m, times in s, speeds in m/s, angles in degrees,
 * spins in rpm, where nothing else is said; positions and velocities are [forward, vertical, lateral]; to the left is positive. */

/* D4, the flight of the ball: at least 157 bytes. */
struct mvd_flight_whole {
    int32_t total; /* the shot's number */
    int32_t backspin_rpm, sidespin_rpm, riflespin_rpm;
    int32_t landing_spin_rpm[3];
    int32_t poly_scale; /* has divided the coefficients; 0 counts as 1 */
};
struct mvd_flight_figures {
    double track_time;
    double start_position[3];
    double launch_speed, launch_azimuth, launch_elevation;
    double carry_distance, flight_time, max_height;
    double landing_position[3];
    double landing_velocity[3];
    double total_distance, roll_distance; /* the device does not fill these two, nor the next */
    double final_position[3];
    double clubhead_speed, club_strike_direction, club_attack_angle, clubhead_speed_post;
    double club_swing_plane_tilt, club_swing_plane_rotation, club_effective_loft, club_face_angle;
    double poly_x[5], poly_y[5], poly_z[5];
};
uint64_t mvd_flight_result(const uint8_t *payload, size_t payload_len,
                           struct mvd_flight_whole *whole, struct mvd_flight_figures *figures, uint64_t values[3]);

/* E8, the early flight result, which comes before D4: at least 94 bytes. */
struct mvd_flight_v1_whole {
    int32_t total; /* the shot's number */
    int32_t backspin_rpm, sidespin_rpm;
    int32_t poly_scale; /* has divided the coefficients; below 1 counts as 1 */
};
struct mvd_flight_v1_figures {
    double club_velocity, ball_velocity;
    double flight_time, distance, height, lateral;
    double elevation, azimuth;
    double tracked_time;
    double drag, acceleration;
    double club_strike_direction;
    double poly_x[5], poly_y[5], poly_z[5];
};
uint64_t mvd_flight_result_v1(const uint8_t *payload, size_t payload_len,
                              struct mvd_flight_v1_whole *whole, struct mvd_flight_v1_figures *figures, uint64_t values[3]);

/* ED, the club head at impact: at least 167 bytes. The three impact times are in ms. */
struct mvd_club_whole {
    int32_t num_club_prc_points;
    int32_t flags;
    int32_t poly_scale; /* has divided the coefficients; 0 counts as 1 */
};
struct mvd_club_figures {
    double pre_club_speed, post_club_speed;
    double strike_direction, attack_angle, face_angle, dynamic_loft;
    double smash_factor, dispersion_correction;
    double swing_plane_horizontal, swing_plane_vertical;
    double club_azimuth, club_elevation;
    double club_offset, club_height;
    double poly_coeffs[12][3]; /* v, x, y, z, YX and ZX, each before and then after impact */
    double pre_impact_time, post_impact_time, club_to_ball_time;
};
uint64_t mvd_club_result(const uint8_t *payload, size_t payload_len,
                         struct mvd_club_whole *whole, struct mvd_club_figures *figures, uint64_t values[3]);

/* EF, the spin: at least 138 bytes. Its antenna elements are five groups of three range bins; each has its whole numbers in one
 * part of the record and its peak in the other. */
struct mvd_antenna_whole {
    int32_t spin_rpm, snr;
};
struct mvd_antenna_figures {
    double peak;
};
struct mvd_spin_whole {
    int32_t version;
    struct mvd_antenna_whole antenna_data[5][3];
    int32_t pm_spin_raw, pm_spin_final, pm_spin_confidence;
    int32_t lift_spin;
    int32_t spin_validate_expected, spin_validate_low, spin_validate_high, spin_validate_scaling;
    int32_t spin_method, spin_flags;
    int32_t launch_spin, am_spin, pm_spin, aod_spin, pll_spin;
};
struct mvd_spin_figures {
    struct mvd_antenna_figures antenna_data[5][3];
    double spin_axis;
};
uint64_t mvd_spin_result(const uint8_t *payload, size_t payload_len,
                         struct mvd_spin_whole *whole, struct mvd_spin_figures *figures, uint64_t values[3]);

/* E9, the radar's tracking: at least 82 bytes. It has no figures; its unsigned numbers are the counts. */
struct mvd_tracking_counts {
    uint64_t state, flags;
    uint64_t pre_trig_buf_start, club_impact_idx, trigger_idx;
    uint64_t radar_cal1, radar_cal2, radar_cal_avr;
    uint64_t processing_iteration, result_quality, detection_subtype, prc_tracking_count;
    uint64_t radar_measurement, trigger_flags, event_counter;
    uint64_t track_measure4;
};
struct mvd_tracking_whole {
    int32_t radar_baseline;
    int32_t track_measure[3];
};
uint64_t mvd_tracking_status(const uint8_t *payload, size_t payload_len,
                             struct mvd_tracking_counts *counts, struct mvd_tracking_whole *whole, uint64_t values[3]);

/* D9, the club head's speed over time. The speeds fill the front of their buffer, and `samples` gets how many they are; fewer
 * places are refused with MVD_NO_ROOM. Below 12 bytes it is a stub of no speeds, and not refused. */
struct mvd_speed_whole {
    int32_t flags, num_pre, num_post;
    int32_t scale_factor; /* has divided the speeds; 0 counts as 1 */
};
uint64_t mvd_speed_profile(const uint8_t *payload, size_t payload_len, double *speeds, size_t speeds_len,
                           struct mvd_speed_whole *whole, size_t *samples, double *time_interval, uint64_t values[3]);

/* EC, the points at which the ball was tracked: how many a payload of at least 4 bytes has, and the point of an index from 0 on;
 * past the last it is refused with MVD_NO_FIELD. A count of `time` is about 26.7 microseconds. */
struct mvd_prc_whole {
    int32_t index, peak, snr, buf_idx, flags;
    int32_t time;
    int32_t sync_idx, sync_buf;
};
struct mvd_prc_figures {
    double n; /* refractive index factor */
    double az, el, vel, dist;
    double az1, az2, az3, el1, el2; /* of each antenna */
    double pk[6];
};
uint64_t mvd_prc_data(const uint8_t *payload, size_t payload_len, int16_t *sequence, size_t *points, uint64_t values[3]);
uint64_t mvd_prc_point(const uint8_t *payload, size_t payload_len, size_t index,
                       struct mvd_prc_whole *whole, struct mvd_prc_figures *figures, uint64_t values[3]);

/* EE, the points at which the club head was tracked, as EC's; no payload is too short. */
struct mvd_club_prc_whole {
    int32_t index, buf_ofs, peak, snr, buf_idx;
    int32_t time;
    int32_t version, f39, f42;
};
struct mvd_club_prc_figures {
    double n; /* refractive index factor */
    double az, el, vel, vel2, dist;
    double f30, f33, f45;
    double az1, az2, az3, el1, el2; /* of each antenna */
    double pk[6];
};
size_t mvd_club_prc(const uint8_t *payload, size_t payload_len);
uint64_t mvd_club_prc_point(const uint8_t *payload, size_t payload_len, size_t index,
                            struct mvd_club_prc_whole *whole, struct mvd_club_prc_figures *figures, uint64_t values[3]);

/* The payload that asks for EE's points from an index on: 77 bytes at the front of `buf`. */
uint64_t mvd_encode_request(uint16_t start_index, uint8_t *buf, size_t buf_len, uint64_t values[3]);

/* E5, the shot's state in words: where the text lies within the payload, bytes below 20 hex at both ends left out; 0 and 0 where
 * nothing remains. The searches take that text (payload + start, len), or any other: 1 where PROCESSED, IDLE or BALL TRIGGER
 * stands in it, else 0. */
void mvd_shot_text(const uint8_t *payload, size_t payload_len, size_t *start, size_t *len);
uint8_t mvd_is_processed(const uint8_t *text, size_t text_len);
uint8_t mvd_is_idle(const uint8_t *text, size_t text_len);
uint8_t mvd_is_trigger(const uint8_t *text, size_t text_len);

/* ---- Which shots failed */

/* Rule 1: launch speed (E8: ball velocity) is at most zero. Rule 2: that, or flight time is at most zero, or carry (E8: distance)
 * is below zero. */
enum mvd_rule { MVD_RULE_1 = 1, MVD_RULE_2 = 2 };

/* Whether a shot failed by a rule, 1 for yes: of a D4 payload, and of an E8 one. A number that is no rule's is refused with
 * MVD_NO_FIELD before the payload is looked at. */
uint64_t mvd_is_failed(size_t rule, const uint8_t *payload, size_t payload_len, uint8_t *failed, uint64_t values[3]);
uint64_t mvd_is_failed_v1(size_t rule, const uint8_t *payload, size_t payload_len, uint8_t *failed, uint64_t values[3]);

/* Rule 1 by the source's names: of a D4 payload, and of an E8 one. */
uint64_t mvd_is_model_failure(const uint8_t *payload, size_t payload_len, uint8_t *failed, uint64_t values[3]);
uint64_t mvd_is_no_read(const uint8_t *payload, size_t payload_len, uint8_t *unread, uint64_t values[3]);

/* ---- A field by number */

/* The numbers of D4's fields, and how many there are. A field of several has the number of its first; the others follow. */
enum mvd_flight_number {
    MVD_FLIGHT_TOTAL = 0,
    MVD_FLIGHT_TRACK_TIME = 1,
    MVD_FLIGHT_START_POSITION = 2,
    MVD_FLIGHT_LAUNCH_SPEED = 5,
    MVD_FLIGHT_LAUNCH_AZIMUTH = 6,
    MVD_FLIGHT_LAUNCH_ELEVATION = 7,
    MVD_FLIGHT_CARRY_DISTANCE = 8,
    MVD_FLIGHT_FLIGHT_TIME = 9,
    MVD_FLIGHT_MAX_HEIGHT = 10,
    MVD_FLIGHT_LANDING_POSITION = 11,
    MVD_FLIGHT_BACKSPIN_RPM = 14,
    MVD_FLIGHT_SIDESPIN_RPM = 15,
    MVD_FLIGHT_RIFLESPIN_RPM = 16,
    MVD_FLIGHT_LANDING_SPIN_RPM = 17,
    MVD_FLIGHT_LANDING_VELOCITY = 20,
    MVD_FLIGHT_TOTAL_DISTANCE = 23,
    MVD_FLIGHT_ROLL_DISTANCE = 24,
    MVD_FLIGHT_FINAL_POSITION = 25,
    MVD_FLIGHT_CLUBHEAD_SPEED = 28,
    MVD_FLIGHT_CLUB_STRIKE_DIRECTION = 29,
    MVD_FLIGHT_CLUB_ATTACK_ANGLE = 30,
    MVD_FLIGHT_CLUBHEAD_SPEED_POST = 31,
    MVD_FLIGHT_CLUB_SWING_PLANE_TILT = 32,
    MVD_FLIGHT_CLUB_SWING_PLANE_ROTATION = 33,
    MVD_FLIGHT_CLUB_EFFECTIVE_LOFT = 34,
    MVD_FLIGHT_CLUB_FACE_ANGLE = 35,
    MVD_FLIGHT_POLY_SCALE = 36,
    MVD_FLIGHT_POLY_X = 37,
    MVD_FLIGHT_POLY_Y = 42,
    MVD_FLIGHT_POLY_Z = 47,
    MVD_FLIGHT_NUMBERS = 52
};

/* The numbers of E8's fields, and how many there are. */
enum mvd_flight_v1_number {
    MVD_FLIGHT_V1_TOTAL = 0,
    MVD_FLIGHT_V1_CLUB_VELOCITY = 1,
    MVD_FLIGHT_V1_BALL_VELOCITY = 2,
    MVD_FLIGHT_V1_FLIGHT_TIME = 3,
    MVD_FLIGHT_V1_DISTANCE = 4,
    MVD_FLIGHT_V1_HEIGHT = 5,
    MVD_FLIGHT_V1_LATERAL = 6,
    MVD_FLIGHT_V1_ELEVATION = 7,
    MVD_FLIGHT_V1_AZIMUTH = 8,
    MVD_FLIGHT_V1_TRACKED_TIME = 9,
    MVD_FLIGHT_V1_DRAG = 10,
    MVD_FLIGHT_V1_BACKSPIN_RPM = 11,
    MVD_FLIGHT_V1_SIDESPIN_RPM = 12,
    MVD_FLIGHT_V1_ACCELERATION = 13,
    MVD_FLIGHT_V1_CLUB_STRIKE_DIRECTION = 14,
    MVD_FLIGHT_V1_POLY_SCALE = 15,
    MVD_FLIGHT_V1_POLY_X = 16,
    MVD_FLIGHT_V1_POLY_Y = 21,
    MVD_FLIGHT_V1_POLY_Z = 26,
    MVD_FLIGHT_V1_NUMBERS = 31
};

/* The numbers of ED's fields, and how many there are; num_club_prc_points has none. */
enum mvd_club_number {
    MVD_CLUB_FLAGS = 0,
    MVD_CLUB_PRE_CLUB_SPEED = 1,
    MVD_CLUB_POST_CLUB_SPEED = 2,
    MVD_CLUB_STRIKE_DIRECTION = 3,
    MVD_CLUB_ATTACK_ANGLE = 4,
    MVD_CLUB_FACE_ANGLE = 5,
    MVD_CLUB_DYNAMIC_LOFT = 6,
    MVD_CLUB_SMASH_FACTOR = 7,
    MVD_CLUB_DISPERSION_CORRECTION = 8,
    MVD_CLUB_SWING_PLANE_HORIZONTAL = 9,
    MVD_CLUB_SWING_PLANE_VERTICAL = 10,
    MVD_CLUB_CLUB_AZIMUTH = 11,
    MVD_CLUB_CLUB_ELEVATION = 12,
    MVD_CLUB_CLUB_OFFSET = 13,
    MVD_CLUB_CLUB_HEIGHT = 14,
    MVD_CLUB_POLY_SCALE = 15,
    MVD_CLUB_POLY_COEFFS = 16,
    MVD_CLUB_PRE_IMPACT_TIME = 52,
    MVD_CLUB_POST_IMPACT_TIME = 53,
    MVD_CLUB_CLUB_TO_BALL_TIME = 54,
    MVD_CLUB_NUMBERS = 55
};

/* The field of a number, of MVD_FLIGHT_RESULT, MVD_FLIGHT_RESULT_V1 or MVD_CLUB_RESULT; any other message is refused with
 * MVD_NO_FIELD and its byte. A whole number sets `count` and 0 in `is_figure`, a figure sets `figure` and 1. */
uint64_t mvd_field(uint8_t message, const uint8_t *payload, size_t payload_len, size_t number,
                   int32_t *count, double *figure, uint8_t *is_figure, uint64_t values[3]);

/* ---- The bay log */

/* A D4's record of 32 bytes at the front of `buf`; docs/BAY_LOG.md has its layout. Five figures are shown in tenths, the nearest,
 * halves away from zero: 1,250 thousandths as 13, -1,250 as -13. */
uint64_t mvd_bay_log(uint32_t event, const uint8_t *payload, size_t payload_len, uint8_t *buf, size_t buf_len, uint64_t values[3]);

#ifdef __cplusplus
}
#endif

#endif
