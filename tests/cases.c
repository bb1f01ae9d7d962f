/* The fixed list in C and in C++: reads cases, asks each of the call that it is for, and prints the answers (docs/CASES.md).
 * What no answer shows is checked here: a refusal alters nothing, and nothing past the end of a lent place is written. */
#include <inttypes.h>
#include <stdio.h>
#include <stdlib.h>
#include <string.h>
#include "movaleduft.h"

enum {
    MAX_DATA = 4096,  /* bytes of a case */
    MAX_LENT = 1024,  /* bytes of a lent buffer that the case does not give */
    MAX_SPEEDS = 64,
    HEAD = 34,        /* digits before a case's bytes */
    COUNTS = 40,      /* bytes of a state's five counts */
    GUARD = 16,       /* bytes behind a lent buffer */
    LENT = 0xA5,      /* what a lent buffer has before a call */
    MARK = 0x55       /* what every other place has, and what stands behind a buffer */
};

struct question {
    uint8_t op;
    uint64_t a, b;
    uint8_t data[MAX_DATA + GUARD]; /* lent to the writers */
    size_t len;
};

/* A refusal's values, and a word behind them. */
struct told {
    uint64_t values[3], end;
};

/* A struct of the header has its members in a row, as many of one type as the call fills. */
#define IN_A_ROW(STRUCT, MANY, TYPE) typedef char STRUCT##_in_a_row[sizeof(struct STRUCT) == (MANY) * sizeof(TYPE) ? 1 : -1]
IN_A_ROW(mvd_header, 4, uint64_t);
IN_A_ROW(mvd_fed, 5, uint64_t);
IN_A_ROW(mvd_splitter, 7, uint64_t);
IN_A_ROW(mvd_flight_whole, 8, int32_t);
IN_A_ROW(mvd_flight_figures, 44, double);
IN_A_ROW(mvd_flight_v1_whole, 4, int32_t);
IN_A_ROW(mvd_flight_v1_figures, 27, double);
IN_A_ROW(mvd_club_whole, 3, int32_t);
IN_A_ROW(mvd_club_figures, 53, double);
IN_A_ROW(mvd_spin_whole, 46, int32_t);
IN_A_ROW(mvd_spin_figures, 16, double);
IN_A_ROW(mvd_tracking_counts, 16, uint64_t);
IN_A_ROW(mvd_tracking_whole, 4, int32_t);
IN_A_ROW(mvd_speed_whole, 4, int32_t);
IN_A_ROW(mvd_prc_whole, 8, int32_t);
IN_A_ROW(mvd_prc_figures, 16, double);
IN_A_ROW(mvd_club_prc_whole, 9, int32_t);
IN_A_ROW(mvd_club_prc_figures, 20, double);

static unsigned long line_number;

static void check(int holds, const char *what) {
    if (holds) return;
    fflush(stdout);
    fprintf(stderr, "cases.c: line %lu: %s\n", line_number, what);
    exit(1);
}

static void no_case(const char *why) {
    fflush(stdout);
    fprintf(stderr, "cases.c: line %lu is no case: %s\n", line_number, why);
    exit(2);
}

/* ---- Places before and after a call */

static void mark(void *place, size_t size) { memset(place, MARK, size); }

static int marked(const void *place, size_t size) {
    const uint8_t *bytes = (const uint8_t *)place;
    for (size_t i = 0; i < size; i++) {
        if (bytes[i] != MARK) return 0;
    }
    return 1;
}

static void lend(uint8_t *buf, size_t len) {
    memset(buf, LENT, len);
    mark(buf + len, GUARD);
}

static size_t lent_length(uint64_t n) {
    if (n > MAX_LENT) no_case("a lent buffer has at most 1,024 bytes");
    return (size_t)n;
}

/* ---- The parts of an answer */

static void whole(int64_t n) { printf(" %" PRId64, n); }

static void unsigned_whole(uint64_t n) { printf(" %" PRIu64, n); }

static void wholes(const int32_t *ns, size_t many) {
    for (size_t i = 0; i < many; i++) whole(ns[i]);
}

static void figure(double x) {
    uint64_t bits;
    memcpy(&bits, &x, sizeof bits);
    printf(" %016" PRIx64, x == x ? bits : UINT64_C(0x7ff8000000000000));
}

static void figures(const double *xs, size_t many) {
    for (size_t i = 0; i < many; i++) figure(xs[i]);
}

static void hex(const uint8_t *bytes, size_t len) {
    for (size_t i = 0; i < len; i++) printf("%02x", bytes[i]);
}

static void end(void) { printf(" :\n"); }

static void end_bytes(const uint8_t *bytes, size_t len) {
    printf(" :");
    hex(bytes, len);
    printf("\n");
}

/* The number that a call answered and its values: none is touched where it is MVD_OK, else those past the last are 0.
 * Answers whether it is MVD_OK; where it is not, the place of the answer is as it was. */
static int told(uint64_t refusal, const struct told *t, const void *place, size_t size) {
    size_t many = mvd_value_count(refusal);
    printf("%" PRIu64, refusal);
    check(marked(&t->end, sizeof t->end), "more than three values were written");
    if (refusal == MVD_OK) {
        check(many == 0 && marked(t->values, sizeof t->values), "a value was written, and nothing refused");
        return 1;
    }
    check(many <= 3, "a refusal has at most three values");
    for (size_t i = 0; i < 3; i++) {
        if (i < many) unsigned_whole(t->values[i]);
        else check(t->values[i] == 0, "a value past the last is not 0");
    }
    check(marked(place, size), "a refusal wrote");
    return 0;
}

/* ---- Fields at a place */

#define READER(NAME, CALL, TYPE)                                                  \
    static void NAME(struct question *q) {                                        \
        struct told t;                                                            \
        TYPE value[2];                                                            \
        mark(&t, sizeof t);                                                       \
        mark(value, sizeof value);                                                \
        uint64_t refusal = CALL(q->data, q->len, (size_t)q->a, value, t.values);  \
        if (told(refusal, &t, value, sizeof value)) whole(value[0]);              \
        check(marked(&value[1], sizeof value[1]), "more than a value was written"); \
        end();                                                                    \
    }
READER(read_int16, mvd_read_int16, int16_t)
READER(read_uint16, mvd_read_uint16, uint16_t)
READER(read_int24, mvd_read_int24, int32_t)
READER(read_uint24, mvd_read_uint24, uint32_t)
READER(read_int32, mvd_read_int32, int32_t)
READER(read_uint32, mvd_read_uint32, uint32_t)

static double double_of(uint64_t bits) {
    double x;
    memcpy(&x, &bits, sizeof x);
    return x;
}

static void read_figure(struct question *q) {
    struct told t;
    double value[2], scale = double_of(q->b);
    size_t at = (size_t)q->a;
    uint64_t refusal;
    mark(&t, sizeof t);
    mark(value, sizeof value);
    switch (q->op) {
    case 0x07: refusal = mvd_read_float40(q->data, q->len, at, value, t.values); break;
    case 0x08: refusal = mvd_read_int24_scaled(q->data, q->len, at, scale, value, t.values); break;
    default: refusal = mvd_read_int16_scaled(q->data, q->len, at, scale, value, t.values);
    }
    if (told(refusal, &t, value, sizeof value)) figure(value[0]);
    check(marked(&value[1], sizeof value[1]), "more than a value was written");
    end();
}

/* The value is the low bits of the second number; the request for club points (3A) has no place. */
static void write_field(struct question *q) {
    struct told t;
    size_t at = (size_t)q->a;
    uint64_t refusal;
    mark(&t, sizeof t);
    switch (q->op) {
    case 0x11: refusal = mvd_write_int16(q->data, q->len, at, (int16_t)(uint16_t)q->b, t.values); break;
    case 0x12: refusal = mvd_write_uint16(q->data, q->len, at, (uint16_t)q->b, t.values); break;
    case 0x13: refusal = mvd_write_int24(q->data, q->len, at, (int32_t)(uint32_t)q->b, t.values); break;
    case 0x14: refusal = mvd_write_uint24(q->data, q->len, at, (uint32_t)q->b, t.values); break;
    case 0x15: refusal = mvd_write_int32(q->data, q->len, at, (int32_t)(uint32_t)q->b, t.values); break;
    case 0x16: refusal = mvd_write_uint32(q->data, q->len, at, (uint32_t)q->b, t.values); break;
    case 0x17: refusal = mvd_write_float40(q->data, q->len, at, double_of(q->b), t.values); break;
    case 0x18: refusal = mvd_write_float40_bits(q->data, q->len, at, q->b, t.values); break;
    default: refusal = mvd_encode_request((uint16_t)q->b, q->data, q->len, t.values);
    }
    told(refusal, &t, NULL, 0);
    check(marked(q->data + q->len, GUARD), "a byte behind the buffer was written");
    end_bytes(q->data, q->len);
}

/* ---- Frames */

static void open_frame(struct question *q) {
    struct told t;
    struct { struct mvd_header header; uint64_t end; } r;
    mark(&t, sizeof t);
    mark(&r, sizeof r);
    if (told(mvd_open(q->data, q->len, &r.header, t.values), &t, &r, sizeof r)) {
        unsigned_whole(r.header.dest);
        unsigned_whole(r.header.src);
        unsigned_whole(r.header.type_id);
        unsigned_whole(r.header.len);
    }
    check(marked(&r.end, sizeof r.end), "more than the header was written");
    end();
}

/* Copies the payload of a wire (24), or writes the wire of a payload (21). */
static void frame_bytes(struct question *q) {
    struct told t;
    uint8_t buf[MAX_LENT + GUARD];
    size_t room = lent_length(q->op == 0x24 ? q->a : q->b), len[2];
    uint64_t refusal;
    mark(&t, sizeof t);
    mark(len, sizeof len);
    lend(buf, room);
    if (q->op == 0x24) {
        refusal = mvd_copy_payload(q->data, q->len, buf, room, len, t.values);
    } else {
        uint8_t dest = (uint8_t)(q->a >> 16), src = (uint8_t)(q->a >> 8), type_id = (uint8_t)q->a;
        refusal = mvd_encode(dest, src, type_id, q->data, q->len, buf, room, len, t.values);
    }
    if (told(refusal, &t, len, sizeof len)) unsigned_whole(len[0]);
    check(marked(&len[1], sizeof len[1]), "more than a length was written");
    check(marked(buf + room, GUARD), "a byte behind the buffer was written");
    end_bytes(buf, room);
}

/* ---- The splitter */

/* The frames that a splitter has found: each length, -1 for one that is too long, and their bytes. */
struct found {
    int64_t lengths[MAX_DATA + 1];
    size_t frames;
    uint8_t bytes[MAX_LENT + MAX_DATA];
    size_t len;
};

struct splitter {
    struct mvd_splitter state;
    uint64_t behind; /* the state */
    uint8_t hold[MAX_LENT + GUARD];
    size_t room;
    struct found *found;
};

static void start(struct splitter *s, const struct mvd_splitter *state, size_t room) {
    static struct found found;
    s->state = *state;
    mark(&s->behind, sizeof s->behind);
    s->room = room;
    s->found = &found;
    found.frames = found.len = 0;
    lend(s->hold, room);
}

/* The hold has what it had, and from the old count on the bytes that the call added, the last that it took. */
static void check_hold(const struct splitter *s, const struct splitter *old, const uint8_t *chunk, const struct mvd_fed *fed) {
    size_t added = 0, before = (size_t)old->state.count, after = (size_t)s->state.count, held;
    if (fed->event == MVD_FRAME && fed->in_hold) added = (size_t)fed->len - before;
    if (fed->event == MVD_MORE && after > before) added = after - before;
    held = before + added;
    check(added <= fed->taken && held <= s->room, "more bytes are held than were taken, or than there is room for");
    check(memcmp(s->hold, old->hold, before) == 0, "a held byte was altered");
    check(memcmp(s->hold + before, chunk + fed->taken - added, added) == 0, "other bytes are held than those taken");
    check(memcmp(s->hold + held, old->hold + held, s->room + GUARD - held) == 0, "the hold was written behind what it holds");
}

static void keep_frame(const struct splitter *s, const uint8_t *chunk, size_t len, const struct mvd_fed *fed) {
    struct found *f = s->found;
    if (fed->event == MVD_MORE) return;
    check(f->frames < sizeof f->lengths / sizeof f->lengths[0], "more frames were found than there are bytes");
    f->lengths[f->frames++] = fed->event == MVD_FRAME ? (int64_t)fed->len : -1;
    if (fed->event == MVD_OVERLONG) return;
    check(fed->start + fed->len <= (fed->in_hold ? s->room : len), "a frame lies outside the buffer that carries it");
    check(f->len + fed->len <= sizeof f->bytes, "the frames have more bytes than there are");
    memcpy(f->bytes + f->len, (fed->in_hold ? s->hold : chunk) + fed->start, (size_t)fed->len);
    f->len += (size_t)fed->len;
}

/* What was taken is counted, all of it is in one of the other four, and nothing is written behind the state. */
static void check_counts(const struct splitter *s, const struct splitter *old, uint64_t taken) {
    const struct mvd_splitter *k = &s->state;
    check(marked(&s->behind, sizeof s->behind), "more than the state was written");
    check(k->taken - old->state.taken == taken, "other bytes are counted than were taken");
    check(k->taken == k->dropped + k->framed + k->lost + k->held && k->held == k->count, "the counts do not balance");
}

/* One call of `mvd_feed`; `taken` gets how many bytes it took. */
static uint64_t feed(struct splitter *s, const uint8_t *chunk, size_t len, struct told *t, size_t *taken) {
    struct { struct mvd_fed fed; uint64_t end; } r;
    struct splitter old = *s;
    mark(t, sizeof *t);
    mark(&r, sizeof r);
    uint64_t refusal = mvd_feed(&s->state, s->hold, s->room, chunk, len, &r.fed, t->values);
    check(marked(&r.end, sizeof r.end), "more than five words were written");
    if (refusal != MVD_OK) {
        check(marked(&r, sizeof r) && memcmp(&s->state, &old.state, sizeof s->state) == 0, "a refusal wrote");
        check(marked(&s->behind, sizeof s->behind) && memcmp(s->hold, old.hold, s->room + GUARD) == 0, "a refusal wrote");
        return refusal;
    }
    check(r.fed.event <= MVD_OVERLONG && r.fed.in_hold <= 1, "an event or a buffer that the header does not name");
    check(r.fed.taken <= len && (r.fed.taken > 0 || len == 0), "no byte was taken, or more than were offered");
    check(r.fed.event != MVD_MORE || r.fed.taken == len, "MVD_MORE with bytes that were not taken");
    check_hold(s, &old, chunk, &r.fed);
    check_counts(s, &old, r.fed.taken);
    keep_frame(s, chunk, len, &r.fed);
    *taken = (size_t)r.fed.taken;
    return MVD_OK;
}

/* A chunk, and each rest of it that was not taken. */
static uint64_t offer(struct splitter *s, const uint8_t *chunk, size_t len, struct told *t) {
    size_t at = 0, taken = 0;
    do {
        uint64_t refusal = feed(s, chunk + at, len - at, t, &taken);
        if (refusal != MVD_OK) return refusal;
        at += taken;
    } while (at < len);
    return MVD_OK;
}

static void words(const struct mvd_splitter *k) {
    unsigned_whole(k->count);
    unsigned_whole(k->skipping);
    unsigned_whole(k->taken);
    unsigned_whole(k->dropped);
    unsigned_whole(k->framed);
    unsigned_whole(k->lost);
    unsigned_whole(k->held);
}

/* The answer of a splitter that was not refused. */
static void end_split(const struct splitter *s) {
    for (size_t i = 0; i < s->found->frames; i++) whole(s->found->lengths[i]);
    words(&s->state);
    printf(" :");
    hex(s->found->bytes, s->found->len);
    hex(s->hold, (size_t)s->state.count);
    printf("\n");
}

/* The stream in chunks of the four sizes in turn, 64 each where all are 0. */
static void split(struct question *q) {
    struct splitter s;
    struct told t;
    struct mvd_splitter fresh = {0, 0, 0, 0, 0, 0, 0};
    uint64_t sizes = q->b == 0 ? UINT64_C(0x0040004000400040) : q->b;
    size_t at = 0;
    start(&s, &fresh, lent_length(q->a));
    while (at < q->len) {
        size_t size = (size_t)(sizes >> 48);
        if (size > q->len - at) size = q->len - at;
        check(offer(&s, q->data + at, size, &t) == MVD_OK, "a state that mvd_feed left was refused");
        at += size;
        sizes = sizes << 16 | sizes >> 48;
    }
    printf("0");
    end_split(&s);
}

/* A case has one byte of a mark, and the state eight: a bit behind the first byte makes any mark a bad one. */
static void wide_marks(const struct mvd_splitter *given, size_t room, const uint8_t *chunk, size_t len) {
    struct splitter s;
    struct told t;
    for (int bit = 8; bit < 64; bit += 11) {
        struct mvd_splitter wide = *given;
        wide.skipping |= (uint64_t)1 << bit;
        start(&s, &wide, room);
        check(offer(&s, chunk, len, &t) == MVD_BAD_STATE, "a mark of more than one byte was taken");
    }
}

/* A state that the case gives: the chunk is offered to it, or it is refused. */
static void offer_state(struct question *q, const struct mvd_splitter *given, const uint8_t *chunk, size_t len) {
    struct splitter s;
    struct told t;
    wide_marks(given, lent_length(q->b >> 8), chunk, len);
    start(&s, given, lent_length(q->b >> 8));
    if (told(offer(&s, chunk, len, &t), &t, NULL, 0)) end_split(&s);
    else end();
}

/* It took what it holds, and no more. */
static void state(struct question *q) {
    struct mvd_splitter held = {q->a, (uint8_t)q->b, q->a, 0, 0, 0, q->a};
    offer_state(q, &held, q->data, q->len);
}

/* Eight bytes, the low one first. */
static uint64_t little(const uint8_t *bytes) {
    uint64_t n = 0;
    for (size_t i = 8; i > 0; i--) n = n << 8 | bytes[i - 1];
    return n;
}

/* Its counts stand before the chunk. */
static void counted_state(struct question *q) {
    const uint8_t *k = q->data;
    if (q->len < COUNTS) no_case("it has not the five counts of its state");
    struct mvd_splitter given = {q->a, (uint8_t)q->b, little(k), little(k + 8), little(k + 16), little(k + 24), little(k + 32)};
    offer_state(q, &given, q->data + COUNTS, q->len - COUNTS);
}

/* ---- A field by number */

struct field {
    int32_t count[2];
    double figure[2];
    uint8_t is_figure[2];
};

static uint64_t ask_field(const struct question *q, uint8_t message, size_t number, struct field *f, struct told *t) {
    mark(t, sizeof *t);
    mark(f, sizeof *f);
    uint64_t refusal = mvd_field(message, q->data, q->len, number, f->count, f->figure, f->is_figure, t->values);
    check(marked(&f->count[1], sizeof(int32_t)) && marked(&f->figure[1], sizeof(double)) && marked(&f->is_figure[1], 1),
          "more than a field was written");
    if (refusal != MVD_OK) return refusal;
    check(f->is_figure[0] <= 1, "a field is a whole number or a figure");
    check(f->is_figure[0] ? marked(f->count, sizeof(int32_t)) : marked(f->figure, sizeof(double)),
          "a count and a figure were written");
    return refusal;
}

static void field(struct question *q) {
    struct field f;
    struct told t;
    if (told(ask_field(q, (uint8_t)q->b, (size_t)q->a, &f, &t), &t, &f, sizeof f)) {
        if (f.is_figure[0]) figure(f.figure[0]);
        else whole(f.count[0]);
    }
    end();
}

/* Whole numbers of a record, which are the fields of a message from a number on. */
static void whole_fields(const struct question *q, uint8_t message, size_t number, const int32_t *ns, size_t many) {
    struct field f;
    struct told t;
    for (size_t i = 0; i < many; i++) {
        int is_it = ask_field(q, message, number + i, &f, &t) == MVD_OK && f.is_figure[0] == 0 && f.count[0] == ns[i];
        check(is_it, "a whole number of the record is not the field of its number");
    }
    wholes(ns, many);
}

/* Figures of a record, likewise. */
static void figure_fields(const struct question *q, uint8_t message, size_t number, const double *xs, size_t many) {
    struct field f;
    struct told t;
    for (size_t i = 0; i < many; i++) {
        int is_it = ask_field(q, message, number + i, &f, &t) == MVD_OK && f.is_figure[0] == 1;
        check(is_it && memcmp(f.figure, &xs[i], sizeof xs[i]) == 0, "a figure of the record is not the field of its number");
    }
    figures(xs, many);
}

static void last_field(const struct question *q, uint8_t message, size_t numbers) {
    struct field f;
    struct told t;
    uint64_t refusal = ask_field(q, message, numbers, &f, &t);
    check(refusal == MVD_NO_FIELD && t.values[0] == numbers, "a message has more fields than the header has numbers");
}

/* ---- Messages: each record by the names of its members, in its order */

static void flight_names(const struct question *q, const struct mvd_flight_whole *w, const struct mvd_flight_figures *x) {
    const uint8_t D4 = MVD_FLIGHT_RESULT;
    whole_fields(q, D4, MVD_FLIGHT_TOTAL, &w->total, 1);
    whole_fields(q, D4, MVD_FLIGHT_BACKSPIN_RPM, &w->backspin_rpm, 1);
    whole_fields(q, D4, MVD_FLIGHT_SIDESPIN_RPM, &w->sidespin_rpm, 1);
    whole_fields(q, D4, MVD_FLIGHT_RIFLESPIN_RPM, &w->riflespin_rpm, 1);
    whole_fields(q, D4, MVD_FLIGHT_LANDING_SPIN_RPM, w->landing_spin_rpm, 3);
    whole_fields(q, D4, MVD_FLIGHT_POLY_SCALE, &w->poly_scale, 1);
    figure_fields(q, D4, MVD_FLIGHT_TRACK_TIME, &x->track_time, 1);
    figure_fields(q, D4, MVD_FLIGHT_START_POSITION, x->start_position, 3);
    figure_fields(q, D4, MVD_FLIGHT_LAUNCH_SPEED, &x->launch_speed, 1);
    figure_fields(q, D4, MVD_FLIGHT_LAUNCH_AZIMUTH, &x->launch_azimuth, 1);
    figure_fields(q, D4, MVD_FLIGHT_LAUNCH_ELEVATION, &x->launch_elevation, 1);
    figure_fields(q, D4, MVD_FLIGHT_CARRY_DISTANCE, &x->carry_distance, 1);
    figure_fields(q, D4, MVD_FLIGHT_FLIGHT_TIME, &x->flight_time, 1);
    figure_fields(q, D4, MVD_FLIGHT_MAX_HEIGHT, &x->max_height, 1);
    figure_fields(q, D4, MVD_FLIGHT_LANDING_POSITION, x->landing_position, 3);
    figure_fields(q, D4, MVD_FLIGHT_LANDING_VELOCITY, x->landing_velocity, 3);
    figure_fields(q, D4, MVD_FLIGHT_TOTAL_DISTANCE, &x->total_distance, 1);
    figure_fields(q, D4, MVD_FLIGHT_ROLL_DISTANCE, &x->roll_distance, 1);
    figure_fields(q, D4, MVD_FLIGHT_FINAL_POSITION, x->final_position, 3);
    figure_fields(q, D4, MVD_FLIGHT_CLUBHEAD_SPEED, &x->clubhead_speed, 1);
    figure_fields(q, D4, MVD_FLIGHT_CLUB_STRIKE_DIRECTION, &x->club_strike_direction, 1);
    figure_fields(q, D4, MVD_FLIGHT_CLUB_ATTACK_ANGLE, &x->club_attack_angle, 1);
    figure_fields(q, D4, MVD_FLIGHT_CLUBHEAD_SPEED_POST, &x->clubhead_speed_post, 1);
    figure_fields(q, D4, MVD_FLIGHT_CLUB_SWING_PLANE_TILT, &x->club_swing_plane_tilt, 1);
    figure_fields(q, D4, MVD_FLIGHT_CLUB_SWING_PLANE_ROTATION, &x->club_swing_plane_rotation, 1);
    figure_fields(q, D4, MVD_FLIGHT_CLUB_EFFECTIVE_LOFT, &x->club_effective_loft, 1);
    figure_fields(q, D4, MVD_FLIGHT_CLUB_FACE_ANGLE, &x->club_face_angle, 1);
    figure_fields(q, D4, MVD_FLIGHT_POLY_X, x->poly_x, 5);
    figure_fields(q, D4, MVD_FLIGHT_POLY_Y, x->poly_y, 5);
    figure_fields(q, D4, MVD_FLIGHT_POLY_Z, x->poly_z, 5);
    last_field(q, D4, MVD_FLIGHT_NUMBERS);
}

static void flight_v1_names(const struct question *q, const struct mvd_flight_v1_whole *w, const struct mvd_flight_v1_figures *x) {
    const uint8_t E8 = MVD_FLIGHT_RESULT_V1;
    whole_fields(q, E8, MVD_FLIGHT_V1_TOTAL, &w->total, 1);
    whole_fields(q, E8, MVD_FLIGHT_V1_BACKSPIN_RPM, &w->backspin_rpm, 1);
    whole_fields(q, E8, MVD_FLIGHT_V1_SIDESPIN_RPM, &w->sidespin_rpm, 1);
    whole_fields(q, E8, MVD_FLIGHT_V1_POLY_SCALE, &w->poly_scale, 1);
    figure_fields(q, E8, MVD_FLIGHT_V1_CLUB_VELOCITY, &x->club_velocity, 1);
    figure_fields(q, E8, MVD_FLIGHT_V1_BALL_VELOCITY, &x->ball_velocity, 1);
    figure_fields(q, E8, MVD_FLIGHT_V1_FLIGHT_TIME, &x->flight_time, 1);
    figure_fields(q, E8, MVD_FLIGHT_V1_DISTANCE, &x->distance, 1);
    figure_fields(q, E8, MVD_FLIGHT_V1_HEIGHT, &x->height, 1);
    figure_fields(q, E8, MVD_FLIGHT_V1_LATERAL, &x->lateral, 1);
    figure_fields(q, E8, MVD_FLIGHT_V1_ELEVATION, &x->elevation, 1);
    figure_fields(q, E8, MVD_FLIGHT_V1_AZIMUTH, &x->azimuth, 1);
    figure_fields(q, E8, MVD_FLIGHT_V1_TRACKED_TIME, &x->tracked_time, 1);
    figure_fields(q, E8, MVD_FLIGHT_V1_DRAG, &x->drag, 1);
    figure_fields(q, E8, MVD_FLIGHT_V1_ACCELERATION, &x->acceleration, 1);
    figure_fields(q, E8, MVD_FLIGHT_V1_CLUB_STRIKE_DIRECTION, &x->club_strike_direction, 1);
    figure_fields(q, E8, MVD_FLIGHT_V1_POLY_X, x->poly_x, 5);
    figure_fields(q, E8, MVD_FLIGHT_V1_POLY_Y, x->poly_y, 5);
    figure_fields(q, E8, MVD_FLIGHT_V1_POLY_Z, x->poly_z, 5);
    last_field(q, E8, MVD_FLIGHT_V1_NUMBERS);
}

static void club_names(const struct question *q, const struct mvd_club_whole *w, const struct mvd_club_figures *x) {
    const uint8_t ED = MVD_CLUB_RESULT;
    whole(w->num_club_prc_points);
    whole_fields(q, ED, MVD_CLUB_FLAGS, &w->flags, 1);
    whole_fields(q, ED, MVD_CLUB_POLY_SCALE, &w->poly_scale, 1);
    figure_fields(q, ED, MVD_CLUB_PRE_CLUB_SPEED, &x->pre_club_speed, 1);
    figure_fields(q, ED, MVD_CLUB_POST_CLUB_SPEED, &x->post_club_speed, 1);
    figure_fields(q, ED, MVD_CLUB_STRIKE_DIRECTION, &x->strike_direction, 1);
    figure_fields(q, ED, MVD_CLUB_ATTACK_ANGLE, &x->attack_angle, 1);
    figure_fields(q, ED, MVD_CLUB_FACE_ANGLE, &x->face_angle, 1);
    figure_fields(q, ED, MVD_CLUB_DYNAMIC_LOFT, &x->dynamic_loft, 1);
    figure_fields(q, ED, MVD_CLUB_SMASH_FACTOR, &x->smash_factor, 1);
    figure_fields(q, ED, MVD_CLUB_DISPERSION_CORRECTION, &x->dispersion_correction, 1);
    figure_fields(q, ED, MVD_CLUB_SWING_PLANE_HORIZONTAL, &x->swing_plane_horizontal, 1);
    figure_fields(q, ED, MVD_CLUB_SWING_PLANE_VERTICAL, &x->swing_plane_vertical, 1);
    figure_fields(q, ED, MVD_CLUB_CLUB_AZIMUTH, &x->club_azimuth, 1);
    figure_fields(q, ED, MVD_CLUB_CLUB_ELEVATION, &x->club_elevation, 1);
    figure_fields(q, ED, MVD_CLUB_CLUB_OFFSET, &x->club_offset, 1);
    figure_fields(q, ED, MVD_CLUB_CLUB_HEIGHT, &x->club_height, 1);
    figure_fields(q, ED, MVD_CLUB_POLY_COEFFS, &x->poly_coeffs[0][0], 36);
    figure_fields(q, ED, MVD_CLUB_PRE_IMPACT_TIME, &x->pre_impact_time, 1);
    figure_fields(q, ED, MVD_CLUB_POST_IMPACT_TIME, &x->post_impact_time, 1);
    figure_fields(q, ED, MVD_CLUB_CLUB_TO_BALL_TIME, &x->club_to_ball_time, 1);
    last_field(q, ED, MVD_CLUB_NUMBERS);
}

static void spin_names(const struct mvd_spin_whole *w, const struct mvd_spin_figures *x) {
    const int32_t rest[15] = {w->pm_spin_raw, w->pm_spin_final, w->pm_spin_confidence, w->lift_spin, w->spin_validate_expected,
                              w->spin_validate_low, w->spin_validate_high, w->spin_validate_scaling, w->spin_method, w->spin_flags,
                              w->launch_spin, w->am_spin, w->pm_spin, w->aod_spin, w->pll_spin};
    whole(w->version);
    for (size_t i = 0; i < 15; i++) {
        whole(w->antenna_data[i / 3][i % 3].spin_rpm);
        whole(w->antenna_data[i / 3][i % 3].snr);
    }
    wholes(rest, 15);
    for (size_t i = 0; i < 15; i++) figure(x->antenna_data[i / 3][i % 3].peak);
    figure(x->spin_axis);
}

static void tracking_names(const struct mvd_tracking_counts *c, const struct mvd_tracking_whole *w) {
    const uint64_t counts[16] = {c->state, c->flags, c->pre_trig_buf_start, c->club_impact_idx, c->trigger_idx, c->radar_cal1,
                                 c->radar_cal2, c->radar_cal_avr, c->processing_iteration, c->result_quality,
                                 c->detection_subtype, c->prc_tracking_count, c->radar_measurement, c->trigger_flags,
                                 c->event_counter, c->track_measure4};
    for (size_t i = 0; i < 16; i++) unsigned_whole(counts[i]);
    whole(w->radar_baseline);
    wholes(w->track_measure, 3);
}

static void prc_names(const struct mvd_prc_whole *w, const struct mvd_prc_figures *x) {
    const int32_t ns[8] = {w->index, w->peak, w->snr, w->buf_idx, w->flags, w->time, w->sync_idx, w->sync_buf};
    const double xs[10] = {x->n, x->az, x->el, x->vel, x->dist, x->az1, x->az2, x->az3, x->el1, x->el2};
    wholes(ns, 8);
    figures(xs, 10);
    figures(x->pk, 6);
}

static void club_prc_names(const struct mvd_club_prc_whole *w, const struct mvd_club_prc_figures *x) {
    const int32_t ns[9] = {w->index, w->buf_ofs, w->peak, w->snr, w->buf_idx, w->time, w->version, w->f39, w->f42};
    const double xs[14] = {x->n, x->az, x->el, x->vel, x->vel2, x->dist, x->f30, x->f33, x->f45,
                           x->az1, x->az2, x->az3, x->el1, x->el2};
    wholes(ns, 9);
    figures(xs, 14);
    figures(x->pk, 6);
}

/* A call that fills the two parts of a record, with a place behind each; NAMES prints it. */
#define RECORD(NAME, PART, CALL, NAMES)                                                                                \
    static void NAME(struct question *q) {                                                                             \
        struct told t;                                                                                                 \
        struct { struct PART##_whole whole; int32_t whole_end; struct PART##_figures figures; double figures_end; } r; \
        mark(&t, sizeof t);                                                                                            \
        mark(&r, sizeof r);                                                                                            \
        if (told(CALL, &t, &r, sizeof r)) NAMES;                                                                       \
        check(marked(&r.whole_end, sizeof r.whole_end) && marked(&r.figures_end, sizeof r.figures_end),                \
              "more was written than the record has");                                                                 \
        end();                                                                                                         \
    }
RECORD(flight_result, mvd_flight, mvd_flight_result(q->data, q->len, &r.whole, &r.figures, t.values),
       flight_names(q, &r.whole, &r.figures))
RECORD(flight_result_v1, mvd_flight_v1, mvd_flight_result_v1(q->data, q->len, &r.whole, &r.figures, t.values),
       flight_v1_names(q, &r.whole, &r.figures))
RECORD(club_result, mvd_club, mvd_club_result(q->data, q->len, &r.whole, &r.figures, t.values),
       club_names(q, &r.whole, &r.figures))
RECORD(spin_result, mvd_spin, mvd_spin_result(q->data, q->len, &r.whole, &r.figures, t.values),
       spin_names(&r.whole, &r.figures))
RECORD(prc_point, mvd_prc, mvd_prc_point(q->data, q->len, (size_t)q->a, &r.whole, &r.figures, t.values),
       prc_names(&r.whole, &r.figures))
RECORD(club_prc_point, mvd_club_prc, mvd_club_prc_point(q->data, q->len, (size_t)q->a, &r.whole, &r.figures, t.values),
       club_prc_names(&r.whole, &r.figures))

static void tracking_status(struct question *q) {
    struct told t;
    struct { struct mvd_tracking_counts counts; uint64_t counts_end; struct mvd_tracking_whole whole; int32_t whole_end; } r;
    mark(&t, sizeof t);
    mark(&r, sizeof r);
    uint64_t refusal = mvd_tracking_status(q->data, q->len, &r.counts, &r.whole, t.values);
    if (told(refusal, &t, &r, sizeof r)) tracking_names(&r.counts, &r.whole);
    check(marked(&r.counts_end, sizeof r.counts_end) && marked(&r.whole_end, sizeof r.whole_end),
          "more was written than the record has");
    end();
}

static void speed_profile(struct question *q) {
    struct told t;
    struct { struct mvd_speed_whole whole; int32_t whole_end; size_t samples[2]; double time_interval[2]; } r;
    double speeds[MAX_SPEEDS + 1];
    if (q->a > MAX_SPEEDS) no_case("a lent buffer has at most 64 speeds");
    size_t room = (size_t)q->a;
    mark(&t, sizeof t);
    mark(&r, sizeof r);
    mark(speeds, sizeof speeds);
    for (size_t i = 0; i < room; i++) speeds[i] = -7.25;
    uint64_t refusal = mvd_speed_profile(q->data, q->len, speeds, room, &r.whole, r.samples, r.time_interval, t.values);
    if (told(refusal, &t, &r, sizeof r)) {
        const int32_t ns[4] = {r.whole.flags, r.whole.num_pre, r.whole.num_post, r.whole.scale_factor};
        wholes(ns, 4);
        unsigned_whole(r.samples[0]);
        figure(r.time_interval[0]);
    }
    check(marked(&r.whole_end, sizeof(int32_t)) && marked(&r.samples[1], sizeof(size_t)), "more was written than the record has");
    check(marked(&r.time_interval[1], sizeof(double)) && marked(&speeds[room], sizeof(double)), "a figure was written past the last");
    figures(speeds, room);
    end();
}

static void prc_data(struct question *q) {
    struct told t;
    struct { int16_t sequence[2]; size_t points[2]; } r;
    mark(&t, sizeof t);
    mark(&r, sizeof r);
    if (told(mvd_prc_data(q->data, q->len, r.sequence, r.points, t.values), &t, &r, sizeof r)) {
        whole(r.sequence[0]);
        unsigned_whole(r.points[0]);
    }
    check(marked(&r.sequence[1], sizeof(int16_t)) && marked(&r.points[1], sizeof(size_t)), "more than two numbers were written");
    end();
}

static void club_prc(struct question *q) {
    printf("0");
    unsigned_whole(mvd_club_prc(q->data, q->len));
    end();
}

static void shot_text(struct question *q) {
    struct { size_t start[2], len[2]; } r;
    mark(&r, sizeof r);
    mvd_shot_text(q->data, q->len, r.start, r.len);
    check(marked(&r.start[1], sizeof(size_t)) && marked(&r.len[1], sizeof(size_t)), "more than two numbers were written");
    check(r.start[0] <= q->len && r.len[0] <= q->len - r.start[0], "the text lies outside the payload");
    const uint8_t *text = q->data + r.start[0];
    printf("0");
    unsigned_whole(r.start[0]);
    unsigned_whole(r.len[0]);
    whole(mvd_is_processed(text, r.len[0]));
    whole(mvd_is_idle(text, r.len[0]));
    whole(mvd_is_trigger(text, r.len[0]));
    end_bytes(text, r.len[0]);
}

/* Rule 1 by the source's names (3C, 3D), and the rule of a number (3E, 3F), of D4 and of E8. */
static void has_failed(struct question *q) {
    struct told t;
    uint8_t failed[2];
    size_t rule = (size_t)q->a;
    uint64_t refusal;
    mark(&t, sizeof t);
    mark(failed, sizeof failed);
    switch (q->op) {
    case 0x3C: refusal = mvd_is_model_failure(q->data, q->len, failed, t.values); break;
    case 0x3D: refusal = mvd_is_no_read(q->data, q->len, failed, t.values); break;
    case 0x3E: refusal = mvd_is_failed(rule, q->data, q->len, failed, t.values); break;
    default: refusal = mvd_is_failed_v1(rule, q->data, q->len, failed, t.values);
    }
    if (told(refusal, &t, failed, sizeof failed)) whole(failed[0]);
    check(marked(&failed[1], 1), "more than a byte was written");
    end();
}

static void bay_log(struct question *q) {
    struct told t;
    uint8_t buf[MAX_LENT + GUARD];
    size_t room = lent_length(q->b);
    mark(&t, sizeof t);
    lend(buf, room);
    told(mvd_bay_log((uint32_t)q->a, q->data, q->len, buf, room, t.values), &t, NULL, 0);
    check(marked(buf + room, GUARD), "a byte behind the buffer was written");
    end_bytes(buf, room);
}

/* ---- The list */

static const struct {
    uint8_t op;
    void (*ask)(struct question *q);
} OPERATIONS[] = {
    {0x01, read_int16}, {0x02, read_uint16}, {0x03, read_int24}, {0x04, read_uint24}, {0x05, read_int32}, {0x06, read_uint32},
    {0x07, read_figure}, {0x08, read_figure}, {0x09, read_figure},
    {0x11, write_field}, {0x12, write_field}, {0x13, write_field}, {0x14, write_field}, {0x15, write_field}, {0x16, write_field},
    {0x17, write_field}, {0x18, write_field}, {0x3A, write_field},
    {0x20, open_frame}, {0x21, frame_bytes}, {0x24, frame_bytes}, {0x22, split}, {0x23, state}, {0x25, counted_state},
    {0x30, flight_result}, {0x31, flight_result_v1}, {0x32, club_result}, {0x33, spin_result}, {0x34, tracking_status},
    {0x35, speed_profile}, {0x36, prc_data}, {0x37, prc_point}, {0x38, club_prc}, {0x39, club_prc_point}, {0x3B, shot_text},
    {0x3C, has_failed}, {0x3D, has_failed}, {0x3E, has_failed}, {0x3F, has_failed}, {0x40, field}, {0x41, bay_log}
};

static void ask(struct question *q) {
    for (size_t i = 0; i < sizeof OPERATIONS / sizeof OPERATIONS[0]; i++) {
        if (OPERATIONS[i].op == q->op) {
            OPERATIONS[i].ask(q);
            return;
        }
    }
    no_case("there is no such operation");
}

static uint64_t number(const char *hex_digits, size_t many) {
    static const char DIGITS[] = "0123456789abcdef";
    uint64_t n = 0;
    for (size_t i = 0; i < many; i++) {
        const char *digit = hex_digits[i] ? strchr(DIGITS, hex_digits[i]) : NULL;
        if (digit == NULL) no_case("it has another character than 0 to 9 and a to f");
        else n = n << 4 | (uint64_t)(digit - DIGITS);
    }
    return n;
}

/* An operation, two numbers, and bytes. */
static void parse(const char *line, size_t digits, struct question *q) {
    if (digits < HEAD || digits % 2 != 0) no_case("it has no operation and two numbers, or half a byte");
    if (digits > HEAD + 2 * MAX_DATA) no_case("it has more than 4,096 bytes");
    q->op = (uint8_t)number(line, 2);
    q->a = number(line + 2, 16);
    q->b = number(line + 18, 16);
    q->len = (digits - HEAD) / 2;
    for (size_t i = 0; i < q->len; i++) q->data[i] = (uint8_t)number(line + HEAD + 2 * i, 2);
    mark(q->data + q->len, GUARD);
}

int main(void) {
    static char line[HEAD + 2 * MAX_DATA + 3]; /* a digit too many, the line's end, and C's */
    static struct question q;
    check(mvd_value_count(MVD_COUNTER_FULL + 1) == 0 && mvd_value_count(UINT64_MAX) == 0, "a number that is no refusal's has values");
    while (fgets(line, sizeof line, stdin) != NULL) {
        line_number++;
        parse(line, strcspn(line, "\n"), &q);
        ask(&q);
    }
    return ferror(stdin) || fflush(stdout) != 0;
}
