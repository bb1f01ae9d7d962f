/* The program `frames` again, in C and in C++ over the exported library: what it prints is held to the program's own output.
 * Given the word `all` it also copies the payload of each frame that it opened, and prints it behind the frame's line, and the
 * splitter's counts at the end. */
#include <inttypes.h>
#include <stdio.h>
#include <stdlib.h>
#include <string.h>
#include "movaleduft.h"

struct line {
    uint8_t hold[2048];
    struct mvd_splitter splitter;
    unsigned long long number; /* of the next event */
    int shown;                 /* whether payloads and counts are */
};

static void check(int holds, const char *what) {
    if (holds) return;
    fprintf(stderr, "frames.c: %s\n", what);
    exit(1);
}

/* Given room for the length that `mvd_open` told, copying is not refused, and alters nothing behind it.
 * With a byte less it is refused, and alters nothing. */
static void payload(const uint8_t *wire, size_t wire_len, size_t told) {
    uint8_t buf[2048], before[2048];
    uint64_t values[3];
    size_t len = 77;
    memset(before, 0xA5, sizeof before);
    memset(buf, 0xA5, sizeof buf);
    if (told > 0) {
        uint64_t refusal = mvd_copy_payload(wire, wire_len, buf, told - 1, &len, values);
        check(refusal == MVD_NO_ROOM && values[0] == told && values[1] == told - 1, "a byte less than was told is no room");
        check(len == 77 && memcmp(buf, before, sizeof buf) == 0, "a refusal writes nothing");
    }
    uint64_t refusal = mvd_copy_payload(wire, wire_len, buf, sizeof buf, &len, values);
    check(refusal == MVD_OK && len == told, "what was opened is copied, as long as was told");
    check(memcmp(buf + len, before, sizeof buf - len) == 0, "the rest of the buffer keeps its bytes");
    printf("payload");
    for (size_t i = 0; i < len; i++) printf(" %02X", buf[i]);
    printf("\n");
}

static void frame(unsigned long long number, const uint8_t *wire, size_t len, int shown) {
    struct mvd_header header;
    uint64_t values[3];
    uint64_t refusal = mvd_open(wire, len, &header, values);
    if (refusal == MVD_OK) {
        printf("%llu %zu OK %02X %02X %02X %llu\n", number, len, (unsigned)header.dest, (unsigned)header.src,
               (unsigned)header.type_id, (unsigned long long)header.len);
        if (shown) payload(wire, len, (size_t)header.len);
        return;
    }
    printf("%llu %zu NO %llu", number, len, (unsigned long long)refusal);
    for (size_t i = 0; i < mvd_value_count(refusal); i++) printf(" %llu", (unsigned long long)values[i]);
    printf("\n");
}

static void events(struct line *line, const uint8_t *chunk, size_t got) {
    struct mvd_fed fed;
    uint64_t values[3];
    for (size_t at = 0; at < got; at += (size_t)fed.taken) {
        uint64_t refusal = mvd_feed(&line->splitter, line->hold, sizeof line->hold, chunk + at, got - at, &fed, values);
        check(refusal == MVD_OK, "a state that mvd_feed left was refused");
        const uint8_t *lies = fed.in_hold ? line->hold : chunk + at;
        if (fed.event == MVD_FRAME) frame(line->number++, lies + fed.start, (size_t)fed.len, line->shown);
        if (fed.event == MVD_OVERLONG) printf("%llu - LONG\n", line->number++);
    }
}

static void counts(const struct mvd_splitter *s) {
    printf("taken %" PRIu64 "\ndropped %" PRIu64 "\nframed %" PRIu64 "\n", s->taken, s->dropped, s->framed);
    printf("lost %" PRIu64 "\nheld %" PRIu64 "\n", s->lost, s->held);
}

int main(int argc, char **argv) {
    static struct line line; /* all 0 at the start */
    uint8_t chunk[100];
    size_t got;
    line.shown = argc == 2 && strcmp(argv[1], "all") == 0;
    check(argc == 1 || line.shown, "usage: frames [all] < CAPTURE");
    while ((got = fread(chunk, 1, sizeof chunk, stdin)) > 0) events(&line, chunk, got);
    printf("end %" PRIu64 " %" PRIu64 "\n", line.splitter.count, line.splitter.skipping);
    if (line.shown) counts(&line.splitter);
    return 0;
}
