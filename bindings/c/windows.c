/* Checks windows at their edges: texts that aren't one, numbers of more than 64 bits, ranges of decimals of any length, and ranges
 * upside down.
 *
 * usage: windows LAYER   (a layer that is certified)
 *
 * Says what isn't so, and last how many checks passed; the status is 1 where one failed. Texts end at a page that nobody may touch.
 * To be built with the sanitizers too, which see this side alone, and run under valgrind, which sees both. */
#define _DEFAULT_SOURCE
#include "check.h"
#include "files.h"
#include "guard.h"
#include "made.h"
#include <string.h>

static void no_window(void) {
    static const struct {
        const char *text;
        uint32_t answer;
    } texts[] = {
        {"", TWKB_BAD_FORM},
        {"x", TWKB_BAD_FORM},
        {"x=0..1", TWKB_BAD_FORM},
        {"x=0..1,y=0..1,", TWKB_BAD_FORM},
        {"x=0..1,y=0..1,m=0..1,z=0..1", TWKB_BAD_FORM},
        {"x=0..0.12345678,y=0..1", TWKB_BAD_FORM},
        {"x=0..1e3,y=0..1", TWKB_BAD_FORM},
        {"x=1..0,y=0..1", TWKB_BAD_ORDER},
        {"x=1..0,y=0..", TWKB_BAD_FORM},
        {"x=0..1,y=0..1,z=0..-0.0000001", TWKB_BAD_ORDER},
    };
    for (size_t i = 0; i < sizeof texts / sizeof *texts; i++) {
        /* Without the end of a C string. */
        size_t len = strlen(texts[i].text);
        char *text = guarded_copy(texts[i].text, len);
        struct twkb_window window, before;
        memset(&window, 0x5a, sizeof window);
        memcpy(&before, &window, sizeof window);
        CHECK(twkb_window_parse(text, len, &window) == texts[i].answer);
        CHECK(memcmp(&window, &before, sizeof window) == 0);
        free_guarded(text, len);
    }
}

static bool are(struct twkb_units units, uint64_t low, int64_t high) {
    return units.low == low && units.high == high;
}

static void numbers(void) {
    struct twkb_window window = window_of("x=-0.0000001..1.5,y=-0..999999999999999999999999999.9999999,m=-2..3");
    CHECK(are(window.x.lo, UINT64_MAX, -1) && are(window.x.hi, 15000000, 0));
    /* 10^34 - 1 */
    CHECK(are(window.y.lo, 0, 0) && are(window.y.hi, 0x378d8e63ffffffff, 0x1ed09bead87c0));
    CHECK(!window.has_z && window.has_m && are(window.m.lo, (uint64_t)-20000000, -1) && are(window.m.hi, 30000000, 0));
}

/* A point at 10^14 10^14, whose units have more than 64 bits, is inside to the last unit. */
static void large_numbers(void) {
    static const uint8_t point[] = {0xf1, 0x00, 0x80, 0x89, 0x7a, 0x80, 0x89, 0x7a};
    static const struct {
        const char *text;
        size_t hits;
    } windows[] = {
        {"x=100000000000000..100000000000000,y=100000000000000..100000000000000", 1},
        {"x=-100000000000000..100000000000000,y=0..100000000000000.5", 1},
        {"x=100000000000000.0000001..200000000000000,y=0..200000000000000", 0},
        {"x=0..99999999999999.9999999,y=0..200000000000000", 0},
        {"x=0..200000000000000,y=100000000000000.0000001..200000000000000", 0},
        {"x=0..200000000000000,y=0..99999999999999.9999999", 0},
        {"x=0..200000000000000,y=-200000000000000..-100000000000000", 0},
    };
    struct twkb_layer layer = certified(point, sizeof point);
    for (size_t i = 0; i < sizeof windows / sizeof *windows; i++) {
        struct twkb_window window = window_of(windows[i].text);
        CHECK(twkb_scan(&layer, &window, &(struct twkb_hit){0}, 1).hits == windows[i].hits);
    }
}

static uint32_t span_of(const char *lo, const char *hi, struct twkb_span *span) {
    return twkb_span_of_decimals(lo, strlen(lo), hi, strlen(hi), span);
}

/* Ends of any length, each at a page that nobody may touch, are rounded inward. */
static void decimals(void) {
    static const struct {
        const char *lo, *hi;
        uint32_t answer;
        int64_t least, greatest;
    } ranges[] = {
        {"0", "1", TWKB_SPAN, 0, 10000000},
        {"-0.00000019", "0.00000019", TWKB_SPAN, -1, 1},
        {"0.1000000000000000055511151231257827", "0.30000000000000004", TWKB_SPAN, 1000001, 3000000},
        {"0.00000001", "0.00000002", TWKB_SPAN, 1, 0},
        {"0.00000002", "0.00000001", TWKB_BAD_ORDER, 0, 0},
        {"1", "0.99999999999999999999", TWKB_BAD_ORDER, 0, 0},
        {"", "1", TWKB_BAD_FORM, 0, 0},
        {"0", "1e3", TWKB_BAD_FORM, 0, 0},
        {"0,1", "1", TWKB_BAD_FORM, 0, 0},
        {"2", "1x", TWKB_BAD_FORM, 0, 0},
    };
    for (size_t i = 0; i < sizeof ranges / sizeof *ranges; i++) {
        size_t lo_len = strlen(ranges[i].lo), hi_len = strlen(ranges[i].hi);
        char *lo = guarded_copy(ranges[i].lo, lo_len), *hi = guarded_copy(ranges[i].hi, hi_len);
        struct twkb_span span, before;
        memset(&span, 0x5a, sizeof span);
        memcpy(&before, &span, sizeof span);
        CHECK(twkb_span_of_decimals(lo, lo_len, hi, hi_len, &span) == ranges[i].answer);
        if (ranges[i].answer == TWKB_SPAN) {
            CHECK(are(span.lo, (uint64_t)ranges[i].least, ranges[i].least < 0 ? -1 : 0));
            CHECK(are(span.hi, (uint64_t)ranges[i].greatest, ranges[i].greatest < 0 ? -1 : 0));
        } else {
            CHECK(memcmp(&span, &before, sizeof span) == 0);
        }
        free_guarded(lo, lo_len);
        free_guarded(hi, hi_len);
    }
}

/* The farthest vertex is inside ranges that begin or end far beyond it, and outside those that begin beyond it. */
static void far_decimals(void) {
    static const uint8_t point[] = {0xf1, 0x00, 0x80, 0x89, 0x7a, 0x80, 0x89, 0x7a};
    const char *beyond = "10000000000000000000000000000000000000000", *below = "-10000000000000000000000000000000000000000";
    struct twkb_layer layer = certified(point, sizeof point);
    struct twkb_window window = {0};
    struct twkb_hit hit = {0};
    CHECK(span_of(below, beyond, &window.x) == TWKB_SPAN && span_of("100000000000000.000", beyond, &window.y) == TWKB_SPAN);
    CHECK(twkb_scan(&layer, &window, &hit, 1).hits == 1 && hit.bytes == sizeof point);
    CHECK(span_of("100000000000000.00000000000000000001", beyond, &window.y) == TWKB_SPAN);
    CHECK(twkb_scan(&layer, &window, &hit, 1).hits == 0);
    CHECK(span_of(beyond, beyond, &window.y) == TWKB_SPAN);
    CHECK(twkb_scan(&layer, &window, &hit, 1).hits == 0);
}

/* A range upside down, which no text names, holds nothing. */
static void upside_down(const struct twkb_layer *layer) {
    struct twkb_window window = whole_world();
    struct twkb_span x = window.x;
    window.x = (struct twkb_span){x.hi, x.lo};
    CHECK(twkb_scan(layer, &window, &(struct twkb_hit){0}, 1).hits == 0);
}

int main(int argc, char **argv) {
    size_t len;
    uint8_t *bytes = argc > 1 ? read_file(argv[1], &len) : NULL;
    if (!bytes) {
        fprintf(stderr, "usage: windows LAYER\n");
        return 1;
    }
    no_window();
    numbers();
    large_numbers();
    decimals();
    far_decimals();
    struct twkb_layer layer = certified(bytes, len);
    upside_down(&layer);
    free(bytes);
    return ended("windows");
}
