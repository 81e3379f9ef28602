/* Checks scans for many windows in one call: each window gets what a call for it alone gives, in rooms of each size.
 *
 * usage: many LAYER   (a layer that is certified)
 *
 * Says what isn't so, and last how many checks passed; the status is 1 where one failed. The windows and the rooms end at a page
 * that nobody may touch. To be built with the sanitizers too, which see this side alone, and run under valgrind, which sees
 * both. */
#define _DEFAULT_SOURCE
#include "files.h"
#include "guard.h"
#include "made.h"

enum { MANY = 6 };

static const char *const TEXTS[MANY] = {"x=0..20,y=0..60",  "x=200..300,y=0..1",           "x=-1000..1000,y=-1000..1000",
                                        "x=0..0.5,y=0..60", "x=-80..-60,y=-60..0,z=0..9", "x=0..20,y=0..60"};

/* A layer with a directory, the windows, and what a call for each of them alone gives: its result, and its hits, after the
 * hits of the windows before. */
struct wanted {
    struct twkb_layer layer;
    struct twkb_slot *slots;
    size_t count;
    struct twkb_window *windows;
    struct twkb_scanned scanned[MANY];
    struct twkb_hit *hits;
    size_t all;
};

static struct wanted one_by_one(struct twkb_layer layer) {
    struct wanted wanted = {.layer = layer, .windows = guarded(MANY * sizeof *wanted.windows)};
    wanted.slots = malloc((TWKB_MOST_SLOTS * layer.blobs + 1) * sizeof *wanted.slots);
    wanted.hits = malloc((MANY * layer.blobs + 1) * sizeof *wanted.hits);
    if (!wanted.slots || !wanted.hits) abort();
    wanted.count = twkb_directory_build(&layer, wanted.slots, TWKB_MOST_SLOTS * layer.blobs);
    for (size_t i = 0; i < MANY; i++) {
        wanted.windows[i] = window_of(TEXTS[i]);
        wanted.scanned[i] = twkb_directory_scan(&layer, wanted.slots, wanted.count, &wanted.windows[i], wanted.hits + wanted.all,
                                                layer.blobs);
        wanted.all += wanted.scanned[i].hits;
    }
    return wanted;
}

static void let_go(struct wanted *wanted) {
    free_guarded(wanted->windows, MANY * sizeof *wanted->windows);
    free(wanted->slots);
    free(wanted->hits);
}

/* The results of the first `said` windows are there, and the rest is as it was. */
static bool are_told(const struct wanted *wanted, const struct twkb_scanned *scanned, size_t said, size_t results) {
    bool same = true;
    for (size_t i = 0; i < said; i++) {
        same = same && scanned[i].hits == wanted->scanned[i].hits && scanned[i].bytes_read == wanted->scanned[i].bytes_read;
    }
    return same && still(scanned + said, (results - said) * sizeof *scanned);
}

/* One call answers the windows before the first whose hits don't fit. It writes what fits of that one too, and nothing else. */
static void at_once(const struct wanted *wanted, size_t many, size_t results, size_t room) {
    struct twkb_scanned *scanned = guarded(results * sizeof *scanned);
    struct twkb_hit *hits = guarded(room * sizeof *hits);
    size_t answered = twkb_directory_scan_many(&wanted->layer, wanted->slots, wanted->count, wanted->windows + MANY - many, many,
                                               scanned, results, hits, room);
    size_t first = MANY - many, begin = 0, fit = 0, end = 0;
    for (size_t i = 0; i < first; i++) begin += wanted->scanned[i].hits;
    while (fit < many && end + wanted->scanned[first + fit].hits <= room) end += wanted->scanned[first + fit++].hits;
    CHECK(answered == fit);
    size_t said = fit < many ? fit + 1 : fit, written = fit < many ? room : end;
    struct wanted rest = *wanted;
    memmove(rest.scanned, rest.scanned + first, many * sizeof *rest.scanned);
    CHECK(are_told(&rest, scanned, said < results ? said : results, results));
    CHECK(memcmp(hits, wanted->hits + begin, written * sizeof *hits) == 0);
    CHECK(still(hits + written, (room - written) * sizeof *hits));
    free_guarded(hits, room * sizeof *hits);
    free_guarded(scanned, results * sizeof *scanned);
}

static void rooms(const struct wanted *wanted) {
    size_t first = wanted->scanned[0].hits, blobs = wanted->layer.blobs;
    size_t rooms[] = {0, 1, first, first + 1, blobs, wanted->all - (wanted->all > 0), wanted->all, wanted->all + 3};
    for (size_t i = 0; i < sizeof rooms / sizeof *rooms; i++) {
        for (size_t results = 0; results <= MANY + 1; results++) at_once(wanted, MANY, results, rooms[i]);
        for (size_t many = 0; many < MANY; many++) at_once(wanted, many, many, rooms[i]);
    }
}

/* The loop of twkb.h, which goes on from the window that is left, gets every hit. */
static void on_and_on(const struct wanted *wanted, size_t room) {
    struct twkb_scanned scanned[MANY];
    struct twkb_hit *hits = guarded(room * sizeof *hits);
    size_t done = 0, seen = 0;
    bool same = true;
    while (done < MANY && same) {
        size_t left = MANY - done;
        size_t answered = twkb_directory_scan_many(&wanted->layer, wanted->slots, wanted->count, wanted->windows + done, left,
                                                   scanned, left, hits, room);
        size_t end = 0;
        for (size_t i = 0; i < answered; i++) end += scanned[i].hits;
        same = answered > 0 && end <= room && memcmp(hits, wanted->hits + seen, end * sizeof *hits) == 0;
        done += answered;
        seen += end;
    }
    CHECK(same && done == MANY && seen == wanted->all);
    free_guarded(hits, room * sizeof *hits);
}

static void check_layer(const uint8_t *bytes, size_t len) {
    struct wanted wanted = one_by_one(certified(bytes, len));
    rooms(&wanted);
    on_and_on(&wanted, wanted.layer.blobs);
    on_and_on(&wanted, wanted.all);
    let_go(&wanted);
}

int main(int argc, char **argv) {
    size_t len;
    uint8_t *bytes = argc > 1 ? read_file(argv[1], &len) : NULL;
    if (!bytes) {
        fprintf(stderr, "usage: many LAYER\n");
        return 1;
    }
    check_layer(bytes, len);
    check_layer(bytes, 0);
    free(bytes);
    return ended("many");
}
