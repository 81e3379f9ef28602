/* Says of many layers, one after another, what the library answers: for tests/fuzz.py, which makes the layers.
 *
 * Standard input has for each layer its length, its bytes, the room for hits, how many windows there are, and for each of these
 * the window, the length of its text and the text. Numbers are of 32 bits. Standard output has for each layer the program's
 * text, then what reading each window's text answers, and a line `end`. Bytes, texts and rooms end at a page that nobody may
 * touch, so an access past them ends the run; the sanitizers see this side. */
#define _DEFAULT_SOURCE
#include "guard.h"
#include "twkb.h"
#include <inttypes.h>
#include <stdio.h>

enum { WINDOWS = 8 };

static struct twkb_window windows[WINDOWS];

/* Reads `size` bytes. Returns whether they were there. */
static bool taken(void *into, size_t size) {
    return size == 0 || fread(into, size, 1, stdin) == 1;
}

static void print_verdict(struct twkb_verdict verdict) {
    if (verdict.answer == TWKB_REFUSED) {
        printf("no blob=%zu offset=%zu kind=%s\n", verdict.blob, verdict.offset, twkb_kind_name(verdict.kind).text);
    } else if (verdict.answer == TWKB_CERTIFIED) {
        printf("ok blobs=%zu vertices=%zu\n", verdict.blobs, verdict.vertices);
    } else {
        printf("no memory\n");
    }
}

static const char *yes_no(bool is) {
    return is ? "yes" : "no";
}

static void print_rows(const struct twkb_layer *layer) {
    size_t size = layer->blobs * sizeof(struct twkb_row);
    struct twkb_row *rows = guarded(size);
    size_t count = twkb_list(layer, rows, layer->blobs);
    for (size_t i = 0; i < count; i++) {
        printf("blob=%zu offset=%zu bytes=%zu type=%s ", rows[i].blob, rows[i].offset, rows[i].bytes,
               twkb_type_name(rows[i].type).text);
        printf("precision=%d vertices=%zu ", rows[i].precision, rows[i].vertices);
        printf("size=%s box=%s\n", yes_no(rows[i].has_size), yes_no(rows[i].has_box));
    }
    free_guarded(rows, size);
}

/* The hits that found room. */
static void print_scan(const struct twkb_layer *layer, struct twkb_scanned scanned, const struct twkb_hit *hits, size_t room) {
    for (size_t i = 0; i < scanned.hits && i < room; i++) printf("hit blob=%zu offset=%zu\n", hits[i].blob, hits[i].offset);
    printf("hits=%zu read=%" PRIu64 " of=%zu\n", scanned.hits, scanned.bytes_read, layer->len);
}

/* Names each window to which one call for all of them gives something else than a call for it alone. */
static void try_many(const struct twkb_layer *layer, const struct twkb_slot *slots, size_t made, uint32_t count, size_t room) {
    struct twkb_scanned *scanned = guarded(count * sizeof *scanned);
    struct twkb_hit *hits = guarded(room * sizeof *hits), *alone = guarded(room * sizeof *alone);
    size_t answered = twkb_directory_scan_many(layer, slots, made, windows, count, scanned, count, hits, room), start = 0;
    if (answered > count) printf("%zu windows\n", answered);
    for (uint32_t i = 0; i < count && i <= answered; i++) {
        size_t left = room - start;
        struct twkb_scanned one = twkb_directory_scan(layer, slots, made, &windows[i], alone, left);
        size_t fit = one.hits < left ? one.hits : left;
        bool same = one.hits == scanned[i].hits && one.bytes_read == scanned[i].bytes_read &&
                    memcmp(hits + start, alone, fit * sizeof *hits) == 0 && (one.hits > left) == (i == answered);
        if (!same) printf("other hits in window %" PRIu32 "\n", i);
        start += fit;
    }
    free_guarded(alone, room * sizeof *alone);
    free_guarded(hits, room * sizeof *hits);
    free_guarded(scanned, count * sizeof *scanned);
}

/* Each window, by a scan of the layer and by one of a directory. */
static void print_scans(const struct twkb_layer *layer, uint32_t count, size_t room) {
    size_t most = TWKB_MOST_SLOTS * layer->blobs, size = most * sizeof(struct twkb_slot), place = room * sizeof(struct twkb_hit);
    struct twkb_slot *slots = guarded(size);
    size_t made = twkb_directory_build(layer, slots, most);
    if (made > most) printf("%zu slots\n", made);
    for (uint32_t i = 0; i < count; i++) {
        struct twkb_hit *hits = guarded(place);
        print_scan(layer, twkb_scan(layer, &windows[i], hits, room), hits, room);
        print_scan(layer, twkb_directory_scan(layer, slots, made, &windows[i], hits, room), hits, room);
        free_guarded(hits, place);
    }
    try_many(layer, slots, made, count, room);
    free_guarded(slots, size);
}

static void answer(const uint8_t *bytes, size_t len, uint32_t count, size_t room) {
    struct twkb_verdict verdict = twkb_certify(bytes, len);
    print_verdict(verdict);
    print_verdict(twkb_certify_tight(bytes, len));
    if (verdict.answer != TWKB_CERTIFIED) return;
    struct twkb_layer layer = {bytes, len, verdict.blobs, verdict.vertices};
    print_rows(&layer);
    print_scans(&layer, count, room);
}

static bool same_span(const struct twkb_span *one, const struct twkb_span *other) {
    return one->lo.low == other->lo.low && one->lo.high == other->lo.high && one->hi.low == other->hi.low &&
           one->hi.high == other->hi.high;
}

static bool same(const struct twkb_window *one, const struct twkb_window *other) {
    return same_span(&one->x, &other->x) && same_span(&one->y, &other->y) && one->has_z == other->has_z &&
           one->has_m == other->has_m && (!one->has_z || same_span(&one->z, &other->z)) &&
           (!one->has_m || same_span(&one->m, &other->m));
}

/* Reads a window and its text, and says what reading the text answers, and whether it is the window. */
static bool take_window(struct twkb_window *window, char *said, size_t size) {
    uint32_t len;
    if (!taken(window, sizeof *window) || !taken(&len, sizeof len)) return false;
    char *text = guarded(len);
    if (!taken(text, len)) return false;
    struct twkb_window read = {0};
    uint32_t answered = twkb_window_parse(text, len, &read);
    snprintf(said, size, "%" PRIu32 " %s\n", answered, same(&read, window) ? "same" : "other");
    free_guarded(text, len);
    return true;
}

int main(void) {
    uint32_t len, room, count;
    while (taken(&len, sizeof len)) {
        uint8_t *bytes = guarded(len);
        if (!taken(bytes, len) || !taken(&room, sizeof room) || !taken(&count, sizeof count) || count > WINDOWS) return 2;
        char said[WINDOWS * 32] = "";
        for (uint32_t i = 0; i < count; i++) {
            size_t told = strlen(said);
            if (!take_window(&windows[i], said + told, sizeof said - told)) return 2;
        }
        answer(bytes, len, count, room);
        printf("%send\n", said);
        fflush(stdout);
        free_guarded(bytes, len);
    }
    return 0;
}
