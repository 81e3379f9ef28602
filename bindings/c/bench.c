/* Times certifying and listing a layer, scanning it for a thousand windows, with a directory (in one call, and in a call for
 * each) and without, and calls on a layer of seven bytes.
 *
 * usage: bench FILE
 *
 * The windows are tiles of the world, nine degrees wide and seven high. bindings/rust/examples/bench.rs times the same,
 * and prints the same sums. */
#include "files.h"
#include "twkb.h"
#include <inttypes.h>
#include <string.h>
#include <time.h>

enum { WINDOWS = 1000, CALLS = 1000000 };

static double nanoseconds(void) {
    struct timespec now;
    timespec_get(&now, TIME_UTC);
    return (double)now.tv_sec * 1e9 + (double)now.tv_nsec;
}

static double milliseconds_since(double start) {
    return (nanoseconds() - start) / 1e6;
}

/* One of a thousand tiles: forty columns and 25 rows. */
static struct twkb_window tile(int number) {
    struct twkb_window window;
    char text[64];
    int x = 9 * (number % 40) - 180, y = 7 * (number / 40) - 90;
    int len = snprintf(text, sizeof text, "x=%d..%d,y=%d..%d", x, x + 9, y, y + 7);
    if (twkb_window_parse(text, (size_t)len, &window) != TWKB_WINDOW) abort();
    return window;
}

static void *room_for(size_t count, size_t size) {
    void *room = calloc(count + 1, size);
    if (!room) abort();
    return room;
}

static void time_list(const struct twkb_layer *layer) {
    double start = nanoseconds();
    struct twkb_row *rows = room_for(layer->blobs, sizeof *rows);
    size_t count = twkb_list(layer, rows, layer->blobs);
    printf("list: %.1f ms, %zu rows\n", milliseconds_since(start), count);
    free(rows);
}

static void print_scans(const char *title, double start, size_t hits, uint64_t bytes_read) {
    printf("%s, %d windows into a room: %.1f ms, ", title, WINDOWS, milliseconds_since(start));
    printf("%zu hits, %" PRIu64 " bytes read\n", hits, bytes_read);
}

/* A thousand scans, with the slots of a directory where there are some. */
static void time_scans(const char *title, const struct twkb_layer *layer, const struct twkb_slot *slots, size_t count) {
    struct twkb_window windows[WINDOWS];
    for (int i = 0; i < WINDOWS; i++) windows[i] = tile(i);
    double start = nanoseconds();
    struct twkb_hit *room = room_for(layer->blobs, sizeof *room);
    size_t hits = 0;
    uint64_t bytes_read = 0;
    for (int i = 0; i < WINDOWS; i++) {
        struct twkb_scanned scanned =
            slots ? twkb_directory_scan(layer, slots, count, &windows[i], room, layer->blobs)
                  : twkb_scan(layer, &windows[i], room, layer->blobs);
        hits += scanned.hits;
        bytes_read += scanned.bytes_read;
    }
    print_scans(title, start, hits, bytes_read);
    free(room);
}

/* All windows at once, and again from the first whose hits don't fit. */
static void time_many(const struct twkb_layer *layer, const struct twkb_slot *slots, size_t count) {
    struct twkb_window windows[WINDOWS];
    struct twkb_scanned scanned[WINDOWS];
    for (int i = 0; i < WINDOWS; i++) windows[i] = tile(i);
    double start = nanoseconds();
    size_t room = 2 * layer->blobs, hits = 0, done = 0;
    struct twkb_hit *places = room_for(room, sizeof *places);
    uint64_t bytes_read = 0;
    while (done < WINDOWS) {
        done += twkb_directory_scan_many(layer, slots, count, windows + done, WINDOWS - done, scanned + done, WINDOWS - done,
                                         places, room);
    }
    for (int i = 0; i < WINDOWS; i++) {
        hits += scanned[i].hits;
        bytes_read += scanned[i].bytes_read;
    }
    print_scans("directory scan", start, hits, bytes_read);
    free(places);
}

static void time_directory(const struct twkb_layer *layer) {
    double start = nanoseconds();
    size_t most = TWKB_MOST_SLOTS * layer->blobs;
    struct twkb_slot *slots = room_for(most, sizeof *slots);
    size_t count = twkb_directory_build(layer, slots, most);
    printf("directory: %.1f ms, %zu slots\n", milliseconds_since(start), count);
    time_many(layer, slots, count);
    time_scans("directory scan one by one", layer, slots, count);
    free(slots);
}

static void time_calls(void) {
    /* A line from 1 1 to 5 5. */
    static const uint8_t line[7] = {2, 0, 2, 2, 2, 8, 8};
    double start = nanoseconds();
    size_t vertices = 0;
    for (int i = 0; i < CALLS; i++) vertices += twkb_certify(line, sizeof line).vertices;
    printf("certify, a call on seven bytes: %.1f ns, %zu vertices\n", (nanoseconds() - start) / CALLS, vertices);

    const struct twkb_layer layer = {line, sizeof line, 1, 2};
    const char *text = "x=0..1,y=0..1";
    struct twkb_window window;
    if (twkb_window_parse(text, strlen(text), &window) != TWKB_WINDOW) abort();
    start = nanoseconds();
    size_t hits = 0;
    for (int i = 0; i < CALLS; i++) hits += twkb_scan(&layer, &window, &(struct twkb_hit){0}, 1).hits;
    printf("scan, a call on seven bytes: %.1f ns, %zu hits\n", (nanoseconds() - start) / CALLS, hits);
}

int main(int argc, char **argv) {
    size_t len;
    uint8_t *bytes = argc == 2 ? read_file(argv[1], &len) : NULL;
    if (!bytes) {
        fprintf(stderr, "usage: bench FILE\n");
        return 2;
    }
    double start = nanoseconds();
    struct twkb_verdict verdict = twkb_certify(bytes, len);
    double took = milliseconds_since(start);
    if (verdict.answer != TWKB_CERTIFIED) {
        fprintf(stderr, "bench: the layer isn't certified\n");
        return 1;
    }
    printf("certify: %.1f ms, %zu blobs, %zu vertices\n", took, verdict.blobs, verdict.vertices);
    const struct twkb_layer layer = {bytes, len, verdict.blobs, verdict.vertices};
    time_list(&layer);
    time_scans("scan", &layer, NULL, 0);
    time_directory(&layer);
    time_calls();
    free(bytes);
    return 0;
}
