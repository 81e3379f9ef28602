/* Checks the library's calls at their edges: no bytes, no room and too little, directories, all fronts and many changes of a layer,
 * deep collections on a small stack, and many threads at once over one layer. `windows.c` checks windows.
 *
 * usage: edges LAYER [KIB]   (a layer that is certified; how large the small stack is, 192 where it is left out)
 *
 * Says what isn't so, and last how many checks passed; the status is 1 where one failed. Bytes, texts and rooms end at
 * a page that nobody may touch. To be built with the sanitizers too, which see this side alone, and run under valgrind,
 * which sees both. */
#define _DEFAULT_SOURCE
#include "check.h"
#include "files.h"
#include "guard.h"
#include "made.h"
#include <pthread.h>
#include <string.h>

enum { THREADS = 16, ROUNDS = 20, LONGEST = 2000, CHANGED = 48 };

/* ---- nothing */

static void directory(const struct twkb_layer *layer);

static void no_bytes(void) {
    uint8_t *bytes = guarded(0);
    struct twkb_verdict verdict = twkb_certify(bytes, 0), tight = twkb_certify_tight(bytes, 0);
    CHECK(verdict.answer == TWKB_CERTIFIED && verdict.blobs == 0 && verdict.vertices == 0);
    CHECK(verdict.kind == 0 && verdict.blob == 0 && verdict.offset == 0);
    CHECK(tight.answer == TWKB_CERTIFIED && tight.blobs == 0 && tight.vertices == 0);
    struct twkb_layer layer = certified(bytes, 0);
    struct twkb_window window = whole_world();
    struct twkb_row row = {.blob = 7};
    struct twkb_hit hit = {.blob = 7};
    CHECK(twkb_list(&layer, &row, 0) == 0 && twkb_list(&layer, &row, 1) == 0 && row.blob == 7);
    CHECK(twkb_scan(&layer, &window, &hit, 0).hits == 0);
    struct twkb_scanned scanned = twkb_scan(&layer, &window, &hit, 1);
    CHECK(scanned.hits == 0 && scanned.bytes_read == 0 && hit.blob == 7);
    directory(&layer);
    free_guarded(bytes, 0);
}

/* ---- names */

static void names(void) {
    static const char *const kinds[] = {"", "cut", "varint", "type", "depth", "range", "size", "box", "ids", "loose", ""};
    static const char *const types[] = {"", "point", "linestring", "polygon", "multipoint", "multilinestring", "multipolygon",
                                        "geometrycollection", ""};
    static const char *const answers[] = {"certified", "refused", "no memory", ""};
    for (uint32_t i = 0; i < sizeof kinds / sizeof *kinds; i++) CHECK(strcmp(twkb_kind_name(i).text, kinds[i]) == 0);
    for (uint32_t i = 0; i < sizeof types / sizeof *types; i++) CHECK(strcmp(twkb_type_name(i).text, types[i]) == 0);
    for (uint32_t i = 0; i < sizeof answers / sizeof *answers; i++) CHECK(strcmp(twkb_answer_name(i).text, answers[i]) == 0);
    CHECK(*twkb_kind_name(UINT32_MAX).text == 0 && *twkb_type_name(UINT32_MAX).text == 0 && *twkb_answer_name(UINT32_MAX).text == 0);
}

/* ---- rooms */

/* A room is filled with as many rows or hits as fit, and the rest of it stays as it was. */
static void list_rooms(const struct twkb_layer *layer, const struct twkb_row *all, size_t room) {
    struct twkb_row *rows = guarded(room * sizeof *rows);
    CHECK(twkb_list(layer, rows, room) == layer->blobs);
    size_t fit = room < layer->blobs ? room : layer->blobs;
    bool same = true;
    for (size_t i = 0; i < fit; i++) same = same && rows[i].blob == i && rows[i].bytes == all[i].bytes;
    CHECK(same && still(rows + fit, (room - fit) * sizeof *rows));
    free_guarded(rows, room * sizeof *rows);
}

static void scan_rooms(const struct twkb_layer *layer, const struct twkb_window *window, const struct twkb_hit *all,
                       struct twkb_scanned wanted, size_t room) {
    struct twkb_hit *hits = guarded(room * sizeof *hits);
    struct twkb_scanned scanned = twkb_scan(layer, window, hits, room);
    CHECK(scanned.hits == wanted.hits && scanned.bytes_read == wanted.bytes_read);
    size_t fit = room < wanted.hits ? room : wanted.hits;
    CHECK(memcmp(hits, all, fit * sizeof *hits) == 0);
    CHECK(still(hits + fit, (room - fit) * sizeof *hits));
    free_guarded(hits, room * sizeof *hits);
}

/* The rows follow one another to the end of the layer, and have its vertices. */
static void rows_add_up(const struct twkb_layer *layer, const struct twkb_row *rows) {
    size_t offset = 0, vertices = 0;
    bool in_order = true;
    for (size_t i = 0; i < layer->blobs; i++) {
        in_order = in_order && rows[i].blob == i && rows[i].offset == offset && rows[i].type >= 1 && rows[i].type <= 7;
        offset += rows[i].bytes;
        vertices += rows[i].vertices;
    }
    CHECK(in_order && offset == layer->len && vertices == layer->vertices);
}

/* A hit has the offset and the length of its blob's row. */
static void hits_are_rows(const struct twkb_hit *hits, size_t count, const struct twkb_row *rows) {
    bool same = true;
    for (size_t i = 0; i < count; i++) {
        const struct twkb_row *row = &rows[hits[i].blob];
        same = same && hits[i].offset == row->offset && hits[i].bytes == row->bytes;
    }
    CHECK(same);
}

static void rooms(const struct twkb_layer *layer) {
    struct twkb_window window = whole_world();
    struct twkb_row *rows = malloc((layer->blobs + 1) * sizeof *rows);
    struct twkb_hit *hits = malloc((layer->blobs + 1) * sizeof *hits);
    CHECK(twkb_list(layer, rows, layer->blobs) == layer->blobs);
    rows_add_up(layer, rows);
    struct twkb_scanned scanned = twkb_scan(layer, &window, hits, layer->blobs);
    CHECK(scanned.hits <= layer->blobs && scanned.bytes_read <= layer->len);
    hits_are_rows(hits, scanned.hits, rows);
    size_t sizes[] = {0, 1, 2, layer->blobs / 2, layer->blobs - 1, layer->blobs, layer->blobs + 3};
    for (size_t i = 0; layer->blobs > 0 && i < sizeof sizes / sizeof *sizes; i++) {
        list_rooms(layer, rows, sizes[i]);
        scan_rooms(layer, &window, hits, scanned, sizes[i]);
    }
    free(rows);
    free(hits);
}

/* ---- directories */

/* Into too little room nothing is written. */
static void too_few_slots(const struct twkb_layer *layer, size_t room) {
    struct twkb_slot *slots = guarded(room * sizeof *slots);
    CHECK(twkb_directory_build(layer, slots, room) == TWKB_MOST_SLOTS * layer->blobs);
    CHECK(still(slots, room * sizeof *slots));
    free_guarded(slots, room * sizeof *slots);
}

/* The hits of a scan without a directory, and no more bytes read, in a room of any size. */
static void slots_scan(const struct twkb_layer *layer, const struct twkb_slot *slots, size_t count,
                       const struct twkb_window *window, size_t room) {
    struct twkb_hit *all = malloc((layer->blobs + 1) * sizeof *all), *hits = guarded(room * sizeof *hits);
    struct twkb_scanned wanted = twkb_scan(layer, window, all, layer->blobs);
    struct twkb_scanned scanned = twkb_directory_scan(layer, slots, count, window, hits, room);
    CHECK(scanned.hits == wanted.hits && scanned.bytes_read <= wanted.bytes_read);
    size_t fit = room < wanted.hits ? room : wanted.hits;
    CHECK(memcmp(hits, all, fit * sizeof *hits) == 0);
    CHECK(still(hits + fit, (room - fit) * sizeof *hits));
    free_guarded(hits, room * sizeof *hits);
    free(all);
}

static void slots_windows(const struct twkb_layer *layer, const struct twkb_slot *slots, size_t count) {
    struct twkb_window windows[4] = {whole_world(), window_of("x=0..20,y=0..60"),
                                     window_of("x=-80..-60,y=-60..0,z=0..9"), whole_world()};
    windows[3].x = (struct twkb_span){windows[0].x.hi, windows[0].x.lo};
    size_t rooms[] = {0, 1, layer->blobs / 2, layer->blobs, layer->blobs + 3};
    for (size_t i = 0; i < 4 * sizeof rooms / sizeof *rooms; i++) {
        slots_scan(layer, slots, count, &windows[i % 4], rooms[i / 4]);
    }
}

static void directory(const struct twkb_layer *layer) {
    size_t room = TWKB_MOST_SLOTS * layer->blobs;
    size_t small[] = {0, 1, layer->blobs, room - 1};
    for (size_t i = 0; i < sizeof small / sizeof *small; i++) {
        if (small[i] < room) too_few_slots(layer, small[i]);
    }
    struct twkb_slot *slots = guarded(room * sizeof *slots);
    size_t count = twkb_directory_build(layer, slots, room);
    CHECK(layer->blobs <= count && count <= room);
    CHECK(still(slots + count, (room - count) * sizeof *slots));
    slots_windows(layer, slots, count);
    free_guarded(slots, room * sizeof *slots);
}

/* Each of some equal points takes this many slots. */
static void takes(size_t each, const uint8_t *point, size_t len) {
    uint8_t points[20 * 16];
    struct twkb_slot slots[20 * TWKB_MOST_SLOTS];
    for (size_t blobs = 1; blobs <= 20; blobs++) {
        memcpy(points + (blobs - 1) * len, point, len);
        struct twkb_layer layer = certified(points, blobs * len);
        CHECK(twkb_directory_build(&layer, slots, TWKB_MOST_SLOTS * blobs) == each * blobs);
    }
}

static void slots_taken(void) {
    static const uint8_t bare[] = {1, 0, 2, 2}, boxed[] = {1, 1, 2, 0, 2, 0, 2, 2};
    static const uint8_t high[] = {1, 9, 1, 2, 0, 2, 0, 2, 0, 2, 2, 2};
    static const uint8_t far[] = {1, 1, 128, 128, 128, 128, 32, 0, 2, 0, 128, 128, 128, 128, 32, 2};
    takes(1, bare, sizeof bare);
    takes(1, boxed, sizeof boxed);
    takes(TWKB_MOST_SLOTS, high, sizeof high);
    takes(TWKB_MOST_SLOTS, far, sizeof far);
}

/* ---- fronts and changes */

/* A verdict has nothing but what its answer speaks of, and a scan of what is certified reads no more than there is. */
static void judge(const uint8_t *bytes, size_t len) {
    struct twkb_verdict verdict = twkb_certify(bytes, len), tight = twkb_certify_tight(bytes, len);
    if (verdict.answer == TWKB_REFUSED) {
        CHECK(verdict.kind >= TWKB_CUT && verdict.kind <= TWKB_IDS && verdict.offset <= len && verdict.blob <= len);
        CHECK(verdict.blobs == 0 && verdict.vertices == 0 && tight.answer == TWKB_REFUSED);
        return;
    }
    CHECK(verdict.answer == TWKB_CERTIFIED && verdict.kind == 0 && verdict.blob == 0 && verdict.offset == 0);
    CHECK(tight.answer == TWKB_CERTIFIED || tight.kind == TWKB_LOOSE);
    struct twkb_layer layer = {bytes, len, verdict.blobs, verdict.vertices};
    struct twkb_window window = whole_world();
    CHECK(twkb_scan(&layer, &window, &(struct twkb_hit){0}, 1).bytes_read <= len);
    CHECK(twkb_list(&layer, &(struct twkb_row){.blob = 0}, 1) == layer.blobs);
}

/* Each byte of a short front, set to each value. */
static void change(uint8_t *bytes, size_t len) {
    for (size_t i = 0; i < len; i++) {
        uint8_t old = bytes[i];
        for (int value = 0; value < 256; value++) {
            bytes[i] = (uint8_t)value;
            judge(bytes, len);
        }
        bytes[i] = old;
    }
}

static void fronts(const struct twkb_layer *layer) {
    for (size_t len = 0; len <= layer->len && len <= LONGEST; len++) {
        uint8_t *front = guarded_copy(layer->bytes, len);
        judge(front, len);
        if (len <= CHANGED) change(front, len);
        free_guarded(front, len);
    }
}

/* ---- deep collections */

/* Nested collections, and in the deepest a point, or two whose ids fall, which take longer. Returns how long they are. */
static size_t nest(uint8_t *bytes, int collections, bool falling) {
    static const uint8_t point[] = {1, 0, 2, 4}, points[] = {4, 4, 2, 4, 2, 2, 4, 0, 0};
    for (int i = 0; i < collections; i++) memcpy(bytes + 3 * i, "\x07\x00\x01", 3);
    size_t front = 3 * (size_t)collections, size = falling ? sizeof points : sizeof point;
    memcpy(bytes + front, falling ? points : point, size);
    return front + size;
}

static void *deep(void *nothing) {
    static const struct {
        int collections;
        uint32_t answer;
    } depths[] = {{31, TWKB_CERTIFIED}, {63, TWKB_CERTIFIED}, {64, TWKB_REFUSED}};
    uint8_t bytes[256];
    struct twkb_window window = whole_world();
    for (int i = 0; i < 6; i++) {
        size_t len = nest(bytes, depths[i / 2].collections, i % 2);
        struct twkb_verdict verdict = twkb_certify(bytes, len), tight = twkb_certify_tight(bytes, len);
        CHECK(verdict.answer == depths[i / 2].answer && tight.answer == verdict.answer);
        CHECK(verdict.answer == TWKB_CERTIFIED || (verdict.kind == TWKB_DEPTH && tight.kind == TWKB_DEPTH));
        if (verdict.answer != TWKB_CERTIFIED) continue;
        struct twkb_layer layer = {bytes, len, verdict.blobs, verdict.vertices};
        struct twkb_hit hit;
        struct twkb_row row;
        CHECK(twkb_scan(&layer, &window, &hit, 1).hits == 1 && hit.blob == 0 && hit.offset == 0);
        CHECK(twkb_list(&layer, &row, 1) == 1 && row.type == 7 && row.vertices == (i % 2 ? 2u : 1u));
    }
    return nothing;
}

static void small_stack(size_t kib) {
    pthread_attr_t attributes;
    pthread_t thread;
    pthread_attr_init(&attributes);
    CHECK(pthread_attr_setstacksize(&attributes, kib * 1024) == 0);
    bool begun = pthread_create(&thread, &attributes, deep, NULL) == 0;
    CHECK(begun);
    if (begun) pthread_join(thread, NULL);
    pthread_attr_destroy(&attributes);
}

/* ---- threads */

struct shared {
    const struct twkb_layer *layer;
    struct twkb_window windows[3];
    struct twkb_scanned wanted[3];
};

/* A thread certifies, lists and scans the same layer as the others do, into memory of its own. */
static void *use(void *argument) {
    const struct shared *shared = argument;
    const struct twkb_layer *layer = shared->layer;
    struct twkb_hit *hits = malloc((layer->blobs + 1) * sizeof *hits);
    struct twkb_row *rows = malloc((layer->blobs + 1) * sizeof *rows);
    for (int i = 0; i < ROUNDS; i++) {
        struct twkb_verdict verdict = twkb_certify(layer->bytes, layer->len);
        CHECK(verdict.answer == TWKB_CERTIFIED && verdict.blobs == layer->blobs && verdict.vertices == layer->vertices);
        struct twkb_scanned scanned = twkb_scan(layer, &shared->windows[i % 3], hits, layer->blobs);
        CHECK(scanned.hits == shared->wanted[i % 3].hits && scanned.bytes_read == shared->wanted[i % 3].bytes_read);
        CHECK(twkb_list(layer, rows, layer->blobs) == layer->blobs);
        rows_add_up(layer, rows);
    }
    free(hits);
    free(rows);
    return NULL;
}

static void threads(const struct twkb_layer *layer) {
    struct shared shared = {.layer = layer};
    shared.windows[0] = whole_world();
    shared.windows[1] = window_of("x=0..20,y=0..60");
    shared.windows[2] = window_of("x=-80..-60,y=-60..0,z=0..9");
    for (int i = 0; i < 3; i++) shared.wanted[i] = twkb_scan(layer, &shared.windows[i], &(struct twkb_hit){0}, 0);
    pthread_t all[THREADS];
    int begun = 0;
    while (begun < THREADS && pthread_create(&all[begun], NULL, use, &shared) == 0) begun++;
    CHECK(begun == THREADS);
    for (int i = 0; i < begun; i++) pthread_join(all[i], NULL);
}

int main(int argc, char **argv) {
    size_t len;
    uint8_t *bytes = argc > 1 ? read_file(argv[1], &len) : NULL;
    if (!bytes) {
        fprintf(stderr, "usage: edges LAYER [KIB]\n");
        return 1;
    }
    no_bytes();
    names();
    struct twkb_layer layer = certified(bytes, len);
    rooms(&layer);
    directory(&layer);
    slots_taken();
    fronts(&layer);
    small_stack(argc > 2 ? (size_t)atoi(argv[2]) : 192);
    threads(&layer);
    free(bytes);
    return ended("edges");
}
