/* Takes the words of the program twkb_tool, and prints what it prints on standard output, by the library.
 *
 * usage: cases check [--tight] FILE | cases list FILE | cases scan FILE WINDOW..
 *
 * The tests compare it with the program. As the program does, it makes a directory first where there are two windows or
 * more. The status is the program's: 0, 1 for a layer that is refused, 2 for bad words, else 3. */
#include "files.h"
#include "twkb.h"
#include <inttypes.h>
#include <string.h>

enum asked { CHECK, TIGHT, LIST, SCAN, NOTHING };

static int fault(int status, const char *why) {
    fprintf(stderr, "cases: %s\n", why);
    return status;
}

static int no_memory(void) {
    return fault(3, "out of memory");
}

static const char *yes_no(bool is) {
    return is ? "yes" : "no";
}

/* What the words ask for, and the place of the file's name among them. */
static enum asked words(int count, char **word, int *file) {
    bool tight_first = count == 4 && strcmp(word[2], "--tight") == 0;
    bool tight_last = count == 4 && strcmp(word[3], "--tight") == 0;
    *file = tight_first ? 3 : 2;
    if (count < 3) return NOTHING;
    if (strcmp(word[1], "check") == 0 && count == 3) return CHECK;
    if (strcmp(word[1], "check") == 0 && (tight_first || tight_last)) return TIGHT;
    if (strcmp(word[1], "list") == 0 && count == 3) return LIST;
    if (strcmp(word[1], "scan") == 0 && count > 3) {
        *file = 2;
        return SCAN;
    }
    return NOTHING;
}

/* Reads the texts of windows. Answers a status, 0 where each of them is one. */
static int read_windows(char **texts, int count, struct twkb_window *windows) {
    for (int i = 0; i < count; i++) {
        uint32_t answer = twkb_window_parse(texts[i], strlen(texts[i]), &windows[i]);
        if (answer == TWKB_WINDOW) continue;
        bool order = answer == TWKB_BAD_ORDER;
        const char *why = order ? "lower bound above upper bound" : "not of the form x=A..B,y=C..D[,z=E..F][,m=G..H]";
        fprintf(stderr, "cases: window %d: %s\n", i + 1, why);
        return 2;
    }
    return 0;
}

static int print_refusal(const struct twkb_verdict *verdict) {
    if (verdict->kind < TWKB_CUT || verdict->kind > TWKB_LOOSE) return fault(3, "a kind that is none");
    printf("no blob=%zu offset=%zu kind=%s\n", verdict->blob, verdict->offset, twkb_kind_name(verdict->kind).text);
    return 1;
}

static int print_rows(const struct twkb_layer *layer) {
    struct twkb_row *rows = calloc(layer->blobs + 1, sizeof *rows);
    if (!rows) return no_memory();
    size_t count = twkb_list(layer, rows, layer->blobs);
    for (size_t i = 0; i < count; i++) {
        struct twkb_row row = rows[i];
        const char *size = yes_no(row.has_size), *box = yes_no(row.has_box);
        printf("blob=%zu offset=%zu bytes=%zu type=%s ", row.blob, row.offset, row.bytes, twkb_type_name(row.type).text);
        printf("precision=%d vertices=%zu size=%s box=%s\n", row.precision, row.vertices, size, box);
    }
    free(rows);
    return 0;
}

static void print_scan(const struct twkb_layer *layer, struct twkb_scanned scanned, const struct twkb_hit *hits) {
    for (size_t i = 0; i < scanned.hits; i++) printf("hit blob=%zu offset=%zu\n", hits[i].blob, hits[i].offset);
    printf("hits=%zu read=%" PRIu64 " of=%zu\n", scanned.hits, scanned.bytes_read, layer->len);
}

static void print_by_slots(const struct twkb_layer *layer, struct twkb_slot *slots, const struct twkb_window *windows,
                           int count, struct twkb_hit *hits) {
    size_t made = twkb_directory_build(layer, slots, TWKB_MOST_SLOTS * layer->blobs);
    for (int i = 0; i < count; i++) {
        print_scan(layer, twkb_directory_scan(layer, slots, made, &windows[i], hits, layer->blobs), hits);
    }
}

/* With a directory where there are several windows. */
static int print_hits(const struct twkb_layer *layer, const struct twkb_window *windows, int count) {
    struct twkb_hit *hits = calloc(layer->blobs + 1, sizeof *hits);
    struct twkb_slot *slots = count > 1 ? calloc(layer->blobs + 1, TWKB_MOST_SLOTS * sizeof *slots) : NULL;
    bool memory = hits && (slots || count == 1);
    if (memory && slots) print_by_slots(layer, slots, windows, count, hits);
    if (memory && !slots) print_scan(layer, twkb_scan(layer, windows, hits, layer->blobs), hits);
    free(slots);
    free(hits);
    return memory ? 0 : no_memory();
}

/* Judges the bytes, and prints what is asked for. Answers a status. */
static int answer(enum asked asked, const uint8_t *bytes, size_t len, const struct twkb_window *windows, int count) {
    struct twkb_verdict verdict = asked == TIGHT ? twkb_certify_tight(bytes, len) : twkb_certify(bytes, len);
    if (verdict.answer == TWKB_NO_MEMORY) return no_memory();
    if (verdict.answer == TWKB_REFUSED) return print_refusal(&verdict);
    struct twkb_layer layer = {bytes, len, verdict.blobs, verdict.vertices};
    if (asked == LIST) return print_rows(&layer);
    if (asked == SCAN) return print_hits(&layer, windows, count);
    printf("ok blobs=%zu vertices=%zu\n", layer.blobs, layer.vertices);
    return 0;
}

static int on_file(enum asked asked, const char *path, const struct twkb_window *windows, int count) {
    size_t len;
    uint8_t *bytes = read_file(path, &len);
    if (!bytes) return fault(3, "cannot read file");
    int status = answer(asked, bytes, len, windows, count);
    free(bytes);
    return status;
}

int main(int argc, char **argv) {
    int file;
    enum asked asked = words(argc, argv, &file);
    if (asked == NOTHING) return fault(2, "usage: check [--tight] FILE | list FILE | scan FILE WINDOW..");
    int count = asked == SCAN ? argc - 3 : 0;
    struct twkb_window *windows = malloc(((size_t)count + 1) * sizeof *windows);
    if (!windows) return no_memory();
    int status = read_windows(argv + 3, count, windows);
    if (status == 0) status = on_file(asked, argv[file], windows, count);
    free(windows);
    return status;
}
