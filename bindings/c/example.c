/* Prints which blobs of a layer have a vertex inside a box, and how many bytes they have: a program to copy.
 *
 * usage: example LAYER XMIN YMIN XMAX YMAX   (decimals of any length)
 *
 * The exit status is 0, 1 for a layer that is refused, 2 for a bad command line, and 3 for what can't be read or held. */
#include <inttypes.h>
#include <stdio.h>
#include <stdlib.h>
#include <string.h>
#include <twkb.h>

/* The bytes of a file, or NULL. */
static uint8_t *read_file(const char *path, size_t *len) {
    FILE *file = fopen(path, "rb");
    if (!file) return NULL;
    long size = fseek(file, 0, SEEK_END) == 0 ? ftell(file) : -1;
    uint8_t *bytes = size < 0 ? NULL : malloc((size_t)size + 1);
    *len = (size_t)size;
    if (bytes && (fseek(file, 0, SEEK_SET) != 0 || fread(bytes, 1, *len, file) != *len)) {
        free(bytes);
        bytes = NULL;
    }
    fclose(file);
    return bytes;
}

static int fault(int status, const char *why) {
    fprintf(stderr, "example: %s\n", why);
    return status;
}

/* The range of an axis, of the texts of its ends. */
static int read_span(const char *lo, const char *hi, struct twkb_span *span) {
    switch (twkb_span_of_decimals(lo, strlen(lo), hi, strlen(hi), span)) {
        case TWKB_SPAN: return 0;
        case TWKB_BAD_ORDER: return fault(2, "a lower bound is above its upper bound");
        default: return fault(2, "a bound is no decimal such as -12.5");
    }
}

static int print_hits(const struct twkb_layer *layer, const struct twkb_window *window) {
    /* No window has more hits than the layer has blobs. A buffer that isn't NULL is wanted for none, too. */
    struct twkb_hit *hits = calloc(layer->blobs + 1, sizeof *hits);
    if (!hits) return fault(3, "out of memory");
    struct twkb_scanned scanned = twkb_scan(layer, window, hits, layer->blobs);
    for (size_t i = 0; i < scanned.hits; i++) printf("blob %zu has %zu bytes\n", hits[i].blob, hits[i].bytes);
    printf("%zu hits, %" PRIu64 " of %zu bytes read\n", scanned.hits, scanned.bytes_read, layer->len);
    free(hits);
    return fflush(stdout) == 0 ? 0 : fault(3, "write failed");
}

/* Nothing but a certified layer may be scanned: otherwise a scan may read out of bounds. */
static int scan(const uint8_t *bytes, size_t len, const struct twkb_window *window) {
    struct twkb_verdict verdict = twkb_certify(bytes, len);
    if (verdict.answer == TWKB_NO_MEMORY) return fault(3, "out of memory");
    if (verdict.answer == TWKB_REFUSED) {
        fprintf(stderr, "example: blob=%zu offset=%zu kind=%s\n", verdict.blob, verdict.offset, twkb_kind_name(verdict.kind).text);
        return 1;
    }
    struct twkb_layer layer = {bytes, len, verdict.blobs, verdict.vertices};
    return print_hits(&layer, window);
}

int main(int argc, char **argv) {
    if (argc != 6) return fault(2, "usage: example LAYER XMIN YMIN XMAX YMAX");
    struct twkb_window window = {0};
    int status = read_span(argv[2], argv[4], &window.x);
    if (status == 0) status = read_span(argv[3], argv[5], &window.y);
    if (status != 0) return status;
    size_t len;
    uint8_t *bytes = read_file(argv[1], &len);
    if (!bytes) return fault(3, "cannot read file");
    status = scan(bytes, len, &window);
    free(bytes);
    return status;
}
