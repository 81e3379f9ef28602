/* Layers of TWKB geometries for C: certified once, then scanned and listed, by the proved library.
 *
 * docs/FORMAT.md of the repository says what a layer is and when it is certified, and docs/PROVED.md what is proved. This
 * header is written by hand. The contracts of the calls are in crates/twkb_c/src/lib.rt; layout.c checks the sizes of the
 * structs and the offsets of their fields.
 *
 * The caller has to guarantee at each call (nothing checks it):
 * - a pointer to bytes, text, rows, hits or slots is valid for as many elements as the number after it says, and isn't NULL,
 *   even if that number is 0, and so is a pointer to many windows or results; any other pointer to a layer, a window or a span
 *   is valid for one; all are aligned as C requires;
 * - these elements take at most 2^63 - 1 bytes;
 * - nobody writes to the bytes, the layer, the slots or the windows while the call runs, and memory that the call writes to
 *   overlaps nothing else. It needn't be initialized;
 * - every field of a window is set, and its flags are 0 or 1;
 * - a layer is made from a verdict TWKB_CERTIFIED and the bytes that were certified, and nobody has written to them since.
 *   With a layer or slots made in any other way a call may read out of bounds;
 * - malloc, realloc and free are of one allocator, and no call is made from a signal handler.
 *
 * Every call ends, keeps no pointer and has no state, and calls may run in many threads at once. Certifying allocates memory
 * by malloc only for a list of more than sixteen ids, and frees it; no other call allocates. The code needs a processor of
 * the level x86-64-v2. */
#ifndef TWKB_H
#define TWKB_H

#include <stdbool.h>
#include <stddef.h>
#include <stdint.h>

#ifdef __cplusplus
extern "C" {
#endif

/* A compiler that can warns of a call whose result nobody looks at. */
#ifdef __GNUC__
#define TWKB_CHECKED __attribute__((warn_unused_result))
#else
#define TWKB_CHECKED
#endif

/* The version of this header. */
#define TWKB_VERSION "1.1.0"
#define TWKB_VERSION_MAJOR 1
#define TWKB_VERSION_MINOR 1
#define TWKB_VERSION_PATCH 0

/* The version of the library that is linked or loaded, which may differ from the header's: a constant text. This one function
 * isn't proved; it is C. */
const char *twkb_version(void);

/* The values of `answer` in a verdict. */
enum { TWKB_CERTIFIED = 0, TWKB_REFUSED = 1, TWKB_NO_MEMORY = 2 };

/* The kinds of refusals. Only twkb_certify_tight returns the last one. */
enum {
    TWKB_CUT = 1,
    TWKB_VARINT = 2,
    TWKB_TYPE = 3,
    TWKB_DEPTH = 4,
    TWKB_RANGE = 5,
    TWKB_SIZE = 6,
    TWKB_BOX = 7,
    TWKB_IDS = 8,
    TWKB_LOOSE = 9
};

/* The verdict on bytes. Fields that the answer doesn't use are 0. */
struct twkb_verdict {
    uint32_t answer;
    uint32_t kind;   /* of a refusal: its kind, such as TWKB_BOX */
    size_t blobs;    /* of a certified layer: how many blobs */
    size_t vertices; /* of a certified layer: how many vertices */
    size_t blob;     /* of a refusal: the number of the first blob that is wrong, from 0 */
    size_t offset;   /* of a refusal: the offset of what is wrong in it */
};

/* Certifies the bytes as a layer: every size is the number of bytes of its geometry after it, every box holds all vertices
 * of its geometry, and the ids of each list differ. Returns TWKB_NO_MEMORY only if there is no memory for a list of more than
 * sixteen ids. */
TWKB_CHECKED struct twkb_verdict twkb_certify(const uint8_t *bytes, size_t len);

/* Certifies as twkb_certify does, and also refuses boxes that are larger than they have to be, which scans rarely skip. */
TWKB_CHECKED struct twkb_verdict twkb_certify_tight(const uint8_t *bytes, size_t len);

/* A word that ends with a 0. */
struct twkb_name {
    char text[24];
};

/* The words for the answer of a verdict, for the kind of a refusal and for the type of a geometry, as the program prints them:
 * "refused", "box", "point". For any other number the text is empty. As in printf("%s", twkb_kind_name(verdict.kind).text). */
struct twkb_name twkb_answer_name(uint32_t answer);
struct twkb_name twkb_kind_name(uint32_t kind);
struct twkb_name twkb_type_name(uint32_t type);

/* A certified layer, in storage of the caller. It borrows the bytes. */
struct twkb_layer {
    const uint8_t *bytes;
    size_t len;
    size_t blobs;
    size_t vertices;
};

/* A row of a list: one blob. */
struct twkb_row {
    size_t blob;       /* its number, from 0 */
    size_t offset;     /* its offset */
    size_t bytes;      /* its length in bytes */
    size_t vertices;   /* how many vertices it has, at all depths */
    uint8_t type;      /* from 1 (point) to 7 (collection) */
    int8_t precision;  /* of X and Y, from -8 to 7 */
    bool has_size;
    bool has_box;
};

/* Writes a row for each blob to `rows`, in file order, as many as fit; `room` is how many fit. Returns how many blobs there
 * are. */
size_t twkb_list(const struct twkb_layer *layer, struct twkb_row *rows, size_t room);

/* A number of units of 10^-7: high * 2^64 + low. */
struct twkb_units {
    uint64_t low;
    int64_t high;
};

/* A range, both ends included. If lo is above hi, it holds nothing. */
struct twkb_span {
    struct twkb_units lo;
    struct twkb_units hi;
};

/* A window. If it doesn't bound Z or M, that range means nothing. */
struct twkb_window {
    struct twkb_span x;
    struct twkb_span y;
    struct twkb_span z;
    struct twkb_span m;
    bool has_z;
    bool has_m;
};

/* What parsing a window returns. */
enum { TWKB_WINDOW = 0, TWKB_BAD_FORM = 1, TWKB_BAD_ORDER = 2 };

/* Parses a window of the form x=A..B,y=C..D[,z=E..F][,m=G..H], with up to seven decimals, exactly. Unless it returns
 * TWKB_WINDOW, the window is unchanged. TWKB_BAD_ORDER: a lower bound is above its upper bound. */
TWKB_CHECKED uint32_t twkb_window_parse(const char *text, size_t len, struct twkb_window *window);

/* The result of twkb_span_of_decimals for a range, besides TWKB_BAD_FORM and TWKB_BAD_ORDER. */
enum { TWKB_SPAN = 0 };

/* Makes the range between two decimals, [-]digits[.digits] of any length, in units: the lower bound is rounded up, and the upper
 * bound down. Every coordinate is a whole number of units, so the range contains exactly the coordinates between the two decimals.
 * If there are none, lo is above hi. A bound that is farther from 0 than any coordinate becomes 10^34 units, or -10^34.
 *
 * Unless it returns TWKB_SPAN, the span is unchanged. TWKB_BAD_FORM: a text is no decimal. TWKB_BAD_ORDER: the lower decimal is
 * greater than the upper one. A window is made by one call for each axis:
 *
 *     struct twkb_window window = {0};
 *     if (twkb_span_of_decimals("0.1", 3, "0.30000000000000004", 19, &window.x) != TWKB_SPAN) return -1;
 *
 * bindings/c/README.md of the repository says how a double becomes a decimal. */
TWKB_CHECKED uint32_t twkb_span_of_decimals(const char *lo, size_t lo_len, const char *hi, size_t hi_len, struct twkb_span *span);

/* A blob with a vertex inside a window. */
struct twkb_hit {
    size_t blob;   /* its number, from 0 */
    size_t offset; /* its offset */
    size_t bytes;  /* its length in bytes */
};

/* The result of a scan: how many blobs have a vertex inside, and how many bytes it read. */
struct twkb_scanned {
    size_t hits;
    uint64_t bytes_read;
};

/* Writes a hit for each blob with a vertex inside the window to `hits`, in file order, as many as fit; `room` is how many
 * fit. The layer has to be certified first. */
TWKB_CHECKED struct twkb_scanned twkb_scan(const struct twkb_layer *layer, const struct twkb_window *window,
                                           struct twkb_hit *hits, size_t room);

/* A slot of a directory. A blob has one, or as many as TWKB_MOST_SLOTS if it has a box with Z, M or numbers beyond 32 bits. Its
 * numbers mean nothing to callers, nor to other versions of the library. */
struct twkb_slot {
    uint64_t word;
    uint64_t first;
    uint64_t second;
};

/* How many slots a blob has at most. */
#define TWKB_MOST_SLOTS 4

/* Writes a directory of the layer to `slots`, which has room for `room` slots, and returns how many slots it has: at most
 * TWKB_MOST_SLOTS for each blob. `room` must be at least that many for each blob, even where fewer slots would do. If it is less,
 * nothing is written, and the result is TWKB_MOST_SLOTS for each blob, which is more than `room`. What is after the slots is
 * unchanged. */
TWKB_CHECKED size_t twkb_directory_build(const struct twkb_layer *layer, struct twkb_slot *slots, size_t room);

/* Scans as twkb_scan does, and reads as many bytes as if the blobs whose box misses the window weren't there. The slots are those
 * that twkb_directory_build wrote for this layer, and `count` is what it returned. */
TWKB_CHECKED struct twkb_scanned twkb_directory_scan(const struct twkb_layer *layer, const struct twkb_slot *slots, size_t count,
                                                     const struct twkb_window *window, struct twkb_hit *hits, size_t room);

/* Scans for `many` windows in one call, each as twkb_directory_scan does. The hits are written to `hits` one window after
 * another, as many as fit; `room` is how many fit. scanned[i] is set to what a scan for windows[i] returns; `results` is how
 * many of these fit, `many` to get them all.
 *
 * Returns how many windows are answered. It is `many`, unless the hits of a window don't all fit. Then the call stops there,
 * and the result is the number of this window, from 0. scanned[result] says how many hits it has, and those that fit are
 * written. Nothing else is written to `hits` and `scanned`. Call again for the windows from this one on, with room for that
 * many hits or more. As much room as the layer has blobs suffices for any window:
 *
 *     for (size_t done = 0, answered; done < many; done += answered) {
 *         answered = twkb_directory_scan_many(&layer, slots, count, windows + done, many - done, scanned, many - done, hits,
 *                                             layer.blobs);
 *         const struct twkb_hit *next = hits;
 *         for (size_t i = 0; i < answered; next += scanned[i++].hits) use(&windows[done + i], next, scanned[i].hits);
 *     } */
TWKB_CHECKED size_t twkb_directory_scan_many(const struct twkb_layer *layer, const struct twkb_slot *slots, size_t count,
                                             const struct twkb_window *windows, size_t many, struct twkb_scanned *scanned,
                                             size_t results, struct twkb_hit *hits, size_t room);

#ifdef __cplusplus
}
#endif
#endif
