/* What twkb.h says of sizes and places, of each struct and each field. Compiled as C and as C++, never run. */
#include "twkb.h"
#include <assert.h>

static_assert(sizeof(void *) == 8 && sizeof(size_t) == 8, "a machine of 64 bits");
static_assert(sizeof(bool) == 1, "a byte for a bool");

#define PLACE(type, field, place, size) \
    static_assert(offsetof(struct type, field) == (place), #type ": place of " #field); \
    static_assert(sizeof(((struct type *)0)->field) == (size), #type ": size of " #field)
#define SIZE(type, size) static_assert(sizeof(struct type) == (size), #type)

SIZE(twkb_verdict, 40);
PLACE(twkb_verdict, answer, 0, 4);
PLACE(twkb_verdict, kind, 4, 4);
PLACE(twkb_verdict, blobs, 8, 8);
PLACE(twkb_verdict, vertices, 16, 8);
PLACE(twkb_verdict, blob, 24, 8);
PLACE(twkb_verdict, offset, 32, 8);

SIZE(twkb_name, 24);
PLACE(twkb_name, text, 0, 24);

SIZE(twkb_layer, 32);
PLACE(twkb_layer, bytes, 0, 8);
PLACE(twkb_layer, len, 8, 8);
PLACE(twkb_layer, blobs, 16, 8);
PLACE(twkb_layer, vertices, 24, 8);

SIZE(twkb_row, 40);
PLACE(twkb_row, blob, 0, 8);
PLACE(twkb_row, offset, 8, 8);
PLACE(twkb_row, bytes, 16, 8);
PLACE(twkb_row, vertices, 24, 8);
PLACE(twkb_row, type, 32, 1);
PLACE(twkb_row, precision, 33, 1);
PLACE(twkb_row, has_size, 34, 1);
PLACE(twkb_row, has_box, 35, 1);

SIZE(twkb_units, 16);
PLACE(twkb_units, low, 0, 8);
PLACE(twkb_units, high, 8, 8);

SIZE(twkb_span, 32);
PLACE(twkb_span, lo, 0, 16);
PLACE(twkb_span, hi, 16, 16);

SIZE(twkb_window, 136);
PLACE(twkb_window, x, 0, 32);
PLACE(twkb_window, y, 32, 32);
PLACE(twkb_window, z, 64, 32);
PLACE(twkb_window, m, 96, 32);
PLACE(twkb_window, has_z, 128, 1);
PLACE(twkb_window, has_m, 129, 1);

SIZE(twkb_hit, 24);
PLACE(twkb_hit, blob, 0, 8);
PLACE(twkb_hit, offset, 8, 8);
PLACE(twkb_hit, bytes, 16, 8);

SIZE(twkb_scanned, 16);
PLACE(twkb_scanned, hits, 0, 8);
PLACE(twkb_scanned, bytes_read, 8, 8);

SIZE(twkb_slot, 24);
PLACE(twkb_slot, word, 0, 8);
PLACE(twkb_slot, first, 8, 8);
PLACE(twkb_slot, second, 16, 8);
