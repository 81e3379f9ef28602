/* Layers and windows that have to be right, for the programs that check the library by themselves. */
#ifndef MADE_H
#define MADE_H

#include "check.h"
#include "twkb.h"
#include <string.h>

static inline struct twkb_layer certified(const uint8_t *bytes, size_t len) {
    struct twkb_verdict verdict = twkb_certify(bytes, len);
    CHECK(verdict.answer == TWKB_CERTIFIED);
    return (struct twkb_layer){bytes, len, verdict.blobs, verdict.vertices};
}

static inline struct twkb_window window_of(const char *text) {
    struct twkb_window window;
    CHECK(twkb_window_parse(text, strlen(text), &window) == TWKB_WINDOW);
    return window;
}

static inline struct twkb_window whole_world(void) {
    return window_of("x=-1000..1000,y=-1000..1000");
}

#endif
