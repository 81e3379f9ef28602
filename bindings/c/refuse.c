/* Refuses each of the library's calls for memory in turn, for lists of a thousand ids.
 *
 * usage: refuse
 *
 * It is linked with -Wl,--wrap=malloc,--wrap=realloc,--wrap=free, so that the library takes memory from here.
 *
 * While a call is refused the answer has to be that there was no memory; with none refused it has to be the right one.
 * Nothing may be kept, and listing, scanning and reading windows may take nothing. Says what isn't so, and last how
 * many checks passed; the status is 1 where one failed. */
#include "check.h"
#include "twkb.h"
#include <stdlib.h>
#include <string.h>

enum { IDS = 1000, MOST_CALLS = 100 };

/* ---- memory that is refused */

void *__real_malloc(size_t size);
void *__real_realloc(void *place, size_t size);
void __real_free(void *place);
void *__wrap_malloc(size_t size);
void *__wrap_realloc(void *place, size_t size);
void __wrap_free(void *place);

/* How many calls there were, the number from 1 of the one that is refused, and how many pieces of memory are held. */
static long calls, refused, held;

static void refuse(long number) {
    calls = held = 0;
    refused = number;
}

void *__wrap_malloc(size_t size) {
    void *place = ++calls == refused ? NULL : __real_malloc(size);
    held += place != NULL;
    return place;
}

void *__wrap_realloc(void *old, size_t size) {
    void *place = ++calls == refused ? NULL : __real_realloc(old, size);
    held += place != NULL && old == NULL;
    return place;
}

void __wrap_free(void *place) {
    held -= place != NULL;
    __real_free(place);
}

/* ---- layers of one list */

struct bytes {
    uint8_t at[8 + 6 * IDS];
    size_t len;
};

/* Appends a number of up to 14 bits, a byte or two of TWKB. */
static void put(struct bytes *layer, unsigned number) {
    if (number > 127) layer->at[layer->len++] = (uint8_t)(number & 127) | 128;
    layer->at[layer->len++] = (uint8_t)(number > 127 ? number >> 7 : number);
}

/* A thousand points, whose ids are multiples of the factor modulo a prime. Where two are equal, these are the ends. */
static void fill(struct bytes *layer, unsigned factor, bool equal) {
    *layer = (struct bytes){{0x04, 0x04}, 2};
    put(layer, IDS);
    for (unsigned i = 0; i < IDS; i++) {
        unsigned id = (equal && i == IDS - 1 ? 1 : i + 1) * factor % 4001;
        put(layer, 2 * id);
    }
    for (int i = 0; i < IDS; i++) {
        put(layer, 2);
        put(layer, 2);
    }
}

/* ---- what is checked */

typedef struct twkb_verdict judge(const uint8_t *bytes, size_t len);

static void is_right(const struct twkb_verdict *verdict, bool equal) {
    if (equal) {
        CHECK(verdict->answer == TWKB_REFUSED && verdict->kind == TWKB_IDS);
        CHECK(verdict->blob == 0 && verdict->offset == 4 && verdict->blobs == 0 && verdict->vertices == 0);
    } else {
        CHECK(verdict->answer == TWKB_CERTIFIED && verdict->blobs == 1 && verdict->vertices == IDS);
        CHECK(verdict->kind == 0 && verdict->blob == 0 && verdict->offset == 0);
    }
}

/* Answers how many calls there are. */
static long refuse_each(judge *certify, const struct bytes *layer, bool equal) {
    refuse(0);
    struct twkb_verdict verdict = certify(layer->at, layer->len);
    is_right(&verdict, equal);
    CHECK(held == 0 && calls < MOST_CALLS);
    long all = calls;
    for (long number = 1; number <= all; number++) {
        refuse(number);
        verdict = certify(layer->at, layer->len);
        CHECK(verdict.answer == TWKB_NO_MEMORY && verdict.kind == 0 && verdict.blob == 0 && verdict.offset == 0);
        CHECK(verdict.blobs == 0 && verdict.vertices == 0);
        CHECK(held == 0 && calls == number);
    }
    refuse(all + 1);
    verdict = certify(layer->at, layer->len);
    is_right(&verdict, equal);
    CHECK(held == 0 && calls == all);
    return all;
}

/* With each call refused. */
static void others_take_nothing(const struct bytes *layer) {
    struct twkb_layer certified = {layer->at, layer->len, 1, IDS};
    const char *text = "x=0..1,y=0..1,z=0..1,m=0..1";
    struct twkb_window window;
    struct twkb_row row;
    struct twkb_hit hit;
    refuse(1);
    CHECK(twkb_window_parse(text, strlen(text), &window) == TWKB_WINDOW);
    window.has_z = window.has_m = false;
    CHECK(twkb_list(&certified, &row, 1) == 1 && row.vertices == IDS);
    CHECK(twkb_scan(&certified, &window, &hit, 1).hits == 1);
    struct twkb_slot slots[TWKB_MOST_SLOTS];
    struct twkb_scanned scanned;
    size_t count = twkb_directory_build(&certified, slots, TWKB_MOST_SLOTS);
    CHECK(count > 0 && count <= TWKB_MOST_SLOTS && twkb_directory_scan(&certified, slots, count, &window, &hit, 1).hits == 1);
    CHECK(twkb_directory_scan_many(&certified, slots, count, &window, 1, &scanned, 1, &hit, 1) == 1 && scanned.hits == 1);
    CHECK(calls == 0);
}

int main(void) {
    static const struct {
        const char *name;
        unsigned factor;
    } orders[] = {{"falling", 4000}, {"scattered", 1571}, {"rising", 1}};
    static struct bytes layer;
    for (int i = 0; i < 3; i++) {
        for (int equal = 0; equal < 2; equal++) {
            fill(&layer, orders[i].factor, equal);
            long plain = refuse_each(twkb_certify, &layer, equal);
            long tight = refuse_each(twkb_certify_tight, &layer, equal);
            /* Rising ids need no memory, unless boxes are looked at. */
            CHECK(tight > 0 && (plain > 0 || (i == 2 && !equal)));
            printf("%s ids%s: ", orders[i].name, equal ? ", two equal" : "");
            printf("%ld calls refused, %ld in tight checking\n", plain, tight);
        }
    }
    fill(&layer, 1, false);
    others_take_nothing(&layer);
    return ended("refuse");
}
