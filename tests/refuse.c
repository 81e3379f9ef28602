/* Refuses one call for memory: the one whose number, from 1, is in REFUSED. At the end of the run it writes to the
   descriptor of COUNT how many calls there were. tests/refuse_allocations.py loads it before the program. */
#include <stddef.h>
#include <stdio.h>
#include <stdlib.h>

/* The C library's own, under their second names. */
void *__libc_malloc(size_t);
void *__libc_realloc(void *, size_t);

static long calls, refused;

static long number(const char *name) {
    const char *text = getenv(name);
    return text ? atol(text) : 0;
}

/* What is taken before this isn't the program's. */
__attribute__((constructor)) static void begin(void) {
    calls = 0;
    refused = number("REFUSED");
}

__attribute__((destructor)) static void end(void) {
    dprintf((int)number("COUNT"), "%ld", calls);
}

void *malloc(size_t size) {
    return ++calls == refused ? NULL : __libc_malloc(size);
}

void *realloc(void *place, size_t size) {
    return ++calls == refused ? NULL : __libc_realloc(place, size);
}
