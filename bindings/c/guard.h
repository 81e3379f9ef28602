/* Memory that ends at a page that nobody may touch: to read or write a byte past it ends the program. */
#ifndef GUARD_H
#define GUARD_H

#include <stdbool.h>
#include <stdint.h>
#include <stdlib.h>
#include <string.h>
#include <sys/mman.h>

enum { PAGE = 4096 };

static inline size_t guarded_pages(size_t size) {
    return (size + PAGE - 1) / PAGE * PAGE;
}

/* Filled with bytes 0x5a. */
static inline void *guarded(size_t size) {
    size_t pages = guarded_pages(size);
    char *base = mmap(NULL, pages + PAGE, PROT_READ | PROT_WRITE, MAP_PRIVATE | MAP_ANONYMOUS, -1, 0);
    if (base == MAP_FAILED || mprotect(base + pages, PAGE, PROT_NONE) != 0) abort();
    return memset(base + pages - size, 0x5a, size);
}

/* Whether nobody has written the places from here on. */
static inline bool still(const void *places, size_t size) {
    const uint8_t *bytes = places;
    size_t same = 0;
    while (same < size && bytes[same] == 0x5a) same++;
    return same == size;
}

static inline void *guarded_copy(const void *bytes, size_t size) {
    return memcpy(guarded(size), bytes, size);
}

static inline void free_guarded(void *place, size_t size) {
    size_t pages = guarded_pages(size);
    munmap((char *)place + size - pages, pages + PAGE);
}

#endif
