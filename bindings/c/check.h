/* What the programs that check the library by themselves share. */
#ifndef CHECK_H
#define CHECK_H

#include <stdatomic.h>
#include <stdbool.h>
#include <stdio.h>

static atomic_int passed, failed;

/* Counts a check, by any thread, and says where one fails. */
static inline void check(bool is, const char *what, const char *file, int line) {
    if (is) {
        passed++;
        return;
    }
    failed++;
    fprintf(stderr, "%s:%d: not so: %s\n", file, line, what);
}

#define CHECK(is) check((is), #is, __FILE__, __LINE__)

/* The last line, and the status. */
static inline int ended(const char *name) {
    printf("%s: %d passed, %d failed\n", name, passed, failed);
    return failed > 0;
}

#endif
