/* A library that is loaded before a program, and records how long reads of its sockets may wait.

   With WAITS=FILE, FILE has two numbers of eight bytes: how many reads of sockets were begun, and how many milliseconds
   the last one may wait, in which 0 means no limit. */

#include "preload.h"

extern void *dlsym(void *, const char *);

#define NEXT ((void *)-1l)
#define SOCKETS 1
#define READS 20
#define PEEK 2
#define FILES 4096

static struct { word made, last; } own, *counts = &own;
static word limits[FILES];

int setsockopt(int file, int level, int name, const void *value, unsigned bytes) {
    int (*next)(int, int, int, const void *, unsigned) = dlsym(NEXT, "setsockopt");
    if (level == SOCKETS && name == READS && bytes == 2 * sizeof(word) && file < FILES) {
        const word *limit = value;
        __atomic_store_n(&limits[file], 1000 * limit[0] + limit[1] / 1000, __ATOMIC_SEQ_CST);
    }
    return next(file, level, name, value, bytes);
}

/* Removes the limit of a socket that is closed. A new socket with the same number has no limit. */
int close(int file) {
    int (*next)(int) = dlsym(NEXT, "close");
    if (file >= 0 && file < FILES) __atomic_store_n(&limits[file], 0, __ATOMIC_SEQ_CST);
    return next(file);
}

long recv(int file, void *to, size_t most, int flags) {
    long (*next)(int, void *, size_t, int) = dlsym(NEXT, "recv");
    if (!(flags & PEEK) && file < FILES) {
        __atomic_store_n(&counts->last, __atomic_load_n(&limits[file], __ATOMIC_SEQ_CST), __ATOMIC_SEQ_CST);
        __atomic_add_fetch(&counts->made, 1, __ATOMIC_SEQ_CST);
    }
    return next(file, to, most, flags);
}

__attribute__((constructor)) static void begin(void) { counts = shared_with("WAITS", &own, sizeof own); }
