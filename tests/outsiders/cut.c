/* A library that is loaded before a program, and shortens a write to a socket that ends with the reply to a bye.

   With CUT=N only the first N bytes of the first such write are written, if it has more. Later writes to the same
   socket are complete, or with CUT_EACH=1 have one byte each. With CUT_COUNTS=FILE, FILE has two numbers of eight bytes:
   how many bytes the first such write was to have, and how many writes were shortened. */

#include "preload.h"

extern void *dlsym(void *, const char *);

#define NEXT ((void *)-1l)
#define LENGTH (sizeof bid - 1)

static const char bid[] = "{\"ok\":\"bye\"}\n";
static struct { word bytes, cut; } own, *counts = &own;
static word at, is_each;
static int file_cut = -1;

/* Returns whether these bytes end with the reply to a bye. */
static int ends_with_bid(const char *bytes, size_t count) {
    size_t index;
    if (count < LENGTH) return 0;
    for (index = 0; index < LENGTH; index++)
        if (bytes[count - LENGTH + index] != bid[index]) return 0;
    return 1;
}

/* Returns how many of the bytes are to be written. */
static size_t most(int file, const char *bytes, size_t count) {
    size_t found = count;
    if (file == file_cut) {
        found = is_each && count > 1 ? 1 : count;
    } else if (ends_with_bid(bytes, count) && !__atomic_exchange_n(&counts->bytes, count, __ATOMIC_SEQ_CST)) {
        if (at > 0 && at < count) {
            found = at;
            file_cut = file;
        }
    }
    if (found < count) __atomic_add_fetch(&counts->cut, 1, __ATOMIC_SEQ_CST);
    return found;
}

long write(int file, const void *from, size_t bytes) {
    long (*next)(int, const void *, size_t) = dlsym(NEXT, "write");
    return next(file, from, most(file, from, bytes));
}

long send(int file, const void *from, size_t bytes, int flags) {
    long (*next)(int, const void *, size_t, int) = dlsym(NEXT, "send");
    return next(file, from, most(file, from, bytes), flags);
}

__attribute__((constructor)) static void begin(void) {
    counts = shared_with("CUT_COUNTS", &own, sizeof own);
    at = number("CUT");
    is_each = number("CUT_EACH");
}
