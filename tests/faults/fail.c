/* A library that is loaded before a program, and makes one call of a kind fail, or transfer only one byte.

   FAIL=read is about read and recv, FAIL=write about write and send, FAIL=open about open, FAIL=accept about accept4,
   and FAIL=thread about pthread_create. With FAIL_AT=N the Nth call of that kind in the process fails. FAIL_WITH=E is
   the number of its error. With FAIL_WITH=0 the call does nothing and returns 0. With FAIL_SHORT=1 a read or a write
   doesn't fail, but transfers at most one byte. With FAIL_COUNTS=FILE, FILE has two numbers of eight bytes: how many
   calls of the kind were made, and how many failed or were shortened. */

#include "preload.h"

extern void *dlsym(void *, const char *);

#define NEXT ((void *)-1l)
#define CREATE 0x40

enum how { AS_ASKED, SHORT, FAILED };

static struct { word made, failed; } own, *counts = &own;
static word at, with, is_short;
static char kind;

/* Counts this call if it is of the kind, and returns what it has to do. */
static enum how meets(char of) {
    if (of != kind) return AS_ASKED;
    if (__atomic_add_fetch(&counts->made, 1, __ATOMIC_SEQ_CST) != at) return AS_ASKED;
    __atomic_add_fetch(&counts->failed, 1, __ATOMIC_SEQ_CST);
    return is_short ? SHORT : FAILED;
}

static long failed(void) {
    if (with == 0) return 0;
    *__errno_location() = (int)with;
    return -1;
}

static size_t cut(size_t bytes) { return bytes < 1 ? bytes : 1; }

long read(int file, void *to, size_t bytes) {
    long (*next)(int, void *, size_t) = dlsym(NEXT, "read");
    enum how how = meets('r');
    return how == FAILED ? failed() : next(file, to, how == SHORT ? cut(bytes) : bytes);
}

long recv(int file, void *to, size_t bytes, int flags) {
    long (*next)(int, void *, size_t, int) = dlsym(NEXT, "recv");
    enum how how = meets('r');
    return how == FAILED ? failed() : next(file, to, how == SHORT ? cut(bytes) : bytes, flags);
}

long write(int file, const void *from, size_t bytes) {
    long (*next)(int, const void *, size_t) = dlsym(NEXT, "write");
    enum how how = meets('w');
    return how == FAILED ? failed() : next(file, from, how == SHORT ? cut(bytes) : bytes);
}

long __write(int file, const void *from, size_t bytes) { return write(file, from, bytes); }

long send(int file, const void *from, size_t bytes, int flags) {
    long (*next)(int, const void *, size_t, int) = dlsym(NEXT, "send");
    enum how how = meets('w');
    return how == FAILED ? failed() : next(file, from, how == SHORT ? cut(bytes) : bytes, flags);
}

/* The caller passes a mode only if the call may make the file. */
int open(const char *path, int flags, ...) {
    int (*next)(const char *, int, ...) = dlsym(NEXT, "open");
    unsigned mode = 0;
    if (flags & CREATE) {
        __builtin_va_list rest;
        __builtin_va_start(rest, flags);
        mode = __builtin_va_arg(rest, unsigned);
        __builtin_va_end(rest);
    }
    return meets('o') == FAILED ? (int)failed() : next(path, flags, mode);
}

int accept4(int file, void *who, void *bytes, int flags) {
    int (*next)(int, void *, void *, int) = dlsym(NEXT, "accept4");
    return meets('a') == FAILED ? (int)failed() : next(file, who, bytes, flags);
}

/* pthread_create returns its error, and doesn't set errno. */
int pthread_create(void *thread, const void *attributes, void *(*body)(void *), void *given) {
    int (*next)(void *, const void *, void *(*)(void *), void *) = dlsym(NEXT, "pthread_create");
    return meets('t') == FAILED ? (int)with : next(thread, attributes, body, given);
}

__attribute__((constructor)) static void begin(void) {
    const char *of = getenv("FAIL");
    counts = shared_with("FAIL_COUNTS", &own, sizeof own);
    at = number("FAIL_AT");
    with = number("FAIL_WITH");
    is_short = number("FAIL_SHORT");
    kind = of ? *of : 0;
}
