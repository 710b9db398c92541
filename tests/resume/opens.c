/* A library that is loaded before a program, and records which files the program opens.

   With OPENED=FILE, FILE has a line for each file that the program opens: its path, as the program passes it. */

#include "preload.h"

extern void *dlsym(void *, const char *);
extern int snprintf(char *, size_t, const char *, ...);

#define NEXT ((void *)-1l)
#define CREATE 0x40
#define APPEND 0x400
#define ROOM 4096

static int kept = -1;

/* Appends a line with this path to the file, if there is one. Leaves errno unchanged. */
static void keep(const char *path) {
    long (*next)(int, const void *, size_t) = dlsym(NEXT, "write");
    char line[ROOM];
    int error = *__errno_location();
    int count = snprintf(line, sizeof line, "%s\n", path);
    if (kept >= 0 && count > 0 && count < ROOM && next(kept, line, (size_t)count) != count) abort();
    *__errno_location() = error;
}

/* The caller passes a mode only if the call may make the file. */
int open(const char *path, int flags, ...) {
    int (*next)(const char *, int, ...) = dlsym(NEXT, "open");
    unsigned mode = 0;
    int opened;
    if (flags & CREATE) {
        __builtin_va_list rest;
        __builtin_va_start(rest, flags);
        mode = __builtin_va_arg(rest, unsigned);
        __builtin_va_end(rest);
    }
    opened = next(path, flags, mode);
    if (opened >= 0) keep(path);
    return opened;
}

__attribute__((constructor)) static void begin(void) {
    const char *file = getenv("OPENED");
    int (*next)(const char *, int, ...) = dlsym(NEXT, "open");
    if (file) kept = next(file, CREATE | APPEND | 1, 0600);
}
