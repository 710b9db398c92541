/* A library that is loaded before a program, and records its changes of files and folders, and its syncs.

   With CHANGES=FILE, FILE has a line for each such call. It is `changed PATH` after a file was written or shortened, or
   after a name was added to a folder or removed there. It is `synced PATH` before a file or folder is synced, followed
   by another `changed PATH` if the sync fails. Files that the program didn't open itself, such as its output, have no
   lines. */

#include "preload.h"

extern void *dlsym(void *, const char *);
extern long readlink(const char *, char *, size_t);
extern int access(const char *, int);
extern int snprintf(char *, size_t, const char *, ...);
extern char *strrchr(const char *, int);

#define NEXT ((void *)-1l)
#define CREATE 0x40
#define APPEND 0x400
#define WRITING 3
#define FILES 4096
#define ROOM 4096

static char is_written[FILES];
static int kept = -1;

/* Appends a line to the file, if there is one. Leaves errno unchanged. */
static void keep(const char *what, const char *path, long length) {
    long (*next)(int, const void *, size_t) = dlsym(NEXT, "write");
    char line[ROOM];
    int error = *__errno_location();
    int count = snprintf(line, sizeof line, "%s %.*s\n", what, (int)length, path);
    if (kept >= 0 && count > 0 && count < ROOM && next(kept, line, (size_t)count) != count) abort();
    *__errno_location() = error;
}

static void keep_file(const char *what, int file) {
    char name[64], path[ROOM];
    long length;
    snprintf(name, sizeof name, "/proc/self/fd/%d", file);
    length = readlink(name, path, sizeof path);
    if (length > 0) keep(what, path, length);
}

/* If a call succeeded, records that a name was added to the folder of this path, or removed there. Returns the call's
   result. */
static int named(int answer, const char *path) {
    const char *end = strrchr(path, '/');
    if (answer == 0 && end) keep("changed", path, end - path);
    return answer;
}

/* The caller passes a mode only if the call may make the file. */
int open(const char *path, int flags, ...) {
    int (*next)(const char *, int, ...) = dlsym(NEXT, "open");
    unsigned mode = 0;
    int opened, is_new = (flags & CREATE) && access(path, 0) != 0;
    if (flags & CREATE) {
        __builtin_va_list rest;
        __builtin_va_start(rest, flags);
        mode = __builtin_va_arg(rest, unsigned);
        __builtin_va_end(rest);
    }
    opened = next(path, flags, mode);
    if (opened >= 0 && opened < FILES) is_written[opened] = (flags & WRITING) != 0;
    if (opened >= 0 && is_new) named(0, path);
    return opened;
}

int close(int file) {
    int (*next)(int) = dlsym(NEXT, "close");
    if (file >= 0 && file < FILES) is_written[file] = 0;
    return next(file);
}

long write(int file, const void *from, size_t bytes) {
    long (*next)(int, const void *, size_t) = dlsym(NEXT, "write");
    long done = next(file, from, bytes);
    if (done > 0 && file >= 0 && file < FILES && is_written[file]) keep_file("changed", file);
    return done;
}

int ftruncate(int file, long size) {
    int (*next)(int, long) = dlsym(NEXT, "ftruncate");
    int answer = next(file, size);
    if (answer == 0) keep_file("changed", file);
    return answer;
}

static int synced(int file, const char *name) {
    int (*next)(int) = dlsym(NEXT, name);
    int answer;
    keep_file("synced", file);
    answer = next(file);
    if (answer != 0) keep_file("changed", file);
    return answer;
}

int fdatasync(int file) { return synced(file, "fdatasync"); }

int fsync(int file) { return synced(file, "fsync"); }

int link(const char *from, const char *to) {
    int (*next)(const char *, const char *) = dlsym(NEXT, "link");
    return named(next(from, to), to);
}

int rename(const char *from, const char *to) {
    int (*next)(const char *, const char *) = dlsym(NEXT, "rename");
    return named(named(next(from, to), to), from);
}

int unlink(const char *path) {
    int (*next)(const char *) = dlsym(NEXT, "unlink");
    return named(next(path), path);
}

int mkdir(const char *path, unsigned mode) {
    int (*next)(const char *, unsigned) = dlsym(NEXT, "mkdir");
    return named(next(path, mode), path);
}

int rmdir(const char *path) {
    int (*next)(const char *) = dlsym(NEXT, "rmdir");
    return named(next(path), path);
}

__attribute__((constructor)) static void begin(void) {
    const char *file = getenv("CHANGES");
    int (*next)(const char *, int, ...) = dlsym(NEXT, "open");
    if (file) kept = next(file, CREATE | APPEND | 1, 0600);
}
