/* A library that is loaded before a program, and records how much of the journal a power cut would leave.

   The journal is the file that was last opened for appending. With POWER_COUNTS=FILE, FILE has two numbers of eight
   bytes: how many of the journal's bytes have reached the device, and how many syncs there were. The first number is
   the size of the journal when it was opened, or at its last successful sync. With POWER_IGNORED=1 each sync does
   nothing, and reports success. With POWER_FAIL_AT=N the Nth sync of the journal fails, as if the device were gone.
   With POWER_FOLDERS=N each sync of a folder fails with the error N. */

#include "preload.h"

extern void *dlsym(void *, const char *);
extern long lseek(int, long, int);

#define NEXT ((void *)-1l)
#define CREATE 0x40
#define APPEND 0x400
#define WRITING 3
#define AT_END 2
#define IO_FAULT 5

static struct { word durable, syncs; } own, *counts = &own;
static word is_ignored, fail_at, folder_error;
/* The descriptors of the journal, and of the file or folder that was last opened only for reading. The program syncs a
   folder directly after opening it. */
static int journal = -1, folder = -1;

/* The caller passes a mode only if the call may make the file. */
int open(const char *path, int flags, ...) {
    int (*next)(const char *, int, ...) = dlsym(NEXT, "open");
    unsigned mode = 0;
    int opened;
    if (flags & CREATE) {
        __builtin_va_list rest;
        __builtin_va_start(rest, flags);
        mode = __builtin_va_arg(rest, unsigned);
        __builtin_va_end(rest);
    }
    opened = next(path, flags, mode);
    if (opened >= 0 && !(flags & WRITING)) folder = opened;
    else if (opened == folder) folder = -1;
    if (opened >= 0 && (flags & APPEND)) {
        journal = opened;
        __atomic_store_n(&counts->durable, (word)lseek(opened, 0, AT_END), __ATOMIC_SEQ_CST);
        lseek(opened, 0, 0);
    }
    return opened;
}

static int synced(int file, const char *name) {
    int (*next)(int) = dlsym(NEXT, name);
    long size;
    if (file == folder && folder_error) {
        *__errno_location() = (int)folder_error;
        return -1;
    }
    if (file != journal) return next(file);
    if (__atomic_add_fetch(&counts->syncs, 1, __ATOMIC_SEQ_CST) == fail_at) {
        *__errno_location() = IO_FAULT;
        return -1;
    }
    if (is_ignored) return 0;
    size = lseek(file, 0, AT_END);
    if (next(file) < 0) return -1;
    __atomic_store_n(&counts->durable, (word)size, __ATOMIC_SEQ_CST);
    return 0;
}

int fdatasync(int file) { return synced(file, "fdatasync"); }

int fsync(int file) { return synced(file, "fsync"); }

__attribute__((constructor)) static void begin(void) {
    counts = shared_with("POWER_COUNTS", &own, sizeof own);
    is_ignored = number("POWER_IGNORED");
    fail_at = number("POWER_FAIL_AT");
    folder_error = number("POWER_FOLDERS");
}
