/* A library that is loaded before a program, refuses requests for memory, and counts them.

   REFUSE=N refuses the Nth request of the process, and REFUSE_FROM=N each request from the Nth on. With
   REFUSE_COUNTS=FILE, FILE has two numbers of eight bytes: how many requests were made, and how many were refused.

   A test can control the library from inside the program, by requests of more bytes than any machine has. After the
   request ARM + N, the Nth further request is refused. After FROM + N each one from the Nth on is refused, and after
   ARM + 0 none. These control requests themselves are refused, and the counts begin again. The request MADE + N is
   granted if and only if N requests were made since then, and MET + N if and only if N were refused. No control
   request is counted. */

#include "preload.h"

extern void *__libc_malloc(size_t);
extern void *__libc_calloc(size_t, size_t);
extern void *__libc_realloc(void *, size_t);

#define NO_MEMORY 12
#define KIND(bytes) ((bytes) >> 56)
#define NUMBER(bytes) ((bytes) & 0xffffffff)

enum { ARM = 0x11, FROM = 0x12, MADE = 0x13, MET = 0x14 };

struct counts { word made, refused; };
static struct counts own, *counts = &own;
static word at, from;

static word count(word *of) { return __atomic_add_fetch(of, 1, __ATOMIC_SEQ_CST); }
static word read_of(word *of) { return __atomic_load_n(of, __ATOMIC_SEQ_CST); }
static void set(word *of, word to) { __atomic_store_n(of, to, __ATOMIC_SEQ_CST); }

static void arm(word nth, word since) {
    set(&at, 0);
    set(&from, 0);
    set(&counts->made, 0);
    set(&counts->refused, 0);
    set(&at, nth);
    set(&from, since);
}

/* Counts a request, unless it is a control request. Returns whether it is refused. */
static int refuses(size_t bytes) {
    word made, since;
    switch (KIND(bytes)) {
    case ARM: arm(NUMBER(bytes), 0); return 1;
    case FROM: arm(0, NUMBER(bytes)); return 1;
    }
    made = count(&counts->made);
    since = read_of(&from);
    if (made != read_of(&at) && (since == 0 || made < since)) return 0;
    count(&counts->refused);
    *__errno_location() = NO_MEMORY;
    return 1;
}

void *malloc(size_t bytes) {
    if (KIND(bytes) == MADE) return NUMBER(bytes) == read_of(&counts->made) ? __libc_malloc(1) : 0;
    if (KIND(bytes) == MET) return NUMBER(bytes) == read_of(&counts->refused) ? __libc_malloc(1) : 0;
    return refuses(bytes) ? 0 : __libc_malloc(bytes);
}

void *calloc(size_t many, size_t bytes) { return refuses(1) ? 0 : __libc_calloc(many, bytes); }

void *realloc(void *old, size_t bytes) { return refuses(bytes) ? 0 : __libc_realloc(old, bytes); }

__attribute__((constructor)) static void begin(void) {
    counts = shared_with("REFUSE_COUNTS", &own, sizeof own);
    arm(number("REFUSE"), number("REFUSE_FROM"));
}
