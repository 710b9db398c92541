/* The part that all preloaded libraries have in common: the functions that they call, numbers from the environment, and
   counts in a file. */

typedef unsigned long size_t;
typedef unsigned long word;

extern char *getenv(const char *);
extern int open(const char *, int, ...);
extern int close(int);
extern void *mmap(void *, size_t, int, int, int, long);
extern void abort(void);
extern int *__errno_location(void);

#define READ_WRITE 2
#define READ_AND_WRITE 3
#define SHARED 1

static inline word number(const char *name) {
    const char *text = getenv(name);
    word value = 0;
    for (; text && *text >= '0' && *text <= '9'; text++) value = 10 * value + (word)(*text - '0');
    return value;
}

/* Returns the bytes of the file that an environment variable names, in memory that is shared with readers of the file.
   If there is no such variable, returns `own`. */
static inline void *shared_with(const char *name, void *own, size_t bytes) {
    const char *file = getenv(name);
    int opened;
    void *shared;
    if (!file) return own;
    opened = open(file, READ_WRITE);
    shared = mmap(0, bytes, READ_AND_WRITE, SHARED, opened, 0);
    if (opened < 0 || shared == (void *)-1) abort();
    close(opened);
    return shared;
}
