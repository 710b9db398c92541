/* A library that is loaded before a program, and slows down the program's clock.

   With SLOW=N, N seconds pass for each second of the program's clock, from the program's start on. So if the program
   waits for a short time, a test can see what happens meanwhile, even on a slow machine. */

#include "preload.h"

extern void *dlsym(void *, const char *);

#define NEXT ((void *)-1l)
#define MONOTONIC 1
#define SECOND 1000000000l

struct time { long seconds, nanoseconds; };

static long begun, times;

static int ask(int clock, struct time *now) {
    int (*next)(int, struct time *) = dlsym(NEXT, "clock_gettime");
    return next(clock, now);
}

int clock_gettime(int clock, struct time *now) {
    int answer = ask(clock, now);
    long passed;
    if (answer == 0 && clock == MONOTONIC && times > 0) {
        passed = (now->seconds * SECOND + now->nanoseconds - begun) / times + begun;
        now->seconds = passed / SECOND;
        now->nanoseconds = passed % SECOND;
    }
    return answer;
}

__attribute__((constructor)) static void begin(void) {
    struct time now = {0, 0};
    ask(MONOTONIC, &now);
    begun = now.seconds * SECOND + now.nanoseconds;
    times = (long)number("SLOW");
}
