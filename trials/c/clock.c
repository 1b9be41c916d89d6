/* The bus of `pmhost torture` below a program, with a clock that stands but for waits. As the program ends, it prints for how many
 * milliseconds was waited if WAITED is there, and how many buses it left open if CLOSES is. */
#include "../../python/src/pmhost/torture/preload.c"
#include <stdio.h>
#include <time.h>

static long long waited; /* nanoseconds */

int clock_gettime(clockid_t clock, struct timespec *now) {
    if (clock != CLOCK_MONOTONIC)
        return NEXT("clock_gettime", clockid_t, struct timespec *)(clock, now);
    now->tv_sec = 1000 + waited / 1000000000;
    now->tv_nsec = waited % 1000000000;
    return 0;
}

int clock_nanosleep(clockid_t clock, int flags, const struct timespec *wanted, struct timespec *left) {
    struct timespec now = {0, 0};
    (void)left;
    if (flags == TIMER_ABSTIME)
        clock_gettime(clock, &now);
    waited += (wanted->tv_sec - now.tv_sec) * 1000000000LL + wanted->tv_nsec - now.tv_nsec;
    return 0;
}

int nanosleep(const struct timespec *wanted, struct timespec *left) { return clock_nanosleep(CLOCK_MONOTONIC, 0, wanted, left); }

__attribute__((destructor)) static void say(void) {
    int open_buses = 0;
    for (int file = 0; file < FILES; file++)
        open_buses += is_bus(file);
    if (getenv("WAITED"))
        printf("waited %lld ms\n", waited / 1000000);
    if (getenv("CLOSES") && open_buses > 0)
        printf("%d bus left open\n", open_buses);
}
