/* The clock has its moment once, and is a hundred seconds ahead after that. Put before the C library. */
#define _GNU_SOURCE
#include <dlfcn.h>
#include <time.h>

int clock_gettime(clockid_t clock, struct timespec *at) {
    int (*theirs)(clockid_t, struct timespec *) =
        (int (*)(clockid_t, struct timespec *))dlsym(RTLD_NEXT, "clock_gettime");
    static int is_read;
    int ended = theirs(clock, at);
    if (ended == 0 && clock == CLOCK_REALTIME) {
        at->tv_sec += is_read ? 100 : 0;
        is_read = 1;
    }
    return ended;
}
