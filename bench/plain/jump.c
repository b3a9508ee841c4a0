/* Preloaded into a program it makes the wall clock jump: by so many seconds as the first eight octets of the file $JUMPED say at each reading. The
   monotonic clock is left alone. */
#define _GNU_SOURCE
#include <dlfcn.h>
#include <fcntl.h>
#include <stdint.h>
#include <stdlib.h>
#include <sys/mman.h>
#include <sys/time.h>
#include <time.h>
#include <unistd.h>

static int64_t jumped(void) {
    static volatile int64_t *shown;
    if (!shown) {
        int file = open(getenv("JUMPED"), O_RDWR);
        shown = mmap(0, 16, PROT_READ | PROT_WRITE, MAP_SHARED, file, 0);
        close(file);
    }
    __atomic_fetch_add((int64_t *)&shown[1], 1, __ATOMIC_RELAXED);
    return shown[0];
}

int clock_gettime(clockid_t which, struct timespec *at) {
    static int (*real)(clockid_t, struct timespec *);
    if (!real)
        real = (int (*)(clockid_t, struct timespec *))dlsym(RTLD_NEXT, "clock_gettime");
    int status = real(which, at);
    if (!status && which == CLOCK_REALTIME)
        at->tv_sec += jumped();
    return status;
}

int gettimeofday(struct timeval *at, void *zone) {
    (void)zone;
    struct timespec now;
    if (clock_gettime(CLOCK_REALTIME, &now))
        return -1;
    at->tv_sec = now.tv_sec;
    at->tv_usec = now.tv_nsec / 1000;
    return 0;
}

time_t time(time_t *at) {
    struct timespec now;
    clock_gettime(CLOCK_REALTIME, &now);
    if (at)
        *at = now.tv_sec;
    return now.tv_sec;
}
