/* Preloaded into a program it makes the disk slow: each write to a file, and each wait for one, takes the milliseconds of $SLOW more. Sockets and
   pipes are left alone. */
#define _GNU_SOURCE
#include <dlfcn.h>
#include <stdlib.h>
#include <sys/stat.h>
#include <sys/types.h>
#include <time.h>
#include <unistd.h>

static void rest(int file) {
    struct stat about;
    if (fstat(file, &about) || !S_ISREG(about.st_mode))
        return;
    long milliseconds = atol(getenv("SLOW"));
    struct timespec pause = {milliseconds / 1000, milliseconds % 1000 * 1000000};
    nanosleep(&pause, 0);
}

ssize_t write(int file, const void *octets, size_t count) {
    static ssize_t (*real)(int, const void *, size_t);
    if (!real)
        real = (ssize_t (*)(int, const void *, size_t))dlsym(RTLD_NEXT, "write");
    rest(file);
    return real(file, octets, count);
}

int fsync(int file) {
    static int (*real)(int);
    if (!real)
        real = (int (*)(int))dlsym(RTLD_NEXT, "fsync");
    rest(file);
    return real(file);
}

int fdatasync(int file) {
    static int (*real)(int);
    if (!real)
        real = (int (*)(int))dlsym(RTLD_NEXT, "fdatasync");
    rest(file);
    return real(file);
}
