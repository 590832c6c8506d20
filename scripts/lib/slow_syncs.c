// Has each sync of a file take longer, in a program that it is preloaded into: fsync and fdatasync
// wait for so many microseconds first as the environment variable SYNC_DELAY says. So it is known
// what a command costs on a disk whose syncs take that long.
//
//     cc -shared -fPIC -O2 -o slow_syncs.so slow_syncs.c
//     SYNC_DELAY=1000 LD_PRELOAD=./slow_syncs.so PROGRAM

#define _GNU_SOURCE
#include <dlfcn.h>
#include <errno.h>
#include <stdlib.h>
#include <time.h>
#include <unistd.h>

static void wait_first(void) {
    const char *text = getenv("SYNC_DELAY");
    long left = text ? atol(text) : 0;
    struct timespec span = {left / 1000000, left % 1000000 * 1000};
    while (nanosleep(&span, &span) && errno == EINTR) {
    }
}

static int late(const char *name, int file) {
    int (*call)(int) = (int (*)(int))dlsym(RTLD_NEXT, name);
    wait_first();
    return call(file);
}

int fsync(int file) { return late("fsync", file); }

int fdatasync(int file) { return late("fdatasync", file); }
