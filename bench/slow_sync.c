// Makes each fsync and fdatasync take SLOW_SYNC microseconds more (0 without it), to measure what a slow disk would do, and counts the
// syncs and the nanoseconds that they took in the file SYNCS_SEEN, two words of 64 bits each. None ends while there is a file
// SYNCS_HELD. It is put before the C library's by LD_PRELOAD; bench/serve.py and bench/beside_rabbitmq.py build it and say where.

#define _GNU_SOURCE
#include <dlfcn.h>
#include <fcntl.h>
#include <stdint.h>
#include <stdlib.h>
#include <sys/mman.h>
#include <time.h>
#include <unistd.h>

static int (*below)(int), (*below_data)(int);
static long microseconds;
static const char *held;
static uint64_t *seen;
static uint64_t unseen[2];

static void begin(void) {
    const char *slow = getenv("SLOW_SYNC"), *path = getenv("SYNCS_SEEN");
    microseconds = slow == NULL ? 0 : strtol(slow, NULL, 10);
    held = getenv("SYNCS_HELD");
    seen = unseen;
    if (path != NULL) {
        int file = open(path, O_RDWR);
        if (file >= 0) {
            void *words = mmap(NULL, sizeof unseen, PROT_READ | PROT_WRITE, MAP_SHARED, file, 0);
            seen = words == MAP_FAILED ? unseen : words;
            close(file);
        }
    }
    below_data = (int (*)(int))dlsym(RTLD_NEXT, "fdatasync");
    below = (int (*)(int))dlsym(RTLD_NEXT, "fsync");
}

static int64_t nanoseconds(void) {
    struct timespec now;
    clock_gettime(CLOCK_MONOTONIC, &now);
    return now.tv_sec * 1000000000 + now.tv_nsec;
}

static int slowly(int (**sync)(int), int file) {
    if (below == NULL) {
        begin();
    }
    struct timespec pause = {microseconds / 1000000, microseconds % 1000000 * 1000};
    int64_t begun = nanoseconds();
    if (microseconds > 0) {
        nanosleep(&pause, NULL);
    }
    while (held != NULL && access(held, F_OK) == 0) {
        nanosleep(&(struct timespec){0, 10000000}, NULL);
    }
    int done = (*sync)(file);
    __atomic_fetch_add(&seen[0], 1, __ATOMIC_RELAXED);
    __atomic_fetch_add(&seen[1], nanoseconds() - begun, __ATOMIC_RELAXED);
    return done;
}

int fsync(int file) {
    return slowly(&below, file);
}

int fdatasync(int file) {
    return slowly(&below_data, file);
}
