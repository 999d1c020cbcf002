// Delays the first lock of the program: it creates a file with the name in LOCK_WAITS, and locks once LOCK_AFTER names
// a file that exists.

#define _GNU_SOURCE
#include <dlfcn.h>
#include <fcntl.h>
#include <stdlib.h>
#include <unistd.h>

// The checks for the file, and the rest between two of them.
enum { CHECKS = 6000, REST_MICROSECONDS = 10000 };

static void wait_once(void) {
    static int has_waited;
    if (has_waited++) {
        return;
    }
    int file = creat(getenv("LOCK_WAITS"), 0600);
    if (file >= 0) {
        close(file);
    }
    for (int checks = 0; checks < CHECKS && access(getenv("LOCK_AFTER"), F_OK) != 0; checks++) {
        usleep(REST_MICROSECONDS);
    }
}

int flock(int file, int how) {
    int (*call)(int, int) = (int (*)(int, int))dlsym(RTLD_NEXT, "flock");
    wait_once();
    return call(file, how);
}
