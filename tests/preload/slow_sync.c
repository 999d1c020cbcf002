// Delays each fdatasync of the program that it is preloaded into by SYNC_MICROSECONDS. By default the kernel may end a
// sleep 50 us late.

#define _GNU_SOURCE
#include <dlfcn.h>
#include <stdlib.h>
#include <sys/prctl.h>
#include <time.h>

int fdatasync(int file) {
    int (*real_sync)(int) = (int (*)(int))dlsym(RTLD_NEXT, "fdatasync");
    const char *text = getenv("SYNC_MICROSECONDS");
    long more = text == NULL ? 0 : strtol(text, NULL, 10);
    struct timespec rest = {more / 1000000, more % 1000000 * 1000};
    int status = real_sync(file);
    prctl(PR_SET_TIMERSLACK, 1UL);
    nanosleep(&rest, NULL);
    return status;
}
