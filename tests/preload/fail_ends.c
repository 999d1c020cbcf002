// Fails calls by which the program that it is preloaded into reads or writes: `read`, `write`, `recv` and `send`
// (counted.h). The kind of such a call is `read` or `write`. With MOVED_BYTES=1 each call moves at most one byte. After
// a failed write the thread shuts its next socket a moment late, so that texts of other threads in between are seen.

#define _GNU_SOURCE
#include <dlfcn.h>
#include <sys/socket.h>
#include <sys/types.h>

#include "counted.h"

typedef ssize_t reading(int, void *, size_t);
typedef ssize_t writing(int, const void *, size_t);
typedef ssize_t receiving(int, void *, size_t, int);
typedef ssize_t sending(int, const void *, size_t, int);
typedef int shutting(int, int);

static reading *real_read;
static writing *real_write;
static receiving *real_recv;
static sending *real_send;
static shutting *real_shutdown;

// In microseconds.
static const useconds_t LATE = 20000;

static int is_byte_by_byte;
static __thread int has_failed_to_write;

// May run before the constructors, where another library's start reads or writes.
static void find(void) {
    real_read = (reading *)dlsym(RTLD_NEXT, "read");
    real_write = (writing *)dlsym(RTLD_NEXT, "write");
    real_recv = (receiving *)dlsym(RTLD_NEXT, "recv");
    real_send = (sending *)dlsym(RTLD_NEXT, "send");
    real_shutdown = (shutting *)dlsym(RTLD_NEXT, "shutdown");
}

__attribute__((constructor)) static void begin_here(void) {
    find();
    is_byte_by_byte = number_in("MOVED_BYTES") == 1;
}

static size_t moved(size_t count) {
    return is_byte_by_byte && count > 1 ? 1 : count;
}

ssize_t read(int file, void *bytes, size_t count) {
    if (real_read == NULL) {
        find();
    }
    return is_failed("read", EIO) ? -1 : real_read(file, bytes, moved(count));
}

ssize_t write(int file, const void *bytes, size_t count) {
    if (real_write == NULL) {
        find();
    }
    return is_failed("write", EIO) ? -1 : real_write(file, bytes, moved(count));
}

// The C library's other name for it.
ssize_t __write(int file, const void *bytes, size_t count) {
    return write(file, bytes, count);
}

ssize_t recv(int file, void *bytes, size_t count, int flags) {
    if (real_recv == NULL) {
        find();
    }
    return is_failed("read", EIO) ? -1 : real_recv(file, bytes, moved(count), flags);
}

ssize_t send(int file, const void *bytes, size_t count, int flags) {
    if (real_send == NULL) {
        find();
    }
    if (is_failed("write", EIO)) {
        has_failed_to_write = 1;
        return -1;
    }
    return real_send(file, bytes, moved(count), flags);
}

int shutdown(int file, int how) {
    if (real_shutdown == NULL) {
        find();
    }
    if (has_failed_to_write) {
        has_failed_to_write = 0;
        usleep(LATE);
    }
    return real_shutdown(file, how);
}
