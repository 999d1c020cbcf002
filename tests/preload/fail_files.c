// Fails calls for files of the program that it is preloaded into: `open`, `flock`, `fchmod`, `unlink`, `rename`,
// `fsync`, `fdatasync`, and `write` to a file (counted.h). The kind of such a call is its name.

#define _GNU_SOURCE
#include <dlfcn.h>
#include <fcntl.h>
#include <stdarg.h>
#include <sys/stat.h>
#include <sys/types.h>

#include "counted.h"

static int is_file(int file) {
    struct stat about;
    return fstat(file, &about) == 0 && S_ISREG(about.st_mode);
}

static int opened(const char *name, const char *path, int flags, mode_t mode) {
    int (*call)(const char *, int, ...) = (int (*)(const char *, int, ...))dlsym(RTLD_NEXT, name);
    return is_failed("open", EIO) ? -1 : call(path, flags, mode);
}

int open(const char *path, int flags, ...) {
    va_list rest;
    va_start(rest, flags);
    mode_t mode = flags & (O_CREAT | O_TMPFILE) ? va_arg(rest, mode_t) : 0;
    va_end(rest);
    return opened("open", path, flags, mode);
}

int open64(const char *path, int flags, ...) {
    va_list rest;
    va_start(rest, flags);
    mode_t mode = flags & (O_CREAT | O_TMPFILE) ? va_arg(rest, mode_t) : 0;
    va_end(rest);
    return opened("open64", path, flags, mode);
}

int flock(int file, int how) {
    int (*call)(int, int) = (int (*)(int, int))dlsym(RTLD_NEXT, "flock");
    return is_failed("flock", EIO) ? -1 : call(file, how);
}

int fchmod(int file, mode_t mode) {
    int (*call)(int, mode_t) = (int (*)(int, mode_t))dlsym(RTLD_NEXT, "fchmod");
    return is_failed("fchmod", EIO) ? -1 : call(file, mode);
}

int unlink(const char *path) {
    int (*call)(const char *) = (int (*)(const char *))dlsym(RTLD_NEXT, "unlink");
    return is_failed("unlink", EIO) ? -1 : call(path);
}

int rename(const char *from, const char *to) {
    int (*call)(const char *, const char *) = (int (*)(const char *, const char *))dlsym(RTLD_NEXT, "rename");
    return is_failed("rename", EIO) ? -1 : call(from, to);
}

int fsync(int file) {
    int (*call)(int) = (int (*)(int))dlsym(RTLD_NEXT, "fsync");
    return is_failed("fsync", EIO) ? -1 : call(file);
}

int fdatasync(int file) {
    int (*call)(int) = (int (*)(int))dlsym(RTLD_NEXT, "fdatasync");
    return is_failed("fdatasync", EIO) ? -1 : call(file);
}

ssize_t write(int file, const void *bytes, size_t count) {
    ssize_t (*call)(int, const void *, size_t) = (ssize_t (*)(int, const void *, size_t))dlsym(RTLD_NEXT, "write");
    return is_file(file) && file > 2 && is_failed("write", ENOSPC) ? -1 : call(file, bytes, count);
}
