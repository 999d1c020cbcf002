// Treats a file as Linux does if it can't write bytes back: the sync returns the fault once, the bytes stay readable,
// and no later sync writes them. So a power failure loses them.
//
// FAILED_SYNC is the number of the `fdatasync` that fails, counted from 1; without it no sync fails. PAGES_NOTE names a
// file that gets a line for each relevant call, so that a harness knows what a power failure leaves:
//
//     made INODE              an empty plain file was opened, which may be new
//     write INODE FROM TO     these bytes of it were written
//     sync INODE              all its written bytes are on the disk, except those lost before
//     lose INODE              its written and unsynced bytes never get there
//     name INODE              a rename gave it its name
//     folder                  the names in a folder are on the disk
#define _GNU_SOURCE
#include <dlfcn.h>
#include <errno.h>
#include <fcntl.h>
#include <stdarg.h>
#include <stdio.h>
#include <stdlib.h>
#include <string.h>
#include <sys/stat.h>
#include <unistd.h>

static unsigned long syncs;

static void note(const char *text) {
    int (*call)(const char *, int, ...) = (int (*)(const char *, int, ...))dlsym(RTLD_NEXT, "open");
    ssize_t (*put)(int, const void *, size_t) = (ssize_t (*)(int, const void *, size_t))dlsym(RTLD_NEXT, "write");
    const char *path = getenv("PAGES_NOTE");
    int file = path == NULL ? -1 : call(path, O_WRONLY | O_APPEND | O_CREAT | O_CLOEXEC, 0600);
    if (file < 0 || put(file, text, strlen(text)) != (ssize_t)strlen(text)) {
        abort();
    }
    close(file);
}

static void note_of(const char *word, const struct stat *about) {
    char text[64];
    snprintf(text, sizeof text, "%s %llu\n", word, (unsigned long long)about->st_ino);
    note(text);
}

static int opened(const char *name, const char *path, int flags, mode_t mode) {
    int (*call)(const char *, int, ...) = (int (*)(const char *, int, ...))dlsym(RTLD_NEXT, name);
    int file = call(path, flags, mode);
    struct stat about;
    if (file >= 0 && (flags & O_CREAT) && fstat(file, &about) == 0 && S_ISREG(about.st_mode) && about.st_size == 0) {
        note_of("made", &about);
    }
    return file;
}

int open(const char *path, int flags, ...) {
    va_list rest;
    va_start(rest, flags);
    mode_t mode = flags & (O_CREAT | O_TMPFILE) ? va_arg(rest, mode_t) : 0;
    va_end(rest);
    return opened("open", path, flags, mode);
}

int open64(const char *path, int flags, ...) {
    va_list rest;
    va_start(rest, flags);
    mode_t mode = flags & (O_CREAT | O_TMPFILE) ? va_arg(rest, mode_t) : 0;
    va_end(rest);
    return opened("open64", path, flags, mode);
}

ssize_t write(int file, const void *bytes, size_t count) {
    ssize_t (*call)(int, const void *, size_t) = (ssize_t (*)(int, const void *, size_t))dlsym(RTLD_NEXT, "write");
    ssize_t result = call(file, bytes, count);
    struct stat about;
    if (result > 0 && file > 2 && fstat(file, &about) == 0 && S_ISREG(about.st_mode)) {
        char text[128];
        unsigned long long end = (unsigned long long)lseek(file, 0, SEEK_CUR);
        unsigned long long inode = (unsigned long long)about.st_ino;
        snprintf(text, sizeof text, "write %llu %llu %llu\n", inode, end - (unsigned long long)result, end);
        note(text);
    }
    return result;
}

static int synced(const char *name, int file, int is_failed) {
    int (*call)(int) = (int (*)(int))dlsym(RTLD_NEXT, name);
    struct stat about;
    int is_known = fstat(file, &about) == 0;
    if (is_failed && is_known && S_ISREG(about.st_mode)) {
        note_of("lose", &about);
        errno = EIO;
        return -1;
    }
    int result = call(file);
    if (result == 0 && is_known && S_ISREG(about.st_mode)) {
        note_of("sync", &about);
    } else if (result == 0 && is_known && S_ISDIR(about.st_mode)) {
        note("folder\n");
    }
    return result;
}

int fdatasync(int file) {
    const char *failed = getenv("FAILED_SYNC");
    unsigned long number = __atomic_add_fetch(&syncs, 1, __ATOMIC_SEQ_CST);
    return synced("fdatasync", file, failed != NULL && strtoul(failed, NULL, 10) == number);
}

int fsync(int file) {
    return synced("fsync", file, 0);
}

int rename(const char *from, const char *to) {
    int (*call)(const char *, const char *) = (int (*)(const char *, const char *))dlsym(RTLD_NEXT, "rename");
    int result = call(from, to);
    struct stat about;
    if (result == 0 && stat(to, &about) == 0) {
        note_of("name", &about);
    }
    return result;
}
