// Refuses memory beyond a ceiling. CEILING_FILE names a file of eight bytes. Once it has a number, the program under
// test may use this many bytes more than it has at its next request, and no more.

#include <fcntl.h>
#include <malloc.h>
#include <stdint.h>
#include <sys/mman.h>
#include <unistd.h>

#include "memory.h"

// A further internal name of the C library.
extern void __libc_free(void *block);

// The present number of bytes, the greatest allowed number, and where the test says how many more are allowed.
static int64_t held;
static int64_t most;
static volatile int64_t *more;

__attribute__((constructor)) static void begin(void) {
    const char *name = getenv("CEILING_FILE");
    int file = name == NULL ? -1 : open(name, O_RDWR);
    void *shared = file < 0 ? MAP_FAILED : mmap(NULL, 8, PROT_READ | PROT_WRITE, MAP_SHARED, file, 0);
    if (shared != MAP_FAILED) {
        more = shared;
    }
    if (file >= 0) {
        close(file);
    }
}

static int64_t size_of(void *block) {
    return block == NULL ? 0 : (int64_t)malloc_usable_size(block);
}

// Returns whether this many bytes more are too many.
static int is_refused(size_t size) {
    if (more == NULL || *more == 0) {
        return 0;
    }
    int64_t now = __atomic_load_n(&held, __ATOMIC_SEQ_CST), unset = 0;
    __atomic_compare_exchange_n(&most, &unset, now + *more, 0, __ATOMIC_SEQ_CST, __ATOMIC_SEQ_CST);
    if (now + (int64_t)size <= __atomic_load_n(&most, __ATOMIC_SEQ_CST)) {
        return 0;
    }
    errno = ENOMEM;
    return 1;
}

// Counts the bytes of an allocated block.
static void *given(void *block) {
    __atomic_add_fetch(&held, size_of(block), __ATOMIC_SEQ_CST);
    return block;
}

void *malloc(size_t size) {
    return is_refused(size) ? NULL : given(__libc_malloc(size));
}

void *calloc(size_t count, size_t size) {
    return is_refused(count * size) ? NULL : given(__libc_calloc(count, size));
}

void *realloc(void *block, size_t size) {
    int64_t had = size_of(block);
    if (size > (size_t)had && is_refused(size - (size_t)had)) {
        return NULL;
    }
    void *found = __libc_realloc(block, size);
    if (found != NULL) {
        __atomic_sub_fetch(&held, had, __ATOMIC_SEQ_CST);
        given(found);
    }
    return found;
}

void *memalign(size_t alignment, size_t size) {
    return is_refused(size) ? NULL : given(__libc_memalign(alignment, size));
}

void free(void *block) {
    __atomic_sub_fetch(&held, size_of(block), __ATOMIC_SEQ_CST);
    __libc_free(block);
}
