// The part that the libraries of this folder share: they count calls of the program that they are preloaded into, and
// fail some.
//
// FAILED_CALL is the number of the call that fails, counted from 1, and FAILED_FROM that of the first call from which
// all fail; a number of 0, or a missing one, fails no call. ENDING_CALL is the number of the call before which the
// program is killed. CALLS_FILE names a file that gets, as the program ends, the
// number of calls, and the kind of the last failed one, or `none`.

#include <errno.h>
#include <signal.h>
#include <stdio.h>
#include <stdlib.h>
#include <sys/syscall.h>
#include <unistd.h>

static unsigned long failed_call;
static unsigned long failed_from;
static unsigned long ending_call;
static unsigned long calls;
static const char *failed_kind = "none";
static int is_counting;

static unsigned long number_in(const char *name) {
    const char *text = getenv(name);
    return text == NULL ? 0 : strtoul(text, NULL, 10);
}

// Work of the loader before this is not the program's.
__attribute__((constructor)) static void begin(void) {
    failed_call = number_in("FAILED_CALL");
    failed_from = number_in("FAILED_FROM");
    ending_call = number_in("ENDING_CALL");
    is_counting = 1;
}

__attribute__((destructor)) static void end(void) {
    is_counting = 0;
    const char *name = getenv("CALLS_FILE");
    FILE *file = name == NULL ? NULL : fopen(name, "w");
    if (file != NULL) {
        fprintf(file, "%lu %s\n", calls, failed_kind);
        fclose(file);
    }
}

// A program with threads ends by this, without the work at a program's end, so that work is done here.
void _exit(int status) {
    end();
    syscall(SYS_exit_group, status);
    __builtin_unreachable();
}

// Counts a call, and returns whether it fails; then this is its error.
static int is_failed(const char *kind, int error) {
    if (!is_counting) {
        return 0;
    }
    unsigned long call = __atomic_add_fetch(&calls, 1, __ATOMIC_SEQ_CST);
    if (call == ending_call) {
        kill(getpid(), SIGKILL);
    }
    if (call != failed_call && (failed_from == 0 || call < failed_from)) {
        return 0;
    }
    failed_kind = kind;
    errno = error;
    return 1;
}
