// Fails the first ACCEPT_TIMES calls of `accept` of the program that it is preloaded into, with the error ACCEPT_ERROR.

#define _GNU_SOURCE
#include <dlfcn.h>
#include <errno.h>
#include <stdlib.h>
#include <sys/socket.h>

typedef int accepting(int, struct sockaddr *, socklen_t *, int);

static long number_in(const char *name) {
    const char *text = getenv(name);
    return text == NULL ? 0 : strtol(text, NULL, 10);
}

int accept4(int listener, struct sockaddr *address, socklen_t *length, int flags) {
    static long calls;
    accepting *real_accept = (accepting *)dlsym(RTLD_NEXT, "accept4");
    calls += 1;
    if (calls <= number_in("ACCEPT_TIMES")) {
        errno = (int)number_in("ACCEPT_ERROR");
        return -1;
    }
    return real_accept(listener, address, length, flags);
}
