// Makes an hour short for reads: a receive timeout of an hour becomes one of HOUR_MILLISECONDS.

#define _GNU_SOURCE
#include <dlfcn.h>
#include <stdlib.h>
#include <sys/socket.h>
#include <sys/time.h>

typedef int setting(int, int, int, const void *, socklen_t);

int setsockopt(int socket, int level, int name, const void *value, socklen_t length) {
    setting *real_setsockopt = (setting *)dlsym(RTLD_NEXT, "setsockopt");
    if (level == SOL_SOCKET && name == SO_RCVTIMEO && ((const struct timeval *)value)->tv_sec == 3600) {
        long milliseconds = strtol(getenv("HOUR_MILLISECONDS"), NULL, 10);
        struct timeval shorter = {milliseconds / 1000, milliseconds % 1000 * 1000};
        return real_setsockopt(socket, level, name, &shorter, sizeof shorter);
    }
    return real_setsockopt(socket, level, name, value, length);
}
