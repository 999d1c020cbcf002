// Fails the thread starts of the program that it is preloaded into (counted.h).

#define _GNU_SOURCE
#include <dlfcn.h>
#include <pthread.h>

#include "counted.h"

typedef int creating(pthread_t *, const pthread_attr_t *, void *(*)(void *), void *);

int pthread_create(pthread_t *thread, const pthread_attr_t *attributes, void *(*start)(void *), void *given) {
    creating *real_create = (creating *)dlsym(RTLD_NEXT, "pthread_create");
    return is_failed("thread", EAGAIN) ? EAGAIN : real_create(thread, attributes, start, given);
}
