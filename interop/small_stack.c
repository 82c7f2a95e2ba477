/* Preloaded, gives each thread for which a size of its stack is asked SMALL_STACK octets in place of that. */
#define _GNU_SOURCE
#include <dlfcn.h>
#include <pthread.h>
#include <stdlib.h>

int pthread_attr_setstacksize(pthread_attr_t *attributes, size_t asked)
{
    int (*set)(pthread_attr_t *, size_t) = dlsym(RTLD_NEXT, "pthread_attr_setstacksize");
    const char *size = getenv("SMALL_STACK");
    return set(attributes, size ? strtoul(size, NULL, 10) : asked);
}
