/* Preloaded, writes behind the file STACK_TOLD, when a thread ends, how many octets of its stack were ever used. */
#define _GNU_SOURCE
#include <dlfcn.h>
#include <fcntl.h>
#include <pthread.h>
#include <stdint.h>
#include <stdio.h>
#include <stdlib.h>
#include <unistd.h>

#define UNUSED 0xA5C3A5C3A5C3A5C3u
/* No more of a stack is looked at. */
#define MOST (1u << 20)

struct start {
    void *(*run)(void *);
    void *with;
};

static void *painted(void *given)
{
    struct start start = *(struct start *)given;
    free(given);
    pthread_attr_t attributes;
    void *low;
    size_t size;
    pthread_getattr_np(pthread_self(), &attributes);
    pthread_attr_getstack(&attributes, &low, &size);
    pthread_attr_destroy(&attributes);
    char *top = (char *)low + size;
    volatile uint64_t *end = (volatile uint64_t *)(size > MOST ? top - MOST : low);
    /* what this function and no other has is left alone */
    for (volatile uint64_t *at = end; (char *)at < (char *)__builtin_frame_address(0) - 1024; at++)
        *at = UNUSED;
    void *result = start.run(start.with);
    while (*end == UNUSED)
        end++;
    int file = open(getenv("STACK_TOLD"), O_WRONLY | O_APPEND);
    if (dprintf(file, "%td\n", top - (char *)end) < 0)
        abort();
    close(file);
    return result;
}

int pthread_create(pthread_t *thread, const pthread_attr_t *attributes, void *(*run)(void *), void *with)
{
    int (*create)(pthread_t *, const pthread_attr_t *, void *(*)(void *), void *) = dlsym(RTLD_NEXT, "pthread_create");
    struct start *start = malloc(sizeof *start);
    *start = (struct start){run, with};
    return create(thread, attributes, painted, start);
}
