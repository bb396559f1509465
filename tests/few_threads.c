/* Gives the program that it is preloaded into at most FEW_THREADS threads at once, beside its first: any more is refused, as where a
 * machine or a unit has no room for it. */
#define _GNU_SOURCE
#include <dlfcn.h>
#include <errno.h>
#include <pthread.h>
#include <stdatomic.h>
#include <stdlib.h>

static atomic_int left;

struct start {
    void *(*run)(void *);
    void *with;
};

__attribute__((constructor)) static void begin(void) {
    const char *most = getenv("FEW_THREADS");
    left = most ? atoi(most) : 1 << 20;
}

static void *counted(void *given) {
    struct start start = *(struct start *)given;
    free(given);
    void *told = start.run(start.with);
    atomic_fetch_add(&left, 1);
    return told;
}

int pthread_create(pthread_t *thread, const pthread_attr_t *attributes, void *(*run)(void *), void *with) {
    static int (*next)(pthread_t *, const pthread_attr_t *, void *(*)(void *), void *);
    if (!next) next = dlsym(RTLD_NEXT, "pthread_create");
    if (atomic_fetch_sub(&left, 1) <= 0) {
        atomic_fetch_add(&left, 1);
        return EAGAIN;
    }
    struct start *start = malloc(sizeof *start);
    *start = (struct start){run, with};
    int fault = next(thread, attributes, counted, start);
    if (fault) {
        free(start);
        atomic_fetch_add(&left, 1);
    }
    return fault;
}
