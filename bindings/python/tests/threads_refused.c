/* Threads that are refused: loaded before the C library, this starts as many more threads as a test says, and refuses the others,
   as a system does that has too many. */
#define _GNU_SOURCE
#include <dlfcn.h>
#include <errno.h>
#include <pthread.h>

static long granted = -1;
static int answer = EAGAIN;

/* How many threads more may start, -1 are all, and which number of an error the others have. */
void grant_threads(long count, int number) {
    granted = count;
    answer = number;
}

int pthread_create(pthread_t *thread, const pthread_attr_t *attributes, void *(*run)(void *), void *given) {
    int (*next)(pthread_t *, const pthread_attr_t *, void *(*)(void *), void *);
    /* the answer is the number of the error, and errno may have any */
    errno = ENOENT;
    if (granted == 0) return answer;
    if (granted > 0) granted--;
    *(void **)&next = dlsym(RTLD_NEXT, "pthread_create");
    return next(thread, attributes, run, given);
}
