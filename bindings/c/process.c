/* Which process this is. */
#include "process.h"

#include <pthread.h>
#include <stdatomic.h>
#include <unistd.h>

/* How many forks this process comes from since the library was loaded. */
static _Atomic uint32_t forks;

static void count_fork(void) { atomic_fetch_add_explicit(&forks, 1, memory_order_relaxed); }

void cvl_watch_forks(void) { (void)pthread_atfork(NULL, NULL, count_fork); }

uint64_t cvl_process(void) {
    const uint64_t counted = atomic_load_explicit(&forks, memory_order_relaxed) & 0xffff;
    return (uint64_t)(uint32_t)getpid() << 32 | counted << CVL_PROCESS_FROM;
}
