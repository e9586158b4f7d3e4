/* system.c: what the C asks of the system, as one thread sees it: memory and threads may be refused,
    and no other thread is at work. */
#include "given.h"

#include <errno.h>
#include <pthread.h>
#include <signal.h>
#include <time.h>
#include <unistd.h>

#undef malloc

void *given_malloc(size_t size) { return is_refused() ? NULL : malloc(size); }

/* The number of the process, and what the variable of the environment says. */
pid_t process = 7;
char *variable;

pid_t getpid(void) { return process; }

/* What the child of a fork runs. */
static void (*in_child)(void);

int pthread_atfork(void (*prepare)(void), void (*parent)(void), void (*child)(void)) {
    (void)prepare, (void)parent;
    in_child = child;
    return 0;
}

void begin_child(void) { in_child(); }

char *getenv(const char *name) {
    (void)name;
    return variable;
}

int nanosleep(const struct timespec *time, struct timespec *left) {
    (void)time, (void)left;
    return 0;
}

int clock_gettime(clockid_t clock, struct timespec *time) {
    (void)clock;
    time->tv_sec = Frama_C_int_interval(0, INT32_MAX - 1);
    time->tv_nsec = 0;
    return 0;
}

/* The thread that was started last runs when a driver has it run; and when one is waited for, while all are those of one pool. */
bool one_pool;
static void *(*started)(void *);
static void *started_with;

int pthread_create(pthread_t *thread, const pthread_attr_t *attributes, void *(*start)(void *), void *argument) {
    (void)attributes;
    if (is_refused()) return EAGAIN;
    memset(thread, 0, sizeof *thread);
    started = start, started_with = argument;
    return 0;
}

void run_started(void) { (void)started(started_with); }

int pthread_join(pthread_t thread, void **result) {
    (void)thread, (void)result;
    if (one_pool) run_started();
    return 0;
}

pthread_t pthread_self(void) {
    pthread_t thread;
    memset(&thread, 0, sizeof thread);
    return thread;
}

int pthread_equal(pthread_t one, pthread_t other) {
    (void)one, (void)other;
    return 1;
}

int pthread_detach(pthread_t thread) {
    (void)thread;
    return 0;
}

int pthread_mutex_init(pthread_mutex_t *lock, const pthread_mutexattr_t *attributes) {
    (void)lock, (void)attributes;
    return 0;
}

int pthread_mutex_destroy(pthread_mutex_t *lock) {
    (void)lock;
    return 0;
}

int pthread_mutex_lock(pthread_mutex_t *lock) {
    (void)lock;
    return 0;
}

int pthread_mutex_trylock(pthread_mutex_t *lock) {
    (void)lock;
    return is_refused() ? EBUSY : 0;
}

int pthread_mutex_unlock(pthread_mutex_t *lock) {
    (void)lock;
    return 0;
}

int pthread_cond_init(pthread_cond_t *condition, const pthread_condattr_t *attributes) {
    (void)condition, (void)attributes;
    return 0;
}

/* The first wait of each two is not in vain, and finds nothing to do. */
int pthread_cond_timedwait(pthread_cond_t *condition, pthread_mutex_t *lock, const struct timespec *until) {
    static int waits;
    (void)condition, (void)lock, (void)until;
    waits = !waits;
    return waits ? 0 : ETIMEDOUT;
}

int pthread_condattr_init(pthread_condattr_t *attributes) {
    (void)attributes;
    return 0;
}

int pthread_condattr_setclock(pthread_condattr_t *attributes, clockid_t clock) {
    (void)attributes, (void)clock;
    return 0;
}

int pthread_condattr_destroy(pthread_condattr_t *attributes) {
    (void)attributes;
    return 0;
}

int pthread_cond_destroy(pthread_cond_t *condition) {
    (void)condition;
    return 0;
}

int pthread_cond_signal(pthread_cond_t *condition) {
    (void)condition;
    return 0;
}

int pthread_cond_broadcast(pthread_cond_t *condition) {
    (void)condition;
    return 0;
}

int pthread_setcancelstate(int state, int *before) {
    *before = state;
    return 0;
}

int pthread_sigmask(int how, const sigset_t *set, sigset_t *before) {
    (void)how, (void)set;
    if (before != NULL) sigemptyset(before);
    return 0;
}
