/*
 * The pools of the library: the thread that calls, and POSIX threads, which end if they wait in vain and start again if a call needs them.
 */
#include "pools.h"
#include "process.h"

#include <errno.h>
#include <pthread.h>
#include <signal.h>
#include <stdatomic.h>
#include <time.h>
#include <unistd.h>

/* How many seconds a thread waits for parts before it ends. */
enum { PATIENCE = 1 };

/* How often a thread looks before it sleeps: some 20 microseconds, less than it takes to wake it. */
enum { LOOKS = 500 };

struct CvlThreads {
    size_t most;           /* how many there may be, with the one that calls */
    uint64_t process;      /* the one in which they are */
    pthread_mutex_t calls; /* held by the call whose parts are run */
    pthread_mutex_t lock;  /* held to read or write what follows */
    pthread_cond_t begun, ended;
    pthread_t threads[CVL_MOST_PARTS];
    size_t living; /* how many there are, without the one that calls; the others have ended, or were never started */
    CvlPart part;
    void *work;
    size_t parts, taken; /* how many parts there are, and were taken */
    bool stopping;
    size_t looks;         /* how often a thread looks before it sleeps: not at all if the threads share processors */
    _Atomic size_t left;  /* how many parts are not done; looked at without the lock */
    _Atomic size_t turns; /* changes if there is something to do; looked at without the lock */
};

void cvl_run_alone(void *state, CvlPart part, void *work, size_t parts) {
    (void)state;
    for (size_t k = 0; k < parts; k++) part(work, k);
}

CvlPool cvl_pool_alone(size_t parts) {
    const CvlPool pool = {parts, cvl_run_alone, NULL};
    return pool;
}

/* Tells the processor that a thread waits in a loop, so that others get what it shares with them. */
static void pause_briefly(void) {
#if defined(__x86_64__) || defined(__i386__)
    __builtin_ia32_pause();
#elif defined(__aarch64__)
    __asm__ volatile("yield");
#endif
}

static bool has_begun(CvlThreads *t, size_t turn) { return atomic_load_explicit(&t->turns, memory_order_relaxed) != turn; }

static bool has_ended(CvlThreads *t, size_t turn) {
    (void)turn;
    return atomic_load_explicit(&t->left, memory_order_relaxed) == 0;
}

/* Looks for some time before the thread sleeps. The lock is held before and after, and not meanwhile. */
static void look_for(CvlThreads *t, bool (*found)(CvlThreads *, size_t), size_t turn) {
    if (t->looks == 0) return;
    pthread_mutex_unlock(&t->lock);
    for (size_t k = 0; k < t->looks && !found(t, turn); k++) pause_briefly();
    pthread_mutex_lock(&t->lock);
}

/* Takes parts until none is left. The lock is held, but not while a part runs. */
static void take_parts(CvlThreads *t) {
    while (t->taken < t->parts) {
        const size_t k = t->taken++;
        const CvlPart part = t->part;
        void *const work = t->work;
        pthread_mutex_unlock(&t->lock);
        part(work, k);
        pthread_mutex_lock(&t->lock);
        if (--t->left == 0) pthread_cond_signal(&t->ended);
    }
}

/* Waits for parts, and answers whether that was in vain. First it stays awake, since steps and calls often follow one another. */
static bool waits_in_vain(CvlThreads *t) {
    const size_t turn = t->turns;
    struct timespec until;
    look_for(t, has_begun, turn);
    if (t->turns != turn) return 0;
    clock_gettime(CLOCK_MONOTONIC, &until);
    until.tv_sec += PATIENCE;
    return pthread_cond_timedwait(&t->begun, &t->lock, &until) != 0;
}

/* Takes the thread that calls out of those that are waited for. */
static void leave(CvlThreads *t) {
    size_t k = 0;
    while (!pthread_equal(t->threads[k], pthread_self())) k++;
    t->threads[k] = t->threads[--t->living];
    pthread_detach(pthread_self());
}

/* Signals that a thread gets for what it does, such as touching a guarded page: the process would be killed if the thread blocked them. */
static void take_own_faults(void) {
    static const int own[] = {SIGSEGV, SIGBUS, SIGFPE, SIGILL, SIGTRAP, SIGSYS};
    sigset_t faults;
    sigemptyset(&faults);
    for (size_t k = 0; k < sizeof own / sizeof *own; k++) sigaddset(&faults, own[k]);
    pthread_sigmask(SIG_UNBLOCK, &faults, NULL);
}

/* Parts that came while the time ran out are taken: a call counts on each thread that has not left. */
static void *wait_for_parts(void *threads) {
    CvlThreads *t = threads;
    bool in_vain = 0;
    take_own_faults();
    pthread_mutex_lock(&t->lock);
    while (!t->stopping && (!in_vain || t->taken < t->parts)) {
        take_parts(t);
        in_vain = !t->stopping && waits_in_vain(t);
    }
    if (!t->stopping) leave(t);
    pthread_mutex_unlock(&t->lock);
    return NULL;
}

/*
 * Starts as many threads as so many parts need, and answers 0 or the number of an error. The lock is held. A thread begins with all signals
 * blocked, since those that are sent to the process go to the program's own threads.
 */
static int start_missing(CvlThreads *t, size_t parts) {
    const size_t needed = parts < t->most ? parts : t->most;
    sigset_t all, before;
    int failed = 0;
    if (t->living + 1 >= needed) return 0;
    sigfillset(&all);
    pthread_sigmask(SIG_SETMASK, &all, &before);
    while (failed == 0 && t->living + 1 < needed) {
        failed = pthread_create(&t->threads[t->living], NULL, wait_for_parts, t);
        if (failed == 0) t->living++;
    }
    pthread_sigmask(SIG_SETMASK, &before, NULL);
    return failed;
}

/*
 * The threads are those of one process, and serve one call at a time: any other runs alone. A thread that cannot be started leaves its
 * parts to the others. No call is cancelled while it waits, since the threads would be taken for ever.
 */
void cvl_run_posix(void *state, CvlPart part, void *work, size_t parts) {
    CvlThreads *t = state;
    int cancels;
    if (t == NULL || t->process != cvl_process() || pthread_mutex_trylock(&t->calls) != 0) {
        cvl_run_alone(NULL, part, work, parts);
        return;
    }
    pthread_setcancelstate(PTHREAD_CANCEL_DISABLE, &cancels);
    pthread_mutex_lock(&t->lock);
    t->part = part, t->work = work, t->parts = parts, t->taken = 0, t->left = parts;
    t->turns++;
    start_missing(t, parts);
    pthread_cond_broadcast(&t->begun);
    take_parts(t);
    if (t->left > 0) look_for(t, has_ended, 0);
    while (t->left > 0) pthread_cond_wait(&t->ended, &t->lock);
    t->parts = 0, t->taken = 0;
    pthread_mutex_unlock(&t->lock);
    pthread_mutex_unlock(&t->calls);
    pthread_setcancelstate(cancels, &cancels);
}

CvlPool cvl_pool_posix(CvlThreads *threads) {
    const CvlPool pool = {threads == NULL ? 1 : threads->most, cvl_run_posix, threads};
    return pool;
}

/* Waits for the call that is at work, and for the threads, which end. */
static void end_all(CvlThreads *t) {
    pthread_mutex_lock(&t->calls);
    pthread_mutex_lock(&t->lock);
    t->stopping = 1;
    t->turns++;
    pthread_cond_broadcast(&t->begun);
    pthread_mutex_unlock(&t->lock);
    for (size_t k = 0; k < t->living; k++) pthread_join(t->threads[k], NULL);
    pthread_mutex_unlock(&t->calls);
    pthread_cond_destroy(&t->ended);
    pthread_cond_destroy(&t->begun);
    pthread_mutex_destroy(&t->lock);
    pthread_mutex_destroy(&t->calls);
}

/*
 * A thread that is cancelled while it waits would leave the threads half ended. The child of a fork takes the lock, unless it was held at
 * the fork, so that the thread sanitizer knows what the parent's threads have done.
 */
void cvl_threads_stop(CvlThreads *t) {
    int cancels;
    if (t == NULL) return;
    pthread_setcancelstate(PTHREAD_CANCEL_DISABLE, &cancels);
    if (t->process == cvl_process()) end_all(t);
    else if (pthread_mutex_trylock(&t->lock) == 0) pthread_mutex_unlock(&t->lock);
    free(t);
    pthread_setcancelstate(cancels, &cancels);
}

CvlThreads *cvl_threads_made(size_t threads) {
    pthread_condattr_t steady;
    CvlThreads *t = calloc(1, sizeof *t);
    if (t == NULL) return NULL;
    t->most = threads;
    t->process = cvl_process();
    t->looks = threads <= (size_t)sysconf(_SC_NPROCESSORS_ONLN) ? LOOKS : 0;
    atomic_init(&t->left, 0);
    atomic_init(&t->turns, 0);
    pthread_mutex_init(&t->calls, NULL);
    pthread_mutex_init(&t->lock, NULL);
    pthread_cond_init(&t->ended, NULL);
    pthread_condattr_init(&steady);
    pthread_condattr_setclock(&steady, CLOCK_MONOTONIC);
    pthread_cond_init(&t->begun, &steady);
    pthread_condattr_destroy(&steady);
    return t;
}

int cvl_threads_start(size_t threads, CvlThreads **started) {
    if (started == NULL) return EINVAL;
    *started = NULL;
    if (threads < 1 || threads > CVL_MOST_PARTS) return EINVAL;
    CvlThreads *t = cvl_threads_made(threads);
    if (t == NULL) return ENOMEM;
    pthread_mutex_lock(&t->lock);
    const int failed = start_missing(t, threads);
    pthread_mutex_unlock(&t->lock);
    if (failed == 0) *started = t;
    else cvl_threads_stop(t);
    return failed;
}
