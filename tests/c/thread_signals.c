/*
 * Tries which signals the threads of the library take: none that is sent to the process, and each that a thread gets for what it
 * does, as by a program that guards pages of its own and learns by SIGSEGV and SIGBUS that one is written. It prints what is not
 * as it should be, and its status is then 1. `tests/c/run thread_signals` builds and runs it.
 */
#define _DEFAULT_SOURCE
#define PROGRAM "thread_signals"

enum { PAGE = 4096, PAGES = 16, LONG = PAGE / 4 * PAGES, THREADS = 4 };

#include "held.h"

#include <sys/mman.h>

/* A signal that a thread gets for what it does; abort() needs none of them, since it unblocks its own. */
static const int own[] = {SIGSEGV, SIGBUS, SIGFPE, SIGILL, SIGTRAP, SIGSYS};

enum { OWN = sizeof own / sizeof *own };

static bool is_own(int number) {
    int k = 0;
    while (k < OWN && own[k] != number) k++;
    return k < OWN;
}

/* The thread that calls, how many signals handlers took, and how many of them on other threads. */
static pthread_t caller;
static atomic_int taken, taken_elsewhere;

static void count_signal(void) {
    taken++;
    if (!pthread_equal(pthread_self(), caller)) taken_elsewhere++;
}

static void take_by(int number, void (*handler)(int, siginfo_t *, void *)) {
    struct sigaction action;
    memset(&action, 0, sizeof action);
    action.sa_flags = SA_SIGINFO;
    action.sa_sigaction = handler;
    if (sigaction(number, &action, NULL) != 0) abort();
    taken = taken_elsewhere = 0;
}

/* ---- pages of the program's own as a room ---- */

static char *guarded;
static int file;

/* Opens the page that is written. */
static void open_page(int number, siginfo_t *about, void *context) {
    const char *at = (const char *)about->si_addr;
    char *page = guarded + (at - guarded) / PAGE * PAGE;
    (void)number, (void)context;
    if (at < guarded || at >= guarded + PAGES * PAGE || mprotect(page, PAGE, PROT_READ | PROT_WRITE) != 0) _exit(3);
    count_signal();
}

/* Makes a file as long as its pages. */
static void make_pages(int number, siginfo_t *about, void *context) {
    (void)number, (void)about, (void)context;
    if (ftruncate(file, PAGES * PAGE) != 0) _exit(3);
    count_signal();
}

/* An addition into the pages, of which each part is at work before one writes. */
static void *add_there(void *right) {
    int32_t *out = (int32_t *)(void *)guarded;
    caller = pthread_self();
    *(bool *)right = cvl_add_wuz(a, wanted, out, LONG).number == CVL_DONE;
    for (size_t k = 0; k < LONG; k++) *(bool *)right = *(bool *)right && out[k] == a[k] + wanted[k];
    return NULL;
}

static bool adds_there(void) {
    pthread_t thread;
    bool right = false;
    parts_at_work = 0;
    are_held = true;
    begin(&thread, add_there, &right);
    BECOMES(parts_at_work == THREADS);
    are_held = false;
    pthread_join(thread, NULL);
    return right && parts_at_work == THREADS;
}

static int barrier(const char *with) {
    (void)with;
    guarded = mmap(NULL, PAGES * PAGE, PROT_NONE, MAP_PRIVATE | MAP_ANONYMOUS, -1, 0);
    if (guarded == MAP_FAILED || cvl_set_threads(THREADS) != 0) return 2;
    take_by(SIGSEGV, open_page);
    return adds_there() && taken == PAGES && taken_elsewhere >= PAGES / THREADS ? 0 : 1;
}

/* Each thread may find that there are no pages yet. */
static int pager(const char *with) {
    FILE *opened = tmpfile();
    (void)with;
    if (opened == NULL || cvl_set_threads(THREADS) != 0) return 2;
    file = fileno(opened);
    guarded = mmap(NULL, PAGES * PAGE, PROT_READ | PROT_WRITE, MAP_SHARED, file, 0);
    if (guarded == MAP_FAILED) return 2;
    take_by(SIGBUS, make_pages);
    return adds_there() && taken > 0 ? 0 : 1;
}

static void own_pages(void) {
    check("a program that guards its pages is killed, or gets another result", in_a_child(barrier, "") == 0);
    for (int k = 0; k < 5; k++)
        check("a program that makes its pages late is killed, or gets another result", in_a_child(pager, "") == 0);
}

/* ---- each signal ---- */

static void only_count(int number, siginfo_t *about, void *context) {
    (void)number, (void)about, (void)context;
    count_signal();
}

static atomic_int raised, wrongly_blocked;

/* Each part sends its thread one of its own signals, and looks at what the thread blocks. */
static void raise_part(void *number, size_t k) {
    sigset_t blocked;
    (void)k;
    raised++;
    BECOMES(raised >= THREADS);
    pthread_kill(pthread_self(), *(const int *)number);
    if (pthread_equal(pthread_self(), caller)) return;
    pthread_sigmask(SIG_BLOCK, NULL, &blocked);
    for (int s = 1; s < SIGRTMAX; s++) {
        const bool is_kept = s == SIGKILL || s == SIGSTOP || (s > SIGSYS && s < SIGRTMIN);
        if (!is_kept && sigismember(&blocked, s) == is_own(s)) wrongly_blocked++;
    }
}

/*
 * By new threads for each: those that were started while all signals are blocked, as in a program that has one thread for them,
 * are no others.
 */
static void each_signal(void) {
    sigset_t all, before;
    caller = pthread_self();
    for (int k = 0; k < 2 * OWN; k++) {
        CvlThreads *threads = NULL;
        int number = own[k % OWN];
        sigfillset(&all);
        if (k >= OWN) pthread_sigmask(SIG_SETMASK, &all, &before);
        check("a pool can't be started", cvl_threads_start(THREADS, &threads) == 0);
        if (k >= OWN) pthread_sigmask(SIG_SETMASK, &before, NULL);
        const CvlPool pool = cvl_pool_posix(threads);
        take_by(number, only_count);
        raised = wrongly_blocked = 0;
        pool.run(pool.state, raise_part, &number, THREADS);
        check("a thread blocks a signal that it gets for what it does", taken == THREADS && taken_elsewhere == THREADS - 1);
        check("a thread blocks other signals than it should", wrongly_blocked == 0);
        cvl_threads_stop(threads);
        signal(number, SIG_DFL);
    }
}

int main(void) {
    unsetenv("CVL_NUM_THREADS");
    fill_vectors();
    TRY(own_pages);
    TRY(each_signal);
    return result_of_tests("threads take the signals of what they do, and no others");
}
